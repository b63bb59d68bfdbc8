//! What is worked by hand and is no request: the table of first bytes, the
//! reader of operands, word positions, and the format's digest.

use second::archive::is_accepted;
use second::bench::{Runner, Window};
use second::cases::digest;
use second::fast;
use second::generate::SMALL;
use second::hand::{carried, hand_segment};
use second::machine::{self, instruction, Kind, Session};
use second::segment::{Missing, Reader, Segment};

#[test]
fn the_carried_first_bytes() {
    let carried = carried();
    for first in 0..=255u8 {
        assert_eq!(instruction(first).is_some(), carried.contains(&first), "{first}");
    }
    assert_eq!(carried.len(), 140);
}

#[test]
fn names_and_routines() {
    let segment = Segment::judge(&SMALL).unwrap();
    assert_eq!(&segment.name, b"POND    ");
    assert_eq!(segment.reserved, [0, 0]);
    let bytes = hand_segment(0);
    let segment = Segment::judge(&bytes).unwrap();
    assert_eq!(&segment.name, b"HANDMADE");
    assert_eq!(segment.global_size(), 2);
    assert_eq!(segment.routine(0), None);
    assert_eq!(segment.routine(4), None);
    assert_eq!(segment.routine(u64::MAX), None);
    let mut unlinked = bytes.clone();
    unlinked[26] = 0;
    let segment = Segment::judge(&unlinked).unwrap();
    assert_eq!(segment.count(), 3);
    let linked = [1, 2, 3].map(|number| segment.routine(number).unwrap().is_linked());
    assert_eq!(linked, [true, false, true]);
}

#[test]
fn word_positions() {
    let positions = |bytes: &[u8]| -> Vec<u32> {
        Segment::judge(bytes).unwrap().word_positions().into_iter().collect()
    };
    assert_eq!(positions(&SMALL), [0, 1, 6, 7, 8, 9, 10, 11, 12, 13, 14]);
    assert_eq!(
        positions(&hand_segment(0)),
        [0, 1, 6, 7, 8, 9, 10, 11, 12, 13, 14, 15, 16, 39, 40, 49, 50]
    );
    // routine 2 unlinked: 02, request 1, "it has no word positions"
    let mut unlinked = hand_segment(0);
    unlinked[26] = 0;
    assert_eq!(positions(&unlinked), [0, 1, 6, 7, 8, 9, 10, 11, 12, 13, 14, 15, 16, 49, 50]);
}

/// 02, request 2: the words of the pool that may be read, as their bytes lie and
/// as signed numbers in the segment's own sex.
#[test]
fn words_of_the_pool() {
    let mut bytes = hand_segment(56);
    bytes[112..].copy_from_slice(&[3, 0, 0xFE, 0xFF, 0x12, 0x34, 1, 2, 3, 4, 5, 6, 7, 8, 9, 10]);
    let segment = Segment::judge(&bytes).unwrap();
    assert_eq!((segment.pool, segment.real_start), (56, 59));
    assert_eq!(segment.pool_bytes(0), Some([3, 0]));
    assert_eq!(segment.pool_word(1), Some(-2));
    assert_eq!(segment.pool_bytes(2), Some([0x12, 0x34]));
    assert_eq!(segment.pool_word(2), Some(0x3412));
    for offset in [3, 7, 8, 32_767, 65_535 + 32_770] {
        assert_eq!((segment.pool_bytes(offset), segment.pool_word(offset)), (None, None));
    }
    let bytes = hand_segment(0);
    let segment = Segment::judge(&bytes).unwrap();
    assert_eq!((segment.pool, segment.real_start), (0, 0));
    for offset in [0, 11, 56, 63] {
        assert_eq!(segment.pool_bytes(offset), None);
    }
}

#[test]
fn operands() {
    let mut bytes = hand_segment(0);
    bytes[50..59].copy_from_slice(&[0x7F, 0x80, 0x7F, 0x80, 0x80, 0xFF, 0xFF, 0x34, 0x12]);
    let segment = Segment::judge(&bytes).unwrap();
    let at = |place| Reader::at(&segment, place);
    let b = |place| {
        let mut reader = at(place);
        let value = reader.b();
        (value, reader.place - place)
    };
    assert_eq!(b(50), (Ok(127), 1)); // (a)
    assert_eq!(b(51), (Ok(127), 2)); // (b)
    assert_eq!(b(53), (Ok(128), 2)); // (c)
    assert_eq!(b(55), (Ok(32_767), 2)); // (d)
    assert_eq!(at(57).w(), Ok(4_660)); // (f)
    assert_eq!(at(55).w(), Ok(-1));
    assert_eq!(at(55).ub(), Ok(255));
    assert_eq!(at(55).sb(), Ok(-1));
    assert_eq!(at(51).sb(), Ok(-128));
    assert_eq!(at(50).sb(), Ok(127));
    assert_eq!(at(50).db(), Ok(127));
    assert_eq!(at(51).db(), Ok(128)); // judged later, by the step
    assert_eq!(at(22).ub(), Ok(3));
}

/// 02, request 8: "The operand reader shall report the offset of the first byte
/// it could not fetch".
#[test]
fn the_first_missing_byte() {
    let mut bytes = hand_segment(0);
    bytes[126..].copy_from_slice(&[0x80, 0x80]);
    let segment = Segment::judge(&bytes).unwrap();
    let at = |place| Reader::at(&segment, place);
    let end = Err(Missing(128));
    assert_eq!(at(127).b(), end.map(|()| 0)); // (e)
    assert_eq!(at(128).b(), end.map(|()| 0));
    assert_eq!(at(126).b(), Ok(128));
    assert_eq!(at(127).w(), end.map(|()| 0));
    assert_eq!(at(128).w(), end.map(|()| 0));
    assert_eq!(at(126).w(), Ok(-32_640));
    // outside 22..2W-1 it is the byte asked for, not the segment's length
    for place in [0, 21, 128, 129, 200, u64::MAX] {
        let missing = Missing(place);
        assert_eq!(at(place).ub(), Err(missing));
        assert_eq!(at(place).sb(), Err(missing));
        assert_eq!(at(place).db(), Err(missing));
        assert_eq!(at(place).b(), Err(missing));
        assert_eq!(at(place).w(), Err(missing));
        // and the reader stays on it
        let mut reader = at(place);
        assert_eq!((reader.byte(), reader.place), (Err(missing), place));
    }
}

/// 02, request 8: "A first byte out of range gives the same place as before.",
/// also where no sound session has its counter.
#[test]
fn a_step_from_any_counter() {
    let mut bytes = hand_segment(0);
    bytes[127] = 128; // LDCB, cut
    let segment = Segment::judge(&bytes).unwrap();
    for (counter, place) in [(0, 0), (21, 21), (127, 128), (128, 128), (129, 129), (u64::MAX, u64::MAX)] {
        let kind = Kind::Faulted { number: 1, place };
        for runner in [machine::turn as Runner, fast::turn] {
            let mut session = Session { counter, ..machine::starting_state(&segment, 16) };
            let before = session;
            assert_eq!(runner(&segment, &[], &mut [0; 16], &mut session, 9), 1);
            assert_eq!(session, Session { kind, ..before });
        }
    }
}

#[test]
fn the_digest() {
    assert_eq!(digest([]), 0);
    assert_eq!(digest([1, 2]), 16_777_621);
    assert_eq!(digest([1 << 32]), 0);
    // (255 * 16777619 + 256) mod 4294967291
    assert_eq!(digest([255, 256]), 4_278_293_101);
    // 256 * 16777619 = 4295070464, which leaves 103173
    assert_eq!(digest([256, 0]), 103_173);
}

/// 02, request 7: "A window not inside the S words"; its words among the S words.
#[test]
fn windows_and_their_words() {
    let shared = [10, 11, 12, 13, 14];
    let window = |first, count| Window { first, count };
    for (first, count, words) in [
        (0, 5, &[10, 11, 12, 13, 14][..]), (1, 3, &[11, 12, 13]), (4, 1, &[14]), (5, 0, &[]), (0, 0, &[]), (2, 0, &[]),
    ] {
        assert!(window(first, count).is_inside(5));
        assert_eq!(window(first, count).words(&shared), Some(words));
    }
    for (first, count) in [(6, 0), (5, 1), (0, 6), (1, 5), (u64::MAX, 1), (u64::MAX, 6), (2, u64::MAX), (1 << 63, 1 << 63)] {
        assert!(!window(first, count).is_inside(5));
        assert_eq!(window(first, count).words(&shared), None);
    }
    assert!(Window::NONE.is_inside(0) && Window::all(0) == Window::NONE);
}

/// 02, request 7: "accepted exactly if S is a multiple of 4 and farm numbers never
/// fall from one record to the next".
#[test]
fn archives() {
    assert!(is_accepted(&[]));
    assert!(is_accepted(&[5, 9, 9, 9, 5, 0, 0, 0, 6, 0, 0, 0]));
    assert!(is_accepted(&[32_767, 0, 0, 0, 32_768, 0, 0, 0]));
    assert!(!is_accepted(&[5, 0, 0, 0, 4, 0, 0, 0]));
    assert!(!is_accepted(&[5, 0, 0, 0, 6]));
    assert!(!is_accepted(&[65_535, 0, 0, 0, 0, 0, 0, 0]));
}
