//! Unlinked routines, request 1 of 02: judged, turned, called, returned to, and
//! on a bench.

use super::benches::{close, in_slot, open};
use super::marked::{faulted, opened, runs};
use super::segments::{hand_numbers, hand_with, many};
use super::{
    at_record, down_to, fill_words, hand_segment, ready, routine, set_bytes, set_words, Rig, Table,
};
use crate::generate::SMALL;
use crate::segment::Routine;
use crate::world::{blank_bench, Call, Judged, World, UNWRITTEN};

/// "A zero entry counts as start, DATASIZE and EXITIC 0." (02, request 14)
const UNLINKED: Routine = Routine { entry: 0, data_size: 0, exit_ic: 0, start: 0 };

pub fn fill(t: &mut Table) {
    zero_is_lawful(t);
    routine_1_at_zero(t);
    entries_at_limits(t);
    no_checks_6_to_8(t);
    later_routines_are_judged(t);
    zeros_with_another_use(t);
    turning(t);
    turning_many(t);
    turning_refused(t);
    calls_fault_with_8(t);
    linked_ones_are_called(t);
    nine_comes_before_8(t);
    eight_comes_before_4(t);
    operands_come_first(t);
    returns_to_an_unlinked_routine(t);
    a_session_in_an_unlinked_routine(t);
    a_bench_of_unlinked_routines(t);
    every_call_in_a_run(t);
    routine_255(t);
    loading_judges(t);
}

/// The same segment most byte first: these words swapped.
pub fn swapped(bytes: &[u8], words: impl IntoIterator<Item = usize>) -> Vec<u8> {
    let mut bytes = bytes.to_vec();
    for word in words {
        bytes.swap(2 * word, 2 * word + 1);
    }
    bytes
}

/// The hand segment's words 0, 1 and 6 to 16: the header, the dictionary, and
/// EXITIC and DATASIZE of routine 1.
fn as_far_as_routine_1() -> Vec<usize> {
    [0, 1].into_iter().chain(6..=16).collect()
}

/// The hand segment's numbers with some routines unlinked.
fn hand_without(unlinked: &[usize]) -> Judged {
    let mut judged = hand_numbers();
    for number in unlinked {
        judged.routines[number - 1] = UNLINKED;
    }
    judged
}

fn zero_is_lawful(t: &mut Table) {
    t.says(r#"02, request 1: "An entry of zero is lawful for every routine but routine 1"; request 14: "A zero entry counts as start, DATASIZE and EXITIC 0.""#);
    let cases: [(&[usize], &[usize]); 3] =
        [(&[2], &[49, 50]), (&[3], &[39, 40]), (&[2, 3], &[])];
    for (unlinked, others) in cases {
        let words: Vec<(usize, u16)> = unlinked.iter().map(|number| (11 + number, 0)).collect();
        let bytes = hand_with(&words);
        let judged = hand_without(unlinked);
        t.judged(&format!("unlinked: {unlinked:?}"), &bytes, judged.clone());
        let most_first = swapped(&bytes, as_far_as_routine_1().into_iter().chain(others.iter().copied()));
        let judged = Judged { least_first: false, ..judged };
        t.judged(&format!("unlinked, most byte first: {unlinked:?}"), &most_first, judged);
    }
}

fn routine_1_at_zero(t: &mut Table) {
    t.says(r#"02, request 1: "Routine 1 at zero still gets 6.""#);
    let mut small = SMALL.to_vec();
    set_words(&mut small, &[(12, 0)]);
    t.refused("the small segment's one entry zero", &small, 6, 1);
    t.refused("the same most byte first", &swapped(&small, 0..=14), 6, 1);
    t.refused("routine 1 of three", &hand_with(&[(12, 0)]), 6, 1);
    t.refused("routines 1 and 2", &hand_with(&[(12, 0), (13, 0)]), 6, 1);
    t.refused("routines 1 and 3", &hand_with(&[(12, 0), (14, 0)]), 6, 1);
    let all = hand_with(&[(12, 0), (13, 0), (14, 0)]);
    t.refused("all three", &all, 6, 1);
    t.refused("all three, most byte first", &swapped(&all, as_far_as_routine_1()), 6, 1);
    t.refused("n = 0 and routine 1 at zero", &hand_with(&[(11, 0), (12, 0)]), 5, 0);
    t.refused("routine 1's DATASIZE, and 2 at zero", &hand_with(&[(16, 32_768), (13, 0)]), 7, 1);
    t.refused("routine 1's EXITIC, and 2 at zero", &hand_with(&[(15, 21), (13, 0)]), 8, 1);
}

/// W = 300, D = 11, n = 255; entries 290, but for one routine.  Words 289 and
/// 290 are 22 and 7, words 297 and 298 are 30 and 5.
fn crowd(number: usize, entry: u16) -> Vec<u8> {
    let mut bytes = many(255);
    set_words(&mut bytes, &[(297, 30), (298, 5), (11 + number, entry)]);
    bytes
}

/// The words of `crowd` that are numbers.
fn crowd_words() -> impl Iterator<Item = usize> {
    [0, 1].into_iter().chain(6..=266).chain([289, 290, 297, 298])
}

/// Judged or refused, the answer given for least byte first.
fn in_sex(t: &mut Table, most_first: bool, name: &str, bytes: &[u8], answer: Result<Judged, (u32, u32)>) {
    let (name, bytes) = match most_first {
        true => (format!("{name}, most byte first"), swapped(bytes, crowd_words())),
        false => (name.to_string(), bytes.to_vec()),
    };
    match answer {
        Ok(judged) => t.judged(&name, &bytes, Judged { least_first: !most_first, ..judged }),
        Err((number, place)) => t.refused(&name, &bytes, number, place),
    }
}

fn entries_at_limits(t: &mut Table) {
    t.says(r#""6 an entry outside 12..W-2"; 02, request 1: "An entry of zero is lawful for every routine but routine 1""#);
    for most_first in [false, true] {
        for number in [1, 2, 255] {
            for entry in [0, 1, 11, 12, 298, 299, 300, 65_535] {
                let name = format!("entry of routine {number} of 255: {entry}");
                let answer = with_entry(number, entry);
                in_sex(t, most_first, &name, &crowd(number, entry), answer);
            }
        }
        // the low byte alone is zero: words 255 and 256 are entries, 290
        let mut routines = vec![routine(290, 7, 22, 582); 255];
        routines[1] = routine(256, 290, 290, 514);
        let judged = Judged { words: 300, real_size: 0, routines, ..hand_numbers() };
        in_sex(t, most_first, "entry 256", &crowd(2, 256), Ok(judged));
    }
}

/// What `crowd` with one of these entries is judged as.
fn with_entry(number: usize, entry: u16) -> Result<Judged, (u32, u32)> {
    // entry 12 has DATASIZE in word 12, routine 1's entry, and EXITIC in word
    // 11, n
    let word_12 = if number == 1 { 12 } else { 290 };
    let lawful = match entry {
        0 if number > 1 => Some(UNLINKED),
        12 => Some(routine(12, word_12, 255, 26)),
        298 => Some(routine(298, 5, 30, 598)),
        _ => None,
    };
    let mut routines = vec![routine(290, 7, 22, 582); 255];
    lawful.ok_or((6, number as u32)).map(|lawful| {
        routines[number - 1] = lawful;
        Judged { words: 300, real_size: 0, routines, ..hand_numbers() }
    })
}

fn no_checks_6_to_8(t: &mut Table) {
    t.says(r#"02, request 1: a zero entry "has no word positions and no checks 6 to 8""#);
    // words 39 and 40 were routine 2's EXITIC and DATASIZE
    let loose = hand_with(&[(13, 0), (39, 0), (40, 65_535)]);
    t.judged("what is no DATASIZE and no EXITIC", &loose, hand_without(&[2]));
    // word 0 is D, and word 65,535 there is none
    let mut bytes = many(255);
    for number in 2..=255 {
        set_words(&mut bytes, &[(11 + number, 0)]);
    }
    let mut routines = vec![UNLINKED; 255];
    routines[0] = routine(290, 7, 22, 582);
    let judged = Judged { words: 300, real_size: 0, routines, ..hand_numbers() };
    for most_first in [false, true] {
        in_sex(t, most_first, "all but routine 1 of 255", &bytes, Ok(judged.clone()));
    }
    // the same at the greatest W; routine 2's entry is word 13
    let mut bytes = vec![0; 65_534];
    set_words(&mut bytes, &[(0, 11), (6, 1), (11, 2), (12, 32_765), (32_764, 65_533), (32_765, 4)]);
    let routines = vec![routine(32_765, 4, 65_533, 65_532), UNLINKED];
    let judged = Judged { words: 32_767, real_size: 0, routines, ..hand_numbers() };
    t.judged("routine 2 at W = 32,767", &bytes, judged);
}

fn later_routines_are_judged(t: &mut Table) {
    t.says(r#""then 6, 7, 8 for routine 1, then routine 2, and so on": a zero entry ends nothing"#);
    for entry in [1, 11, 63, 64, 256, 65_535] {
        t.refused(&format!("2 at zero, 3 at {entry}"), &hand_with(&[(13, 0), (14, entry)]), 6, 3);
    }
    for (words, number) in [((50, 32_768), 7), ((50, 65_535), 7), ((49, 21), 8), ((49, 128), 8)] {
        t.refused(&format!("2 at zero, word {words:?}"), &hand_with(&[(13, 0), words]), number, 3);
    }
    // 2 is bad, 3 at zero
    t.refused("2 at 11, 3 at zero", &hand_with(&[(13, 11), (14, 0)]), 6, 2);
    t.refused("2's DATASIZE, 3 at zero", &hand_with(&[(40, 32_768), (14, 0)]), 7, 2);
    t.refused("2's EXITIC, 3 at zero", &hand_with(&[(39, 0), (14, 0)]), 8, 2);
    // 2 to 254 at zero, 255 bad; words 270 and 271 are 0 and 0
    for (entry, words, refused) in
        [(11, (271, 0), 6), (299, (271, 0), 6), (271, (271, 32_768), 7), (271, (271, 0), 8)]
    {
        let mut bytes = crowd(255, entry);
        for number in 2..=254 {
            set_words(&mut bytes, &[(11 + number, 0)]);
        }
        set_words(&mut bytes, &[words]);
        t.refused(&format!("255 at {entry} after zeros"), &bytes, refused, 255);
    }
}

fn zeros_with_another_use(t: &mut Table) {
    t.says(r#""EXITIC is word e-1", also where that word is an entry; 02, request 1: "no checks 6 to 8""#);
    // routine 1's entry 15: DATASIZE is word 15 (34), EXITIC routine 3's entry
    t.refused("a zero that is EXITIC of routine 1", &hand_with(&[(12, 15), (14, 0)]), 8, 1);
    // entry 14: DATASIZE is routine 3's entry, EXITIC routine 2's (40)
    let bytes = hand_with(&[(12, 14), (14, 0)]);
    let routines = vec![routine(14, 0, 40, 30), routine(40, 3, 82, 82), UNLINKED];
    t.judged("a zero that is DATASIZE of routine 1", &bytes, Judged { routines, ..hand_numbers() });
    let words = [0, 1].into_iter().chain(6..=14).chain([39, 40]);
    t.turned("the same turned", &bytes, &swapped(&bytes, words), 0);
}

/// The hand segment with entries, and every other byte from 34 on its own
/// number, so that a byte which moves shows.
fn telling(entries: &[(usize, u16)]) -> Vec<u8> {
    let mut bytes = hand_with(entries);
    for at in (34..128).filter(|at| ![39, 40, 49, 50].contains(&(at / 2))) {
        set_bytes(&mut bytes, at, &[at as u8]);
    }
    bytes
}

fn turning(t: &mut Table) {
    t.says(r#"02, request 1: a zero entry "has no word positions"; "Turning a segment swaps the two bytes at each word position once, even if two rules name it, and copies every other byte.""#);
    let cases: [(&str, &[(usize, u16)], &[usize]); 3] = [
        ("routine 2", &[(13, 0)], &[49, 50]),
        ("routine 3", &[(14, 0)], &[39, 40]),
        ("routines 2 and 3", &[(13, 0), (14, 0)], &[]),
    ];
    for (name, entries, others) in cases {
        let bytes = telling(entries);
        let turned = swapped(&bytes, as_far_as_routine_1().into_iter().chain(others.iter().copied()));
        t.turned(&format!("{name} unlinked, turned"), &bytes, &turned, 0);
        t.turned(&format!("{name} unlinked, turned twice"), &turned, &bytes, 0);
        let mut longer = turned.clone();
        longer.extend([UNWRITTEN; 5]);
        t.turned(&format!("{name} unlinked, turned into more bytes"), &bytes, &longer, 0);
    }
    // two unlinked ones, so that word 0 might be swapped back
    let mut bytes = telling(&[(11, 5), (12, 20), (13, 0), (14, 0), (15, 0), (16, 0)]);
    set_words(&mut bytes, &[(19, 99), (20, 1)]);
    let words = [0, 1].into_iter().chain(6..=16).chain([19, 20]);
    let turned = swapped(&bytes, words);
    t.turned("four of five unlinked, turned", &bytes, &turned, 0);
    t.turned("four of five unlinked, turned twice", &turned, &bytes, 0);
}

fn turning_many(t: &mut Table) {
    t.says(r#"02, request 1: a zero entry "has no word positions", for any number of them"#);
    // 254 unlinked ones; the last words are 1, 2, 3, ...
    let mut bytes = many(255);
    for number in 2..=255 {
        set_words(&mut bytes, &[(11 + number, 0)]);
    }
    for (at, byte) in (582..600).zip(1..) {
        set_bytes(&mut bytes, at, &[byte]);
    }
    let words = || [0, 1].into_iter().chain(6..=266).chain([289, 290]);
    t.turned("254 of 255 unlinked, turned", &bytes, &swapped(&bytes, words()), 0);
    t.turned("254 of 255 unlinked, turned twice", &swapped(&bytes, words()), &bytes, 0);
    // every second one
    for number in (3..=255).step_by(2) {
        set_words(&mut bytes, &[(11 + number, 290)]);
    }
    t.turned("every second unlinked, turned", &bytes, &swapped(&bytes, words()), 0);
    t.turned("every second unlinked, turned twice", &swapped(&bytes, words()), &bytes, 0);
}

fn turning_refused(t: &mut Table) {
    t.says(r#""Turning 1 to 10"; 02, request 1: "Turning and soundness read from then on with the amended rule.""#);
    let bytes = telling(&[(13, 0)]);
    t.turned("a short output", &bytes, &[UNWRITTEN; 127], 10);
    let mut pool = bytes.clone();
    set_words(&mut pool, &[(7, 56), (56, 0)]);
    t.turned("a pool", &pool, &[UNWRITTEN; 128], 9);
    t.judged("a pool and an unlinked routine", &pool, Judged { pool: 56, real_start: 64, ..hand_without(&[2]) });
}

/// The calls of a routine, without links to follow, with one, and with two.
fn calls_of(number: u8) -> [Vec<u8>; 7] {
    [
        vec![144, number], // CPL
        vec![145, number], // CPG
        vec![146, 0, number], // CPI
        vec![146, 1, number],
        vec![239, number], // SCPI1
        vec![146, 2, number],
        vec![240, number], // SCPI2
    ]
}

/// The rig with routine 2 unlinked.
fn without_2<'a>(t: &'a mut Table, code: &[u8]) -> Rig<'a> {
    t.rig(code, &[]).with_segment_word(13, 0)
}

fn calls_fault_with_8(t: &mut Table) {
    t.says(r#"02, request 1: "Calling it gives fault 8."; "The place is the instruction's first byte. Only the session's kind changes.""#);
    for code in calls_of(2) {
        without_2(t, &code).faults(8);
        // the words where routine 2's numbers were say nothing
        without_2(t, &code).with_segment_word(40, 65_535).with_segment_word(39, 0).faults(8);
    }
    // n itself, and n+1, 0 and 255 beside it
    for code in calls_of(3) {
        t.rig(&code, &[]).with_segment_word(14, 0).faults(8);
    }
    for number in [4, 0, 255] {
        for code in calls_of(number) {
            t.rig(&code, &[]).with_segment_word(14, 0).faults(8);
        }
    }
    // the segment's last instruction, and words on the stack
    t.rig_at(126, &[144, 2], &[]).with_segment_word(13, 0).faults(8);
    t.rig(&[145, 2], &[7, 8, 9]).with_segment_word(13, 0).faults(8);
    // all but routine 1
    for number in [2, 3] {
        without_2(t, &[144, number]).with_segment_word(14, 0).faults(8);
    }
}

fn linked_ones_are_called(t: &mut Table) {
    t.says(r#""A call to routine k: [...] The new M and SP are SP-5-DATASIZE", where another routine is unlinked"#);
    let rig = without_2(t, &[144, 3]);
    rig.writes(35, &[20, 20, 36, 1, 1]).becomes("routine 3", ready(35, 35, 102, 3));
    let rig = without_2(t, &[145, 1]);
    rig.writes(33, &[1, 20, 36, 1, 1]).becomes("routine 1", ready(33, 33, 34, 1));
    let rig = t.rig(&[239, 2], &[]).with_segment_word(14, 0);
    rig.writes(32, &[12, 20, 36, 1, 1]).becomes("routine 2", ready(32, 32, 82, 2));
    let rig = t.rig(&[146, 2, 1], &[]).with_segment_word(13, 0).with_segment_word(14, 0);
    rig.writes(33, &[30, 20, 37, 1, 1]).becomes("all but it unlinked", ready(33, 33, 34, 1));
}

fn nine_comes_before_8(t: &mut Table) {
    t.says(r#""9 bad static link or mark; 8 [...]. This is also the order of checks"; 02, request 1: "Calling it gives fault 8.""#);
    for bad in [0, 36, 65_535] {
        // MSSTAT of the record at 20
        for code in &calls_of(2)[3..] {
            without_2(t, code).with_word(20, bad).faults(9);
        }
        for code in &calls_of(2)[..3] {
            without_2(t, code).with_word(20, bad).faults(8); // no link is followed
        }
        // MSSTAT of the record at 12, which two links reach
        for code in &calls_of(2)[5..] {
            without_2(t, code).with_word(12, bad).faults(9);
        }
        for code in &calls_of(2)[..5] {
            without_2(t, code).with_word(12, bad).faults(8);
        }
    }
    // n as well, and with a stack that is full
    t.rig(&[239, 3], &[]).with_segment_word(14, 0).with_word(20, 0).faults(9);
    without_2(t, &[240, 2]).with_word(20, 0).with_sp(8).faults(9);
}

fn eight_comes_before_4(t: &mut Table) {
    t.says(r#""8 [...]; 4 SP after the step would lie below 6+G. This is also the order of checks"; 02, request 1: "Calling it gives fault 8.""#);
    // 6+G is 8: no room for a mark at 12, just room at 13; D is 11, and a
    // DATASIZE read from word 0 would have room at 24
    for sp in [8, 9, 12, 13, 23, 24] {
        for code in calls_of(2) {
            without_2(t, &code).with_sp(sp).faults(8);
        }
    }
    t.rig(&[144, 3], &[]).with_segment_word(14, 0).with_sp(8).faults(8);
    t.rig(&[144, 4], &[]).with_segment_word(14, 0).with_sp(8).faults(8);
}

fn operands_come_first(t: &mut Table) {
    t.says(r#""All operands are fetched before a DB is judged."; 1 and 2 come before 8"#);
    for first in [144, 145, 146, 239, 240] {
        t.rig_at(127, &[first], &[]).with_segment_word(13, 0).runs_out();
    }
    t.rig_at(126, &[146, 0], &[]).with_segment_word(13, 0).runs_out();
    for db in [128, 255] {
        without_2(t, &[146, db, 2]).faults(2);
    }
    // 127 links: 20, 12, 30 and then word 30, which is 1030
    without_2(t, &[146, 127, 2]).faults(9);
    // a record that is its own parent
    without_2(t, &[146, 127, 2]).with_word(20, 20).faults(8);
}

fn returns_to_an_unlinked_routine(t: &mut Table) {
    t.says(r#""MSPROC in 1..n" is all that a return judges; open question 12: "only a call judges the entry""#);
    let returning = |t: &mut Table, word: usize, mark: [u16; 5], after: Result<u64, u8>| {
        let rig = t.rig(&[150, 0], &[]).with_sp(15).with_mark(20, mark).with_segment_word(word, 0);
        match after {
            Ok(routine) => rig.becomes("goes on in an unlinked routine", ready(25, 12, 40, routine)),
            Err(fault) => rig.faults(fault),
        }
    };
    returning(t, 13, [9_999, 12, 40, 1, 2], Ok(2));
    returning(t, 14, [0, 12, 40, 1, 3], Ok(3));
    returning(t, 14, [0, 12, 40, 1, 4], Err(9)); // n+1
    returning(t, 13, [0, 12, 40, 1, 0], Err(9));
    returning(t, 13, [0, 0, 40, 1, 2], Err(9)); // MSDYN
    returning(t, 13, [0, 12, 40, 2, 2], Err(9)); // MSENDV
    returning(t, 13, [0, 12, 21, 1, 2], Err(9)); // MSIPC
}

fn a_session_in_an_unlinked_routine(t: &mut Table) {
    t.says(r#""routine number in 1..n": a session may stand in an unlinked routine and go on; open question 12"#);
    without_2(t, &[156]).with_routine(2).becomes("goes on", ready(40, 20, 35, 2));
    without_2(t, &[5]).with_routine(2).writes(39, &[5]).becomes("goes on", ready(39, 20, 35, 2));
    // it calls a linked one; MSPROC is its own number
    let rig = without_2(t, &[144, 3]).with_routine(2);
    rig.writes(35, &[20, 20, 36, 1, 2]).becomes("calls", ready(35, 35, 102, 3));
    without_2(t, &[144, 2]).with_routine(2).faults(8); // itself
    without_2(t, &[150, 0]).with_routine(2).with_m(1).finishes();
}

/// S = 4, N = 60, every word 9; the segment at byte 2 of the store.
pub fn unloaded(bytes: &[u8]) -> World {
    let mut bench = blank_bench();
    (bench.shared, bench.words) = (4, 60);
    let mut store = vec![0xEE; 2];
    store.extend(bytes);
    World { bench, memory: vec![9; 60], store }
}

fn a_bench_of_unlinked_routines(t: &mut Table) {
    t.says(r#"02, request 1: "Unlinked reports won't load. [...] An entry of zero is lawful [...]. Calling it gives fault 8.""#);
    // SLDC5, CPL 2; routine 3 is linked
    let mut bytes = hand_with(&[(13, 0)]);
    set_bytes(&mut bytes, 34, &[5, 144, 2]);
    let most_first = swapped(&bytes, as_far_as_routine_1().into_iter().chain([49, 50]));
    let stopped = faulted(ready(19, 1, 35, 1), 8);
    for (name, bytes) in [("an unlinked report", bytes), ("the same most byte first", most_first)] {
        t.story(name, unloaded(&bytes))
            .goes(Call::Load { slot: 7, start: 2, length: 128 }, 0, |world| in_slot(world, 7, 2, 128))
            .sound(true)
            .goes(Call::Open { slot: 7, length: 20 }, 0, |world| open(world, 0, 7, 4, 20, 34))
            .goes(Call::Open { slot: 7, length: 16 }, 1, |world| open(world, 1, 7, 24, 16, 34))
            .sound(true)
            // one step, then the call
            .goes(Call::Turn { session: 0, k: 9 }, 2, |world| {
                fill_words(&mut world.memory, 4 + 19, &[5]);
                at_record(world, 0).session = stopped;
            })
            .sound(true)
            .goes(Call::Turn { session: 0, k: 9 }, 0, |_| {})
            .goes(Call::Turn { session: 1, k: 1 }, 1, |world| {
                fill_words(&mut world.memory, 24 + 15, &[5]);
                at_record(world, 1).session = ready(15, 1, 35, 1);
            })
            .goes(Call::Close { session: 0 }, 0, |world| close(world, 0))
            .goes(Call::Turn { session: 1, k: 1 }, 1, |world| {
                at_record(world, 1).session = faulted(ready(15, 1, 35, 1), 8);
            })
            .goes(Call::Close { session: 1 }, 0, |world| close(world, 1))
            .end();
    }
}

fn every_call_in_a_run(t: &mut Table) {
    t.says(r#"02, request 1: "Calling it gives fault 8."; "a link outside 1..L-5 faults with 9" before it"#);
    // SLDC1, the call; the record at 1 has MSSTAT 0 after opening
    for code in calls_of(3) {
        let mut bytes = hand_with(&[(14, 0)]);
        set_bytes(&mut bytes, 34, &[1]);
        set_bytes(&mut bytes, 35, &code);
        let links = matches!(code.as_slice(), [239 | 240, _] | [146, 1 | 2, _]);
        let stopped = faulted(ready(29, 1, 35, 1), if links { 9 } else { 8 });
        let story = t.story(&format!("a run up to {code:?}"), opened(&bytes, 30, 34));
        let story = runs(story, 1, 1, ready(29, 1, 35, 1), &[(29, &[1])]);
        let story = runs(story, 40, 1, stopped, &[]);
        runs(story, 40, 0, stopped, &[]).end();
    }
    // routine 2 calls 3: CPL 2 at 34, there SCPI1 3; its static link is 1
    let mut bytes = hand_with(&[(14, 0)]);
    set_bytes(&mut bytes, 34, &[144, 2]);
    set_bytes(&mut bytes, 82, &[239, 3]);
    let story = t.story("a called routine calls an unlinked one", opened(&bytes, 30, 34));
    runs(story, 40, 2, faulted(ready(22, 22, 82, 2), 8), &[(22, &[1, 1, 36, 1, 1])]).end();
    // a call whose return is to the next instruction, and then the unlinked one
    set_bytes(&mut bytes, 34, &[144, 2, 145, 3]);
    set_bytes(&mut bytes, 82, &[150, 3]);
    let story = t.story("after a call that returned", opened(&bytes, 30, 34));
    let stopped = faulted(down_to(22, ready(30, 1, 36, 1)), 8);
    runs(story, 40, 3, stopped, &[(22, &[1, 1, 36, 1, 1])]).end();
}

fn routine_255(t: &mut Table) {
    t.says(r#"02, request 1: "Calling it gives fault 8.", of routine 255"#);
    // G is 7, so 6+G is 13; a call of a linked routine takes 12 words
    for (number, length, fault) in [(255, 20, 8), (254, 20, 4), (255, 16, 8), (255, 40, 8)] {
        let mut bytes = crowd(255, 0);
        set_bytes(&mut bytes, 582, &[144, number]);
        let story = t.story(&format!("CPL {number}, L = {length}"), opened(&bytes, length, 582));
        runs(story, 9, 1, faulted(ready(length, 1, 582, 1), fault), &[]).end();
    }
    // linked: M is 40-5-7
    let mut bytes = crowd(254, 0);
    set_bytes(&mut bytes, 582, &[144, 255]);
    let story = t.story("CPL 255, linked", opened(&bytes, 40, 582));
    runs(story, 1, 1, ready(28, 28, 582, 255), &[(28, &[1, 1, 584, 1, 1])]).end();
}

fn loading_judges(t: &mut Table) {
    t.says(r#"loading: "11, 12, 17, then 1 to 8"; 02, request 1: "Routine 1 at zero still gets 6.""#);
    let load = Call::Load { slot: 0, start: 2, length: 128 };
    let spoilt: [(&[(usize, u16)], u32, u32); 6] = [
        (&[(12, 0)], 6, 1),
        (&[(13, 1)], 6, 2),
        (&[(13, 0), (14, 11)], 6, 3),
        (&[(13, 0), (50, 32_768)], 7, 3),
        (&[(13, 0), (49, 21)], 8, 3),
        (&[(12, 0), (13, 0), (14, 0)], 6, 1),
    ];
    for (words, number, place) in spoilt {
        t.story(&format!("loading with words {words:?}"), unloaded(&hand_with(words)))
            .refuses_at(load, number, place)
            .end();
    }
    let fine = hand_with(&[(13, 0), (14, 0)]);
    t.story("loading with all but routine 1 unlinked", unloaded(&fine))
        .refuses(Call::Load { slot: 16, start: 2, length: 128 }, 12)
        .refuses(Call::Load { slot: 0, start: 3, length: 128 }, 17)
        .refuses(Call::Load { slot: 0, start: 2, length: 127 }, 1)
        .goes(load, 0, |world| in_slot(world, 0, 2, 128))
        .refuses(load, 12)
        .end();
    // loaded while it was linked; the store has changed since
    let mut world = unloaded(&hand_segment(0));
    in_slot(&mut world, 0, 2, 128);
    open(&mut world, 0, 0, 4, 20, 34);
    at_record(&mut world, 0).session = ready(12, 12, 82, 2);
    set_words(&mut world.store[2..], &[(13, 0)]);
    t.story("a session's routine unlinked beneath it", world)
        .sound(true)
        .goes(Call::Turn { session: 0, k: 2 }, 2, |world| {
            at_record(world, 0).session = ready(12, 12, 84, 2);
        })
        .goes(Call::Close { session: 0 }, 0, |world| close(world, 0))
        .end();
}
