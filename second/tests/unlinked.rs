//! The set sees mistakes in the rule for unlinked routines (request 1 of 02):
//! judging, turning and calling are answered once more by a reading in which
//! one thing is wrong, and held against the set.  With nothing wrong the
//! reading answers as the interpreter does.

mod requests;

use second::generate::put_word;
use second::machine::{self, Kind, Op};
use second::segment::{turn_over, Segment, Sex};
use second::world::{Call, Request, World};
use std::collections::BTreeSet;
use std::sync::OnceLock;

// ------------------------------------------------------------------- the set

/// What the set asks, as far as unlinked routines can matter to it.
#[derive(Default)]
struct Asked {
    judged: Vec<Vec<u8>>,
    /// Those turned into an output that is long enough.
    turned: Vec<Vec<u8>>,
    /// Worlds in which a session is about to call, in a turn of one step.
    steps: Vec<(World, usize)>,
    /// Worlds whose soundness is asked.
    sound: Vec<World>,
}

fn asked() -> &'static Asked {
    static ASKED: OnceLock<Asked> = OnceLock::new();
    requests::picked(&ASKED, note)
}

fn note(asked: &mut Asked, world: &World, request: Request) {
    match request {
        Request::Judge => asked.judged.push(world.store.clone()),
        Request::TurnOver(output) if output >= world.store.len() as u64 => {
            asked.turned.push(world.store.clone());
        }
        Request::Sound if world.memory.len() < 100_000 => asked.sound.push(world.clone()),
        Request::Entry(Call::Turn { session, k: 1 }) if is_call(world, session) => {
            asked.steps.push((world.clone(), session as usize));
        }
        _ => {}
    }
}

/// Whether a sound bench's session is about to call.
fn is_call(world: &World, session: u64) -> bool {
    let Some(record) = world.bench.records.get(session as usize) else { return false };
    record.open
        && record.session.kind == Kind::Ready
        && world.is_sound()
        && world
            .segment_bytes(record.slot)
            .and_then(|bytes| bytes.get(record.session.counter as usize))
            .is_some_and(|first| [144, 145, 146, 239, 240].contains(first))
}

// --------------------------------------------------------- judging, turning

/// The numbers of a segment that passes checks 1 to 5.
struct Header {
    words: u32,
    sex: Sex,
    dictionary: u32,
    count: u32,
    pool: u32,
}

fn word(bytes: &[u8], sex: Sex, number: u32) -> u32 {
    let at = 2 * number as usize;
    let pair = [bytes[at], bytes[at + 1]];
    u32::from(if sex == Sex::LeastFirst { u16::from_le_bytes(pair) } else { u16::from_be_bytes(pair) })
}

fn header(bytes: &[u8]) -> Option<Header> {
    if Segment::judge(bytes).is_err_and(|refusal| refusal.number < 6) {
        return None;
    }
    let sex = if bytes[12] == 1 { Sex::LeastFirst } else { Sex::MostFirst };
    let dictionary = word(bytes, sex, 0);
    let count = word(bytes, sex, dictionary);
    Some(Header { words: bytes.len() as u32 / 2, sex, dictionary, count, pool: word(bytes, sex, 7) })
}

/// The rule of checks 6 to 8 and of word positions, in parts that can be wrong.
#[derive(Clone, Copy)]
struct Rule {
    /// Whether a routine number (of n) with an entry passes as unlinked.
    unlinked: fn(u32, u32, u32) -> bool,
    /// Entry, DATASIZE, EXITIC and start told of it, given D.
    told: fn(u32) -> [u32; 4],
    /// Whether judging ends with the first unlinked one.
    stops: bool,
    /// Words swapped once more for so many unlinked ones, given W.
    moved: fn(u32, usize) -> Vec<u32>,
}

const RIGHT: Rule = Rule {
    unlinked: |number, entry, _| entry == 0 && number != 1,
    told: |_| [0; 4],
    stops: false,
    moved: |_, _| Vec::new(),
};

/// What judging tells of the routines, or its refusal and place.
fn judged(rule: &Rule, bytes: &[u8], of: &Header) -> Result<Vec<[u32; 4]>, (u32, u32)> {
    let mut told = Vec::new();
    for number in 1..=of.count {
        let entry = word(bytes, of.sex, of.dictionary + number);
        if (rule.unlinked)(number, entry, of.count) {
            told.push((rule.told)(of.dictionary));
            if rule.stops {
                told.resize(of.count as usize, [0; 4]);
                break;
            }
            continue;
        }
        if !(12..=of.words - 2).contains(&entry) {
            return Err((6, number));
        }
        let (data_size, exit_ic) = (word(bytes, of.sex, entry), word(bytes, of.sex, entry - 1));
        if data_size >= 32_768 {
            return Err((7, number));
        }
        if !(22..2 * of.words).contains(&exit_ic) {
            return Err((8, number));
        }
        told.push([entry, data_size, exit_ic, 2 * (entry + 1)]);
    }
    Ok(told)
}

/// The turned bytes, or a refusal.
fn turned(rule: &Rule, bytes: &[u8], of: &Header) -> Result<Vec<u8>, (u32, u32)> {
    let routines = judged(rule, bytes, of)?;
    if of.pool != 0 {
        return Err((9, 0));
    }
    let mut positions = BTreeSet::from([0, 1, 6, 7, 8, 9, 10]);
    positions.extend(of.dictionary..=of.dictionary + of.count);
    let linked = routines.iter().map(|routine| routine[0]).filter(|entry| *entry != 0);
    positions.extend(linked.flat_map(|entry| [entry - 1, entry]));
    let unlinked = routines.iter().filter(|routine| routine[0] == 0).count();
    let mut output = bytes.to_vec();
    for position in positions.into_iter().chain((rule.moved)(of.words, unlinked)) {
        output.swap(2 * position as usize, 2 * position as usize + 1);
    }
    Ok(output)
}

/// How many answers of judging are not the right ones, and of turning.
fn wrong_judging(rule: &Rule) -> usize {
    let wrong = |bytes: &&Vec<u8>| {
        header(bytes).is_some_and(|of| judged(rule, bytes, &of) != judged(&RIGHT, bytes, &of))
    };
    asked().judged.iter().filter(wrong).count()
}

fn wrong_turning(rule: &Rule) -> usize {
    let wrong = |bytes: &&Vec<u8>| {
        header(bytes).is_some_and(|of| turned(rule, bytes, &of) != turned(&RIGHT, bytes, &of))
    };
    asked().turned.iter().filter(wrong).count()
}

#[test]
fn the_reading_with_nothing_wrong_is_the_interpreters() {
    let mut unlinked = 0;
    for bytes in asked().judged.iter().chain(&asked().turned) {
        let Some(of) = header(bytes) else { continue };
        let segment = Segment::judge(bytes).map_err(|refusal| (refusal.number, refusal.place));
        let told = segment.map(|segment| {
            let numbers = |r: &second::segment::Routine| [r.entry, r.data_size, r.exit_ic, r.start];
            segment.routines.iter().map(numbers).collect::<Vec<_>>()
        });
        unlinked += usize::from(told.as_ref().is_ok_and(|told| told.contains(&[0; 4])));
        assert_eq!(judged(&RIGHT, bytes, &of), told);
        let mut output = vec![0; bytes.len()];
        let answer = turn_over(bytes, &mut output).map_err(|refusal| (refusal.number, refusal.place));
        assert_eq!(turned(&RIGHT, bytes, &of), answer.map(|()| output));
    }
    assert!(unlinked > 100, "{unlinked}");
}

#[test]
fn mistakes_in_judging_are_seen() {
    let mistakes: [(&str, Rule); 15] = [
        ("zero is refused as before", Rule { unlinked: |_, _, _| false, ..RIGHT }),
        ("routine 1 at zero is taken", Rule { unlinked: |_, entry, _| entry == 0, ..RIGHT }),
        ("entry 1 is taken", Rule { unlinked: |k, entry, _| entry <= 1 && k != 1, ..RIGHT }),
        ("entries below 12 are taken", Rule { unlinked: |k, entry, _| entry < 12 && k != 1, ..RIGHT }),
        ("a low byte of zero is enough", Rule { unlinked: |k, entry, _| entry % 256 == 0 && k != 1, ..RIGHT }),
        ("a high byte of zero is enough", Rule { unlinked: |k, entry, _| entry < 256 && k != 1, ..RIGHT }),
        ("65,535 is taken", Rule { unlinked: |k, e, _| (e == 0 || e == 65_535) && k != 1, ..RIGHT }),
        ("routine 2 at zero is refused", Rule { unlinked: |k, entry, _| entry == 0 && k > 2, ..RIGHT }),
        ("routine n at zero is refused", Rule { unlinked: |k, e, n| e == 0 && k != 1 && k < n, ..RIGHT }),
        ("routine 255 at zero is refused", Rule { unlinked: |k, e, _| e == 0 && k != 1 && k < 255, ..RIGHT }),
        ("n at zero alone is taken", Rule { unlinked: |k, e, n| e == 0 && k != 1 && k == n, ..RIGHT }),
        ("judging ends at the first zero", Rule { stops: true, ..RIGHT }),
        ("DATASIZE told from word 0", Rule { told: |d| [0, d, 0, 0], ..RIGHT }),
        ("start told as byte 2", Rule { told: |_| [0, 0, 0, 2], ..RIGHT }),
        ("EXITIC told as 22", Rule { told: |_| [0, 0, 22, 0], ..RIGHT }),
    ];
    for (name, wrong) in mistakes {
        let count = wrong_judging(&wrong);
        assert!(count >= 5, "{name}: {count}");
    }
    assert_eq!(wrong_judging(&RIGHT), 0);
}

#[test]
fn mistakes_in_turning_are_seen() {
    let mistakes: [(&str, Rule); 8] = [
        ("zero is refused as before", Rule { unlinked: |_, _, _| false, ..RIGHT }),
        ("routine 1 at zero is taken", Rule { unlinked: |_, entry, _| entry == 0, ..RIGHT }),
        ("word positions end at the first zero", Rule { stops: true, ..RIGHT }),
        ("word 0 swapped once more", Rule { moved: |_, zeros| vec![0; zeros.min(1)], ..RIGHT }),
        ("word 0 swapped once more for each", Rule { moved: |_, zeros| vec![0; zeros], ..RIGHT }),
        ("the last word swapped for e-1", Rule { moved: |w, zeros| vec![w - 1; zeros.min(1)], ..RIGHT }),
        ("the last word swapped for each e-1", Rule { moved: |w, zeros| vec![w - 1; zeros], ..RIGHT }),
        ("the last word but one swapped", Rule { moved: |w, zeros| vec![w - 2; zeros.min(1)], ..RIGHT }),
    ];
    for (name, wrong) in mistakes {
        let count = wrong_turning(&wrong);
        assert!(count >= 5, "{name}: {count}");
    }
    assert_eq!(wrong_turning(&RIGHT), 0);
}

// ------------------------------------------------------------------- calling

/// What a call meets.
#[derive(Clone, Copy)]
struct Met {
    first: u8,
    bad_link: bool,
    /// k is 0 or above n; k is n
    outside: bool,
    last: bool,
    unlinked: bool,
    /// No room for the mark and DATASIZE (0 of an unlinked one) words.
    full: bool,
    /// No room for the mark and D words, which word 0 would have as DATASIZE.
    full_by_word_0: bool,
}

/// `None` where its operands give fault 1 or 2.
fn met(world: &World, number: usize) -> Option<Met> {
    let record = &world.bench.records[number];
    let segment = Segment::judge(world.segment_bytes(record.slot)?).ok()?;
    let decoded = machine::decode(&segment, record.session.counter).ok()?;
    let region = world.region(number)?;
    let links = if decoded.instruction.op == Op::CallIntermediate { decoded.links } else { 0 };
    let mut at = record.session.m;
    let bad_link = (0..links).any(|_| {
        at = region.get(at as usize).map_or(0, |word| u64::from(*word));
        !(1..=record.length - 5).contains(&at)
    });
    let called = segment.routine(decoded.value as u64);
    let room = record.session.sp - 6 - u64::from(segment.global_size());
    Some(Met {
        first: segment.bytes[record.session.counter as usize],
        bad_link,
        outside: called.is_none(),
        last: decoded.value == i64::from(segment.count()),
        unlinked: called.is_some_and(|routine| routine.entry == 0),
        full: room < 5 + u64::from(called.map_or(0, |routine| routine.data_size)),
        full_by_word_0: room < 5 + u64::from(segment.dictionary),
    })
}

/// 0 for a call that goes on, else its fault.
fn right(met: &Met) -> u8 {
    match met {
        Met { bad_link: true, .. } => 9,
        Met { outside: true, .. } | Met { unlinked: true, .. } => 8,
        Met { full: true, .. } => 4,
        _ => 0,
    }
}

/// How many calls of the set a wrong reading answers otherwise.
fn seen(wrong: impl Fn(&Met) -> u8) -> usize {
    let calls = asked().steps.iter().filter_map(|(world, session)| met(world, *session));
    calls.filter(|met| wrong(met) != right(met)).count()
}

#[test]
fn what_a_call_meets_decides_its_fault() {
    let mut unlinked = 0;
    for (world, session) in &asked().steps {
        let Some(met) = met(world, *session) else { continue };
        let mut after = world.clone();
        let turn = Call::Turn { session: *session as u64, k: 1 };
        assert_eq!(second::world::ask(&mut after, turn), Ok(1));
        let fault = match after.bench.records[*session].session.kind {
            Kind::Faulted { number, .. } => number,
            _ => 0,
        };
        assert_eq!(right(&met), fault);
        unlinked += usize::from(met.unlinked);
    }
    assert!(unlinked > 300, "{unlinked}");
}

#[test]
fn mistakes_in_calling_are_seen() {
    /// As if it were linked, by `full`.
    fn linked(met: &Met) -> u8 {
        right(&Met { unlinked: false, ..*met })
    }
    type Reading = fn(&Met) -> u8;
    let mistakes: [(&str, Reading); 9] = [
        ("it jumps to byte 2", linked),
        ("the same, with word 0 as DATASIZE", |met| {
            linked(&Met { full: if met.unlinked { met.full_by_word_0 } else { met.full }, ..*met })
        }),
        ("4 before 8", |met| if met.full && !met.bad_link && met.unlinked { 4 } else { right(met) }),
        ("4 before 8, with word 0 as DATASIZE", |met| {
            if met.full_by_word_0 && !met.bad_link && met.unlinked { 4 } else { right(met) }
        }),
        ("4 before 9 and 8", |met| if met.full && met.unlinked { 4 } else { right(met) }),
        ("9 where 8 is due", |met| if met.unlinked { 9 } else { right(met) }),
        ("8 before 9", |met| if met.unlinked { 8 } else { right(met) }),
        ("8 before 9 for a number outside", |met| if met.outside { 8 } else { right(met) }),
        ("n is not judged", |met| if met.last { linked(met) } else { right(met) }),
    ];
    for (name, wrong) in mistakes {
        let count = seen(wrong);
        assert!(count >= 20, "{name}: {count}");
    }
    for first in [144, 145, 146, 239, 240] {
        let one = |met: &Met| if met.first == first { linked(met) } else { right(met) };
        let count = seen(one);
        assert!(count >= 20, "{first} does not judge: {count}");
    }
    assert_eq!(seen(right), 0);
}

// ----------------------------------------------------------------- soundness

/// Sound benches of the set on which some loaded slot, or some open session,
/// is so.
fn sound_where(so: impl Fn(&World) -> bool) -> usize {
    asked().sound.iter().filter(|world| world.is_sound() && so(world)).count()
}

fn unlinked_in(world: &World, slot: u64, number: u64) -> bool {
    let bytes = world.segment_bytes(slot);
    let segment = bytes.and_then(|bytes| Segment::judge(bytes).ok());
    segment.and_then(|segment| segment.routine(number)).is_some_and(|routine| routine.entry == 0)
}

#[test]
fn a_soundness_that_asks_too_much_is_seen() {
    let some_unlinked = |world: &World| {
        (0..16).any(|slot| {
            world.bench.slots[slot as usize].loaded && (1..=255).any(|k| unlinked_in(world, slot, k))
        })
    };
    assert!(sound_where(some_unlinked) >= 20);
    let session_in_one = |world: &World| {
        let open = world.bench.records.iter().filter(|record| record.open);
        open.into_iter().any(|record| unlinked_in(world, record.slot, record.session.routine))
    };
    assert!(sound_where(session_in_one) >= 6);
}

/// Benches that a change of the first entry alone made unsound.
#[test]
fn a_soundness_that_asks_too_little_is_seen() {
    let mut seen = 0;
    for world in asked().sound.iter().filter(|world| !world.is_sound()) {
        for slot in world.bench.slots.iter().filter(|slot| slot.loaded) {
            let range = slot.start as usize..slot.start.saturating_add(slot.length) as usize;
            let Some(bytes) = world.store.get(range.clone()) else { continue };
            let Some(of) = header(bytes) else { continue };
            if word(bytes, of.sex, of.dictionary + 1) != 0 {
                continue;
            }
            let sound = (12..of.words - 1).any(|entry| {
                let mut mended = world.clone();
                put_word(&mut mended.store[range.clone()], of.sex, i64::from(of.dictionary) + 1, i64::from(entry));
                mended.is_sound()
            });
            seen += usize::from(sound);
        }
    }
    assert!(seen >= 6, "{seen}");
}
