//! Soundness, part by part of 01's sentence: what is sound, what is not, and
//! that every entry refuses an unsound bench with 11, before all else.

use super::benches::{empty, in_slot, rigged};
use super::pool::{turned_with_first, with_first};
use super::segments::hand_with;
use super::{at_record, ready, set_sp, set_words, Table};
use crate::bench::{Record, Slot, Window};
use crate::machine::Kind;
use crate::world::World;

/// What is lost where a number is cut to 32 bits.
const WIDE: u64 = 1 << 32;

pub fn fill(t: &mut Table) {
    soundness_of_sizes(t);
    soundness_of_slots(t);
    soundness_of_unlinked_routines(t);
    soundness_of_pools(t);
    soundness_of_regions(t);
    soundness_of_sessions(t);
    soundness_of_l_against_6_and_g(t);
}

/// The rigged bench (of `benches`) with a change, or with a change to one of
/// its records, is not sound.
macro_rules! unsound {
    ($t:ident, |$world:ident| $change:expr) => {
        changed($t, stringify!($change), |$world: &mut World| $change, false)
    };
    ($t:ident, $number:expr, |$record:ident| $change:expr) => {
        unsound!($t, |world| {
            let $record = &mut world.bench.records[$number];
            $change
        })
    };
}

/// It is still sound.
macro_rules! still_sound {
    ($t:ident, |$world:ident| $change:expr) => {
        changed($t, stringify!($change), |$world: &mut World| $change, true)
    };
    ($t:ident, $number:expr, |$record:ident| $change:expr) => {
        still_sound!($t, |world| {
            let $record = &mut world.bench.records[$number];
            $change
        })
    };
}

fn changed(t: &mut Table, change: &str, make: impl FnOnce(&mut World), sound: bool) {
    let mut world = rigged();
    make(&mut world);
    let words: Vec<&str> = change.split_whitespace().collect();
    let story = t.story(&format!("{}: sound is {sound}", words.join(" ")), world).sound(sound);
    if sound {
        return story.end();
    }
    story.unsound_everywhere().end();
}

fn soundness_of_sizes(t: &mut Table) {
    t.says(r#""A bench is sound when S and N keep their limits; memory has N words""#);
    unsound!(t, |world| world.memory.truncate(99));
    unsound!(t, |world| world.memory.push(0));
    unsound!(t, |world| world.bench.words = 99);
    unsound!(t, |world| world.bench.words = 101);
    unsound!(t, |world| world.bench.words = WIDE + 100);
    unsound!(t, |world| world.bench.words = u64::MAX);
    unsound!(t, |world| world.bench.shared = WIDE + 4);
    unsound!(t, |world| world.bench.shared = u64::MAX);
    unsound!(t, |world| world.bench.shared = 5); // region 0 begins at 4
    // S falls, and the windows with it
    still_sound!(t, |world| with_shared(world, 3));
    still_sound!(t, |world| with_shared(world, 0));
    // without sessions: S against N, S against 32,768, N against 1,048,576
    for (shared, words, good) in [
        (100, 100, true), (101, 100, false), (32_768, 40_000, true), (32_769, 40_000, false),
        (0, 1_048_576, true), (0, 1_048_577, false), (0, 0, true), (u64::MAX, 0, false),
    ] {
        let mut world = empty(0, 0);
        world.bench.shared = shared;
        world.bench.words = words;
        world.memory = vec![0; words as usize];
        t.story(&format!("N = {words}, S = {shared}"), world).sound(good).end();
    }
}

/// Fewer shared words, all of which each session sees.
fn with_shared(world: &mut World, shared: u64) {
    world.bench.shared = shared;
    for record in world.bench.records.iter_mut().filter(|record| record.open) {
        record.window = Window::all(shared);
    }
}

fn soundness_of_slots(t: &mut Table) {
    t.says(r#""every loaded slot's range lies in the store and passes checks 1 to 8""#);
    unsound!(t, |world| world.bench.slots[15].start = 36); // beyond the store by 2
    unsound!(t, |world| world.bench.slots[15].start = 34); // in the store, no segment
    unsound!(t, |world| world.bench.slots[15].start = u64::MAX);
    unsound!(t, |world| world.bench.slots[15].length = u64::MAX);
    unsound!(t, |world| world.bench.slots[15].length = 127);
    unsound!(t, |world| world.bench.slots[9].loaded = true); // an empty range
    unsound!(t, |world| world.store.truncate(159));
    still_sound!(t, |world| world.store.truncate(160));
    unsound!(t, |world| world.store[12] = 2);
    unsound!(t, |world| world.store[32 + 30] = 21); // EXITIC of the hand segment's routine 1
    still_sound!(t, |world| world.store[32 + 34] = 200); // code is not judged
    // what an unloaded slot holds is not judged
    still_sound!(t, |world| {
        world.bench.slots[9] = Slot { loaded: false, start: u64::MAX, length: u64::MAX };
    });
    // an odd start and slots that overlap are sound (open question 10)
    still_sound!(t, |world| {
        world.store.insert(0, 7);
        world.bench.slots[2].start = 1;
        world.bench.slots[15].start = 33;
        world.bench.slots[3] = Slot { loaded: true, start: 1, length: 32 };
    });
}

fn soundness_of_unlinked_routines(t: &mut Table) {
    t.says(r#"02, request 1: "An entry of zero is lawful for every routine but routine 1 [...]. Turning and soundness read from then on with the amended rule.""#);
    // the hand segment is at 32: its entries are the words at 56, 58 and 60
    still_sound!(t, |world| world.store[58] = 0);
    still_sound!(t, |world| world.store[60] = 0);
    still_sound!(t, |world| { world.store[58] = 0; world.store[60] = 0; });
    unsound!(t, |world| world.store[56] = 0); // routine 1
    unsound!(t, |world| { world.store[56] = 0; world.store[58] = 0; world.store[60] = 0; });
    unsound!(t, |world| world.store[24] = 0); // the small segment's one routine
    unsound!(t, |world| world.store[58] = 1);
    unsound!(t, |world| world.store[58] = 11);
    unsound!(t, |world| { world.store[58] = 0; world.store[60] = 11; }); // a later one
    unsound!(t, |world| { world.store[58] = 0; world.store[133] = 0x80; }); // its DATASIZE
    unsound!(t, |world| { world.store[58] = 0; world.store[130] = 21; }); // its EXITIC
    // DATASIZE and EXITIC of routine 2 as it was are judged no more
    still_sound!(t, |world| { world.store[58] = 0; world.store[113] = 0x80; world.store[110] = 21; });
    // a session in a routine that is unlinked: 1..n is all that is asked
    still_sound!(t, |world| { world.store[58] = 0; world.bench.records[1].session.routine = 2; });
    still_sound!(t, |world| { world.store[60] = 0; world.bench.records[1].session.routine = 3; });
    unsound!(t, |world| { world.store[60] = 0; world.bench.records[1].session.routine = 4; });
    // the same in a slot that no session names
    still_sound!(t, |world| third_slot(world, &[(13, 0)]));
    still_sound!(t, |world| third_slot(world, &[(13, 0), (14, 0)]));
    unsound!(t, |world| third_slot(world, &[(12, 0)]));
    unsound!(t, |world| third_slot(world, &[(12, 0), (13, 0), (14, 0)]));
    unsound!(t, |world| third_slot(world, &[(13, 1)]));
    unsound!(t, |world| third_slot(world, &[(13, 0), (14, 11)]));
    unsound!(t, |world| third_slot(world, &[(13, 0), (50, 32_768)]));
    unsound!(t, |world| third_slot(world, &[(13, 0), (49, 21)]));
}

/// The hand segment with words changed in slot 9.
fn third_slot(world: &mut World, words: &[(usize, u16)]) {
    in_third_slot(world, &hand_with(words));
}

fn in_third_slot(world: &mut World, bytes: &[u8]) {
    let start = world.store.len() as u64;
    world.store.extend(bytes);
    in_slot(world, 9, start, bytes.len() as u64);
}

fn soundness_of_pools(t: &mut Table) {
    t.says(r#"02, request 2: "The pool's first word must be 0 or point inside the pool (which ends at W), else refusal 4, in soundness too."; open question 11: a slot loaded before"#);
    // the hand segment in slot 15, which session 1 names
    still_sound!(t, |world| its_pool(world, 56, 0));
    still_sound!(t, |world| its_pool(world, 56, 1));
    still_sound!(t, |world| its_pool(world, 56, 7));
    still_sound!(t, |world| its_pool(world, 63, 0));
    unsound!(t, |world| its_pool(world, 56, 8));
    unsound!(t, |world| its_pool(world, 56, 65_535));
    unsound!(t, |world| its_pool(world, 56, 0x0700)); // 7, its bytes exchanged
    unsound!(t, |world| its_pool(world, 63, 1));
    unsound!(t, |world| its_pool(world, 64, 0));
    unsound!(t, |world| its_pool(world, 10, 0));
    // two NOPs, as such a slot may have them
    unsound!(t, |world| its_pool(world, 56, 40_092));
    // also where its session is no longer ready, or there is none
    unsound!(t, |world| { its_pool(world, 56, 8); world.bench.records[1].session.kind = Kind::Finished; });
    unsound!(t, |world| { its_pool(world, 56, 8); world.bench.records[1] = Record::UNUSED; });
    still_sound!(t, |world| { its_pool(world, 56, 8); world.bench.records[1] = Record::UNUSED; world.bench.slots[15].loaded = false; });
    // over the small segment's code, 05 07, in slot 2, where session 0 stands
    unsound!(t, |world| world.store[14] = 15);
    still_sound!(t, |world| { world.store[14] = 15; world.store[30] = 0; world.store[31] = 0; });
    // in a slot that no session names
    still_sound!(t, |world| in_third_slot(world, &with_first(56, 7)));
    unsound!(t, |world| in_third_slot(world, &with_first(56, 8)));
    unsound!(t, |world| in_third_slot(world, &with_first(63, 1)));
    unsound!(t, |world| in_third_slot(world, &with_first(56, 65_535)));
    still_sound!(t, |world| in_third_slot(world, &turned_with_first(56, 7)));
    still_sound!(t, |world| in_third_slot(world, &turned_with_first(56, 0)));
    unsound!(t, |world| in_third_slot(world, &turned_with_first(56, 8)));
    unsound!(t, |world| in_third_slot(world, &turned_with_first(56, 0x0700)));
}

/// A pool of the hand segment, at 32 in the store, and its first word.
fn its_pool(world: &mut World, pool: u16, first: u16) {
    set_words(&mut world.store[32..160], &[(7, pool), (usize::from(pool), first)]);
}

fn soundness_of_regions(t: &mut Table) {
    t.says(r#""every open region lies from word S up and inside memory; no two regions overlap (touching is allowed)""#);
    unsound!(t, |world| world.bench.records[0].base = 3);
    unsound!(t, |world| world.bench.records[0].base = 5); // overlaps by one word
    unsound!(t, |world| world.bench.records[1].base = 23);
    still_sound!(t, |world| world.bench.records[1].base = 70); // ends at N
    unsound!(t, |world| world.bench.records[1].base = 71);
    unsound!(t, |world| world.bench.records[1].base = u64::MAX);
    unsound!(t, |world| world.bench.records[1].base = WIDE + 24);
    unsound!(t, |world| world.bench.records[1].base = u64::MAX - 29); // its end is 2^64
    unsound!(t, |world| world.bench.records[1].base = u64::MAX - 30);
    still_sound!(t, |world| world.bench.records[0].base = 54); // touches from above
    unsound!(t, |world| world.bench.records[0].base = 53);
    unsound!(t, |world| world.bench.records[0].base = 24); // the same first word
    // three sessions, the first and the third overlapping
    unsound!(t, |world| {
        world.bench.records[7] = world.bench.records[0];
        world.bench.records[7].base = 23;
        world.bench.records[1].base = 60;
    });
    // an unused record is not judged
    still_sound!(t, |world| {
        world.bench.records[7] = world.bench.records[0];
        world.bench.records[7].open = false;
        world.bench.records[7].session.sp = 9_999;
        world.bench.records[7].session.low = 9_999;
    });
}

fn soundness_of_sessions(t: &mut Table) {
    t.says(r#""every open session names a loaded slot, has L in 16..32,768, [...] stack pointer in 6+G..L, record pointer in 1..L-5, counter in 22..2W, routine number in 1..n and, if faulted, fault in 1..10 and place in 22..2W""#);
    unsound!(t, 0, |record| record.slot = 16);
    unsound!(t, 0, |record| record.slot = 3); // not loaded
    unsound!(t, 0, |record| record.slot = u64::MAX);
    unsound!(t, 0, |record| record.slot = WIDE + 2);
    still_sound!(t, 0, |record| record.slot = 15); // 30 is inside the other's code too
    // L
    unsound!(t, 0, |record| { record.length = 15; set_sp(record, 15); });
    still_sound!(t, 0, |record| { record.length = 16; set_sp(record, 16); });
    unsound!(t, 0, |record| { record.length = 0; set_sp(record, 0); });
    // SP in 6+G..L: small has 6..20, hand has 8..30; the lowest SP is as SP, or
    // it stays
    still_sound!(t, 0, |record| set_sp(record, 6));
    unsound!(t, 0, |record| set_sp(record, 5));
    unsound!(t, 0, |record| record.session.sp = 21);
    still_sound!(t, 1, |record| set_sp(record, 8));
    unsound!(t, 1, |record| set_sp(record, 7));
    unsound!(t, 0, |record| record.session.sp = WIDE + 20);
    unsound!(t, 0, |record| record.session.sp = u64::MAX);
    // M in 1..L-5
    unsound!(t, 0, |record| record.session.m = 0);
    still_sound!(t, 0, |record| record.session.m = 15);
    unsound!(t, 0, |record| record.session.m = 16);
    unsound!(t, 0, |record| record.session.m = WIDE + 1);
    unsound!(t, 0, |record| record.session.m = u64::MAX);
    // counter in 22..2W
    unsound!(t, 0, |record| record.session.counter = 21);
    still_sound!(t, 0, |record| record.session.counter = 22);
    still_sound!(t, 0, |record| record.session.counter = 32);
    unsound!(t, 0, |record| record.session.counter = 33);
    unsound!(t, 0, |record| record.session.counter = WIDE + 30);
    unsound!(t, 0, |record| record.session.counter = u64::MAX);
    // routine in 1..n
    unsound!(t, 0, |record| record.session.routine = 0);
    unsound!(t, 0, |record| record.session.routine = 2);
    still_sound!(t, 1, |record| record.session.routine = 3);
    unsound!(t, 1, |record| record.session.routine = 4);
    unsound!(t, 0, |record| record.session.routine = WIDE + 1);
    unsound!(t, 0, |record| record.session.routine = u64::MAX);
    // kinds
    still_sound!(t, 0, |record| record.session.kind = Kind::Finished);
    for (number, place, good) in [
        (1, 22, true), (10, 32, true), (0, 22, false), (11, 22, false), (1, 21, false),
        (1, 33, false), (255, 22, false), (1, u64::MAX, false), (1, WIDE + 22, false),
    ] {
        let mut world = rigged();
        world.bench.records[0].session.kind = Kind::Faulted { number, place };
        t.story(&format!("fault {number} at {place}"), world).sound(good).end();
    }
}

fn soundness_of_l_against_6_and_g(t: &mut Table) {
    t.says(r#""has L in 16..32,768, 6+G at most L"; "G is DATASIZE of its routine 1.""#);
    // DATASIZE of the hand segment's routine 1 rises: 6+G is 30, then 31; L is 30
    still_sound!(t, |world| world.store[64] = 24);
    unsound!(t, |world| world.store[64] = 25);
    // L at 32,768 and above
    for (length, good) in [(32_768, true), (32_769, false), (WIDE + 32_768, false), (u64::MAX, false)] {
        let mut world = empty(0, 32_769);
        in_slot(&mut world, 0, 0, 32);
        let (session, window) = (ready(20, 1, 30, 1), Window::NONE);
        *at_record(&mut world, 0) =
            Record { open: true, slot: 0, base: 0, length, window, session };
        t.story(&format!("L = {length}"), world).sound(good).end();
    }
}
