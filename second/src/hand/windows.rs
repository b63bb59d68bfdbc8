//! A window for each farm (request 7 of 02): archives accepted and refused, a
//! farm's range, the openings that name a window or a farm, windows in soundness,
//! reads and stores at a window's ends, and sessions that see different words.

use super::benches::{close, empty, in_slot, open, rigged};
use super::{
    at_record, blank_bench, down_to, fill_words, hand_segment, ready, set_bytes, Rig, Story, Table,
};
use crate::bench::Window;
use crate::machine::{Kind, Session};
use crate::world::{Call, Request, World};

/// What is lost where a number is cut to 32 bits.
const WIDE: u64 = 1 << 32;
const MAX: u64 = u64::MAX;
const FULL: Kind = Kind::Faulted { number: 4, place: 34 };

pub fn fill(t: &mut Table) {
    sizes_of_archives(t);
    orders_of_farms(t);
    other_words_of_records(t);
    words_behind_s(t);
    large_archives(t);
    ranges(t);
    ranges_at_the_ends(t);
    openings_with_a_window(t);
    openings_with_a_bad_window(t);
    order_of_an_opening_with_a_window(t);
    older_openings(t);
    openings_for_a_farm(t);
    order_of_an_opening_for_a_farm(t);
    sixteen_and_one(t);
    windows_in_soundness(t);
    windows_of_each_record(t);
    unsound_for_every_entry(t);
    s_beneath_windows(t);
    unused_records(t);
    new_benches_have_none(t);
    for most_first in [false, true] {
        reads_at_the_ends(t, most_first);
        reads_of_one_window(t, most_first);
        sums(t, most_first);
        stores(t, most_first);
        other_addresses(t, most_first);
        the_largest_region(t, most_first);
        the_largest_window(t, most_first);
        farms_side_by_side(t, most_first);
        one_farm_twice(t, most_first);
        a_farm_without_records(t, most_first);
        closed_and_opened_again(t, most_first);
        words_that_change(t, most_first);
        two_worlds(t, most_first);
        windows_of_odd_sizes(t, most_first);
    }
}

// ------------------------------------------------------------------ archives

/// Records of these farms; pond, day and concentration of record k are 60,000,
/// 50,000 and 40,000, less k, so that they fall.
fn archive(farms: &[u16]) -> Vec<u16> {
    (0..).zip(farms).flat_map(|(k, farm)| [*farm, 60_000 - k, 50_000 - k, 40_000 - k]).collect()
}

/// A bench with these shared words, the small segment in slot 2, the hand segment
/// in slot 15, and 100 words more, each 9.
fn with_shared(shared: &[u16]) -> World {
    let mut world = empty(shared.len() as u64, shared.len() as u64 + 100);
    fill_words(&mut world.memory, 0, shared);
    in_slot(&mut world, 2, 0, 32);
    in_slot(&mut world, 15, 32, 128);
    world
}

/// The archive is accepted, or each entry that looks at it refuses it with 23;
/// the bench is sound either way.
fn judged(t: &mut Table, name: &str, shared: &[u16], accepted: bool) {
    let story = t.story(&format!("{name}: accepted is {accepted}"), with_shared(shared));
    let story = story.sound(true).accepts(accepted);
    if accepted {
        return story.end();
    }
    let farm = shared.first().copied().map_or(0, u64::from);
    story
        .denies(Request::Farm(farm), 23)
        .denies(Request::Farm(40_404), 23)
        .refuses(Call::OpenFor { slot: 15, length: 20, farm }, 23)
        .end();
}

fn sizes_of_archives(t: &mut Table) {
    t.says(r#"02, request 7: "It is accepted exactly if S is a multiple of 4 and farm numbers never fall from one record to the next, else refusal 23, after 11.""#);
    for size in [0, 1, 2, 3, 4, 5, 6, 7, 8, 9, 10, 11, 12, 13, 256, 258] {
        judged(t, &format!("S = {size}"), &vec![5; size], size % 4 == 0);
    }
    // a last record that is not whole: its farm stands after the others', or not
    for farm in [4, 5, 6] {
        for size in [5, 6, 7] {
            let mut shared = archive(&[5, farm]);
            shared.truncate(size);
            judged(t, &format!("S = {size}, farm {farm} not whole"), &shared, false);
        }
    }
    // N is S: nothing lies behind the archive
    let mut world = empty(8, 8);
    fill_words(&mut world.memory, 0, &archive(&[3, 4]));
    t.story("N = S = 8", world).accepts(true).finds(4, 4, 4).end();
    t.story("N = S = 0", empty(0, 0)).accepts(true).finds(0, 0, 0).finds(9, 0, 0).end();
}

fn orders_of_farms(t: &mut Table) {
    t.says(r#"02, request 7: "farm numbers never fall from one record to the next""#);
    let accepted: [&[u16]; 16] = [
        &[0], &[65_535], &[5, 5], &[5, 6], &[5, 5, 5, 5, 5], &[1, 2, 3, 4, 5], &[0, 65_535], &[65_535, 65_535],
        &[0, 0], &[32_767, 32_768], &[32_768, 65_535], &[255, 256], &[0, 32_767, 32_768, 65_535], &[65_534, 65_535],
        &[1, 1, 2, 2, 2, 9, 9], &[256, 512],
    ];
    for farms in accepted {
        judged(t, &format!("farms {farms:?}"), &archive(farms), true);
    }
    let refused: [&[u16]; 22] = [
        &[5, 4], &[1, 0], &[65_535, 0], &[65_535, 65_534], &[32_768, 32_767], &[32_768, 0], &[256, 255], &[512, 256],
        &[40_000, 30_000], &[5, 4, 6, 7], &[5, 0, 6, 7], &[5, 6, 5, 7], &[5, 6, 7, 6], &[5, 6, 7, 4],
        &[5, 6, 7, 0], &[9, 9, 9, 8], &[9, 8, 8, 8], &[9, 8, 9, 8], &[0, 1, 2, 3, 4, 5, 6, 5], &[7, 6, 5, 4],
        &[0, 65_535, 0], &[1, 32_768, 32_767, 40_000],
    ];
    for farms in refused {
        judged(t, &format!("farms {farms:?}"), &archive(farms), false);
    }
}

fn other_words_of_records(t: &mut Table) {
    t.says(r#"02, request 7: "records of four words each: farm, pond, day, concentration"; only farm numbers may not fall"#);
    for (word, name) in [(1, "pond"), (2, "day"), (3, "concentration")] {
        for (one, next) in [(9, 8), (65_535, 0), (32_768, 32_767)] {
            let mut shared = vec![5; 12];
            (shared[word], shared[4 + word]) = (one, next);
            judged(t, &format!("{name} {one}, then {next}"), &shared, true);
            // the last record's
            let mut shared = vec![5; 12];
            (shared[4 + word], shared[8 + word]) = (one, next);
            judged(t, &format!("the last {name} {next} after {one}"), &shared, true);
        }
        // the other way round: this word rises, and the farm falls
        let mut shared = archive(&[6, 5]);
        (shared[word], shared[4 + word]) = (1, 2);
        judged(t, &format!("{name} 1, then 2, farms 6 and 5"), &shared, false);
    }
    // within a record nothing is asked
    judged(t, "farm 9, all other words 0", &[9, 0, 0, 0, 9, 0, 0, 0], true);
    judged(t, "farm 0, all other words 9", &[0, 9, 9, 9, 0, 9, 9, 9], true);
}

fn words_behind_s(t: &mut Table) {
    t.says(r#"02, request 7: "The shared words become an archive": the S words, and no word behind them"#);
    // the words behind S are 9, those of the archive higher
    let world = with_shared(&archive(&[20, 21]));
    t.story("a lower word behind S", world).accepts(true).finds(21, 4, 4).finds(9, 0, 0).end();
    // farm 9 behind S is none of the archive's
    let world = with_shared(&archive(&[3, 9]));
    t.story("farm 9 in the archive and behind it", world).accepts(true).finds(9, 4, 4).end();
    // a session's words behind S
    let mut world = with_shared(&archive(&[20, 21]));
    open(&mut world, 0, 2, 8, 20, 30);
    t.story("a session's words behind S", world).accepts(true).finds(21, 4, 4).finds(0, 0, 0).end();
    // fewer shared words of the same memory
    for (shared, accepted) in [(0, true), (4, true), (8, false), (6, false), (12, false)] {
        let mut world = empty(12, 100);
        fill_words(&mut world.memory, 0, &archive(&[7, 6, 8]));
        world.bench.shared = shared;
        t.story(&format!("farms 7, 6, 8 and S = {shared}"), world).accepts(accepted).end();
    }
}

/// S words, all 7 but for some.
fn large(shared: u64, words: &[(usize, u16)]) -> World {
    let mut world = empty(shared, 32_800);
    world.memory.fill(7);
    for (at, word) in words {
        world.memory[*at] = *word;
    }
    in_slot(&mut world, 15, 32, 128);
    world
}

fn large_archives(t: &mut Table) {
    t.says(r#"02, request 7, with S at its limit: "S at most 32,768""#);
    for (shared, accepted) in [(32_764, true), (32_765, false), (32_766, false), (32_767, false), (32_768, true)] {
        let story = t.story(&format!("S = {shared}, one farm only"), large(shared, &[])).accepts(accepted);
        if accepted {
            story
                .finds(7, 0, shared)
                .finds(6, 0, 0)
                .finds(8, 0, 0)
                .goes(asks_for(15, 16, 7), 0, |world| open_on(world, 0, 15, shared, 16, (0, shared)))
                .goes(asks_for(15, 16, 6), 1, |world| open_on(world, 1, 15, shared + 16, 16, (0, 0)))
                .end();
        } else {
            story.denies(Request::Farm(7), 23).end();
        }
    }
    t.story("S = 32,768, another farm at the end", large(32_768, &[(32_764, 8)]))
        .accepts(true)
        .finds(7, 0, 32_764)
        .finds(8, 32_764, 4)
        .goes(Call::OpenFor { slot: 15, length: 16, farm: 8 }, 0, |world| {
            open_on(world, 0, 15, 32_768, 16, (32_764, 4));
        })
        .end();
    t.story("S = 32,768, another farm at the start", large(32_768, &[(0, 6)]))
        .accepts(true)
        .finds(6, 0, 4)
        .finds(7, 4, 32_764)
        .end();
    t.story("S = 32,768, another in the middle", large(32_768, &[(0, 6), (4, 6)]))
        .finds(6, 0, 8)
        .finds(7, 8, 32_760)
        .end();
    for (at, farm) in [(32_764, 6), (4, 6), (0, 8), (16_384, 8), (16_384, 0)] {
        let story = t.story(&format!("S = 32,768, farm {farm} at {at}"), large(32_768, &[(at, farm)]));
        story.accepts(false).denies(Request::Farm(7), 23).end();
    }
}

// -------------------------------------------------------------------- ranges

fn ranges(t: &mut Table) {
    t.says(r#"02, request 7: "Given a farm, the crate finds its records as one range, empty at word 0 if there are none""#);
    let shared = archive(&[0, 3, 3, 7, 7, 7, 9, 65_535]);
    let found = [
        (0, 0, 4), (3, 4, 8), (7, 12, 12), (9, 24, 4), (65_535, 28, 4),
        // not there: between two, before, behind, words of other kinds
        (1, 0, 0), (2, 0, 0), (4, 0, 0), (5, 0, 0), (6, 0, 0), (8, 0, 0), (10, 0, 0), (256, 0, 0), (768, 0, 0),
        (32_767, 0, 0), (32_768, 0, 0), (32_771, 0, 0), (65_534, 0, 0), (60_000, 0, 0), (50_001, 0, 0), (39_993, 0, 0),
        // modulo 65,536
        (65_536, 0, 4), (65_539, 4, 8), (WIDE + 7, 12, 12), (WIDE, 0, 4), (MAX, 28, 4), (MAX - 1, 0, 0), (65_537, 0, 0),
    ];
    for (farm, first, count) in found {
        t.story(&format!("farm {farm} of 0, 3, 3, 7, 7, 7, 9, 65,535"), with_shared(&shared))
            .finds(farm, first, count)
            .end();
    }
}

fn ranges_at_the_ends(t: &mut Table) {
    t.says(r#"02, request 7: "its records as one range": one farm only, a farm before the first and behind the last"#);
    // farms, and the ranges of some
    type Found = (u64, u64, u64);
    let lines: [(&[u16], &[Found]); 14] = [
        (&[], &[(0, 0, 0), (1, 0, 0), (65_535, 0, 0)]),
        (&[5], &[(5, 0, 4), (4, 0, 0), (6, 0, 0), (0, 0, 0), (65_535, 0, 0)]),
        (&[0], &[(0, 0, 4), (1, 0, 0), (65_535, 0, 0)]),
        (&[65_535], &[(65_535, 0, 4), (0, 0, 0), (65_534, 0, 0)]),
        (&[5, 5, 5], &[(5, 0, 12), (4, 0, 0), (6, 0, 0)]),
        (&[5, 6], &[(5, 0, 4), (6, 4, 4), (7, 0, 0), (4, 0, 0)]),
        (&[5, 7], &[(6, 0, 0), (5, 0, 4), (7, 4, 4)]),
        (&[5, 5, 6, 6], &[(5, 0, 8), (6, 8, 8)]),
        (&[5, 6, 6, 6], &[(5, 0, 4), (6, 4, 12)]),
        (&[5, 5, 5, 6], &[(5, 0, 12), (6, 12, 4)]),
        (&[0, 0, 65_535], &[(0, 0, 8), (65_535, 8, 4), (1, 0, 0), (32_768, 0, 0)]),
        (&[0, 65_535, 65_535], &[(0, 0, 4), (65_535, 4, 8)]),
        (&[32_767, 32_768], &[(32_767, 0, 4), (32_768, 4, 4), (32_766, 0, 0), (32_769, 0, 0)]),
        (&[1, 2, 3, 4, 5, 6, 7, 8, 9], &[(1, 0, 4), (5, 16, 4), (9, 32, 4), (10, 0, 0)]),
    ];
    for (farms, found) in lines {
        let mut story = t.story(&format!("ranges of {farms:?}"), with_shared(&archive(farms)));
        for (farm, first, count) in found {
            story = story.finds(*farm, *first, *count);
        }
        story.end();
    }
    // all words of all records alike: the farm's number elsewhere counts for nothing
    t.story("farm 4 in ponds, days and concentrations", with_shared(&[3, 4, 4, 4, 5, 4, 4, 4]))
        .finds(4, 0, 0)
        .finds(3, 0, 4)
        .finds(5, 4, 4)
        .end();
}

// ------------------------------------------------------------------ openings

/// A session just opened on a window.
fn open_on(world: &mut World, number: usize, slot: u64, base: u64, length: u64, window: (u64, u64)) {
    open(world, number, slot, base, length, if slot == 2 { 30 } else { 34 });
    at_record(world, number).window = Window { first: window.0, count: window.1 };
}

fn asks_on(slot: u64, length: u64, (first, count): (u64, u64)) -> Call {
    Call::OpenOn { slot, length, window: Window { first, count } }
}

fn asks_for(slot: u64, length: u64, farm: u64) -> Call {
    Call::OpenFor { slot, length, farm }
}

fn openings_with_a_window(t: &mut Table) {
    t.says(r#"02, request 7: "The runner's session record gains the window"; "A window not inside the S words gets 13": one that ends at S is inside, and an empty one at S"#);
    let windows = [(0, 0), (0, 10), (10, 0), (9, 1), (3, 4), (1, 9), (0, 1), (5, 0), (9, 0), (0, 9), (1, 0), (4, 6)];
    for window in windows {
        t.story(&format!("S = 10, window {window:?}"), with_shared(&[5; 10]))
            .goes(asks_on(15, 20, window), 0, |world| open_on(world, 0, 15, 10, 20, window))
            .sound(true)
            .goes(Call::Turn { session: 0, k: 0 }, 0, |_| {})
            .goes(asks_on(2, 16, window), 1, |world| open_on(world, 1, 2, 30, 16, window))
            .goes(Call::Close { session: 0 }, 0, |world| close(world, 0))
            .end();
    }
    // the archive is not asked for: S = 10 is none, and farms that fall do not matter
    let world = with_shared(&archive(&[7, 6]));
    t.story("a window of an archive that is refused", world)
        .goes(asks_on(15, 20, (0, 8)), 0, |world| open_on(world, 0, 15, 8, 20, (0, 8)))
        .accepts(false)
        .goes(asks_on(15, 20, (4, 4)), 1, |world| open_on(world, 1, 15, 28, 20, (4, 4)))
        .end();
    for (shared, window) in [(0, (0, 0)), (1, (0, 1)), (1, (1, 0)), (32_768, (0, 32_768)), (32_768, (32_767, 1)), (32_768, (32_768, 0))] {
        t.story(&format!("S = {shared}, window {window:?}"), large(shared, &[]))
            .goes(asks_on(15, 16, window), 0, |world| open_on(world, 0, 15, shared, 16, window))
            .sound(true)
            .end();
    }
}

/// Windows that are not inside 10 words: each number by itself, and sums that are
/// 2^64 more than they seem.
const OUTSIDE_10: [(u64, u64); 30] = [
    (11, 0), (10, 1), (0, 11), (9, 2), (1, 10), (5, 6), (12, 0), (20, 0), (0, 20), (11, 1), (65_536, 0), (0, 65_536),
    (WIDE, 0), (0, WIDE), (WIDE + 3, 4), (3, WIDE + 4), (WIDE - 1, 1), (WIDE - 1, 5), (1 << 63, 0), (1 << 63, 1 << 63),
    (MAX, 0), (0, MAX), (MAX, 1), (1, MAX), (MAX, 11), (MAX - 3, 4), (MAX - 3, 14), (6, MAX - 5), (10, MAX - 4), (MAX, MAX),
];

fn openings_with_a_bad_window(t: &mut Table) {
    t.says(r#"02, request 7: "A window not inside the S words gets 13""#);
    for window in OUTSIDE_10 {
        t.story(&format!("S = 10, window {window:?}: refused"), with_shared(&[5; 10]))
            .refuses(asks_on(15, 20, window), 13)
            .sound(true)
            .end();
    }
    for (shared, window) in [
        (0, (0, 1)), (0, (1, 0)), (0, (1, MAX)), (1, (1, 1)), (1, (2, 0)), (32_768, (32_768, 1)), (32_768, (32_769, 0)),
        (32_768, (0, 32_769)), (32_768, (1, 32_768)), (32_767, (0, 32_768)),
    ] {
        t.story(&format!("S = {shared}, window {window:?}: refused"), large(shared, &[]))
            .refuses(asks_on(15, 16, window), 13)
            .end();
    }
}

fn order_of_an_opening_with_a_window(t: &mut Table) {
    t.says(r#""Opening 11, 12, 13, 14, 15."; 02, request 7: the window belongs to 13"#);
    t.story("12, 13 and 15 of an opening with a window", with_shared(&[5; 10]))
        .refuses(asks_on(16, 20, (0, 11)), 12) // 12 before 13
        .refuses(asks_on(3, 20, (11, 0)), 12) // not loaded
        .refuses(asks_on(MAX, 0, (MAX, 1)), 12)
        .refuses(asks_on(WIDE + 15, 20, (0, 1)), 12)
        .refuses(asks_on(16, 101, (0, 10)), 12) // 12 before 15
        .refuses(asks_on(3, 101, (0, 10)), 12)
        .refuses(asks_on(15, 15, (0, 10)), 13) // by L alone
        .refuses(asks_on(15, 32_769, (3, 3)), 13)
        .refuses(asks_on(15, 20, (0, 11)), 13) // by the window alone
        .refuses(asks_on(15, 15, (0, 11)), 13) // by both
        .refuses(asks_on(15, 101, (0, 11)), 13) // 13 before 15
        .refuses(asks_on(15, 101, (0, 10)), 15)
        .refuses(asks_on(15, 32_768, (10, 0)), 15)
        .goes(asks_on(15, 100, (10, 0)), 0, |world| open_on(world, 0, 15, 10, 100, (10, 0)))
        .refuses(asks_on(15, 16, (10, 0)), 15)
        .refuses(asks_on(15, 16, (10, 1)), 13)
        .end();
    // L against 6+G
    let mut world = with_shared(&[5; 10]);
    set_bytes(&mut world.store, 64, &[24, 0]);
    t.story("6+G = 30", world)
        .refuses(asks_on(15, 29, (0, 0)), 13)
        .goes(asks_on(15, 30, (0, 0)), 0, |world| open_on(world, 0, 15, 10, 30, (0, 0)))
        .end();
}

fn older_openings(t: &mut Table) {
    t.says(r#"02, request 7: "older openings have all S words""#);
    for shared in [0, 1, 4, 5, 10, 32_768] {
        t.story(&format!("S = {shared}, the older opening"), large(shared, &[]))
            .goes(Call::Open { slot: 15, length: 16 }, 0, |world| {
                open_on(world, 0, 15, shared, 16, (0, shared));
            })
            .sound(true)
            .end();
    }
    // also where the archive is refused
    t.story("the older opening on farms that fall", with_shared(&archive(&[7, 6])))
        .accepts(false)
        .goes(Call::Open { slot: 2, length: 16 }, 0, |world| open_on(world, 0, 2, 8, 16, (0, 8)))
        .end();
}

fn openings_for_a_farm(t: &mut Table) {
    t.says(r#"02, request 7: "and opens a session that sees only that range""#);
    let shared = archive(&[0, 3, 3, 7, 9, 65_535]);
    for (farm, window) in [
        (0, (0, 4)), (3, (4, 8)), (7, (12, 4)), (9, (16, 4)), (65_535, (20, 4)), (1, (0, 0)), (8, (0, 0)), (65_534, (0, 0)),
        (65_539, (4, 8)), (WIDE + 7, (12, 4)), (MAX, (20, 4)), (WIDE + 8, (0, 0)),
    ] {
        t.story(&format!("a session for farm {farm}"), with_shared(&shared))
            .goes(asks_for(15, 20, farm), 0, |world| open_on(world, 0, 15, 24, 20, window))
            .sound(true)
            .goes(asks_for(2, 16, farm), 1, |world| open_on(world, 1, 2, 44, 16, window))
            .accepts(true)
            .end();
    }
    t.story("S = 0: no farm has records", with_shared(&[]))
        .goes(asks_for(15, 20, 0), 0, |world| open_on(world, 0, 15, 0, 20, (0, 0)))
        .goes(asks_for(15, 20, 5), 1, |world| open_on(world, 1, 15, 20, 20, (0, 0)))
        .sound(true)
        .end();
}

fn order_of_an_opening_for_a_farm(t: &mut Table) {
    t.says(r#"02, request 7: "refusal 23, after 11"; then "Opening [...] 12, 13, 14, 15""#);
    // farms that fall: 23 whatever follows
    t.story("23 before 12 to 15", with_shared(&archive(&[7, 6])))
        .refuses(asks_for(15, 20, 7), 23)
        .refuses(asks_for(16, 20, 7), 23)
        .refuses(asks_for(MAX, 20, 5), 23)
        .refuses(asks_for(3, 20, 7), 23) // not loaded
        .refuses(asks_for(15, 15, 7), 23)
        .refuses(asks_for(15, 101, 7), 23)
        .refuses(asks_for(99, 0, 9), 23)
        .end();
    t.story("S = 6: 23 before 12 to 15", with_shared(&[5; 6]))
        .refuses(asks_for(15, 20, 5), 23)
        .refuses(asks_for(16, 15, 5), 23)
        .end();
    t.story("12, 13 and 15 of an opening for a farm", with_shared(&archive(&[6, 7])))
        .refuses(asks_for(16, 20, 7), 12)
        .refuses(asks_for(3, 15, 7), 12) // 12 before 13
        .refuses(asks_for(MAX, 20, 7), 12)
        .refuses(asks_for(WIDE + 15, 20, 7), 12)
        .refuses(asks_for(16, 101, 7), 12) // 12 before 15
        .refuses(asks_for(3, 101, 5), 12)
        .refuses(asks_for(15, 15, 7), 13)
        .refuses(asks_for(15, 32_769, 7), 13)
        .refuses(asks_for(15, 0, 5), 13)
        .refuses(asks_for(15, 101, 7), 15)
        .refuses(asks_for(15, 101, 5), 15)
        .goes(asks_for(15, 100, 7), 0, |world| open_on(world, 0, 15, 8, 100, (4, 4)))
        .refuses(asks_for(15, 16, 6), 15)
        .end();
    unsound_by_its_words(t);
    unsound_by_its_sessions(t);
}

/// 11 before 23, whether the archive is accepted or not.
fn unsound_by_its_words(t: &mut Table) {
    for farms in [[6, 7], [7, 6]] {
        let mut world = with_shared(&archive(&farms));
        world.bench.words += 1;
        t.story(&format!("unsound, farms {farms:?}"), world)
            .denies(Request::Archive, 11)
            .denies(Request::Farm(7), 11)
            .denies(Request::Farm(5), 11)
            .refuses(asks_for(15, 20, 7), 11)
            .refuses(asks_for(16, 15, 7), 11)
            .refuses(asks_on(16, 15, (MAX, 1)), 11)
            .end();
    }
}

fn unsound_by_its_sessions(t: &mut Table) {
    // S lies beyond memory, or a session is unsound, or a slot
    let spoil: [(&str, fn(&mut World)); 5] = [
        ("S beyond the memory", |world| world.bench.shared = 109),
        ("memory short of S", |world| world.memory.truncate(5)),
        ("a session's SP", |world| world.bench.records[0].session.sp = 99),
        ("a session's window", |world| world.bench.records[0].window.count = 9),
        ("a slot's segment", |world| world.store[12] = 7),
    ];
    for (name, change) in spoil {
        for farms in [[6, 7], [7, 6]] {
            let mut world = with_shared(&archive(&farms));
            open(&mut world, 0, 15, 8, 20, 34);
            change(&mut world);
            t.story(&format!("{name}, farms {farms:?}: 11"), world)
                .sound(false)
                .denies(Request::Archive, 11)
                .denies(Request::Farm(7), 11)
                .refuses(asks_for(15, 20, 7), 11)
                .refuses(asks_on(15, 20, (0, 0)), 11)
                .end();
        }
    }
}

/// An archive of two farms, and every record used.
fn sixteen(farms: &[u16]) -> World {
    let mut world = with_shared(&archive(farms));
    world.bench.words = 8 + 16 * 16;
    world.memory.resize(8 + 16 * 16, 9);
    for number in 0..16 {
        open_on(&mut world, number, 2, 8 + 16 * number as u64, 16, (number as u64 % 9, 0));
    }
    world
}

fn sixteen_and_one(t: &mut Table) {
    t.says(r#""14 opening: no record unused", after 13 and before 15; 02, request 7: 23 before them all"#);
    t.story("sixteen sessions and one", sixteen(&[6, 7]))
        .sound(true)
        .refuses(asks_on(2, 16, (0, 8)), 14)
        .refuses(asks_on(2, 2_000, (0, 8)), 14) // 14 before 15
        .refuses(asks_on(2, 16, (0, 9)), 13) // 13 before 14
        .refuses(asks_on(2, 15, (0, 8)), 13)
        .refuses(asks_on(2, 2_000, (9, 0)), 13)
        .refuses(asks_for(2, 16, 7), 14)
        .refuses(asks_for(2, 2_000, 7), 14)
        .refuses(asks_for(2, 15, 7), 13)
        .refuses(asks_for(2, 32_769, 5), 13)
        .refuses(asks_for(0, 16, 7), 12)
        .refuses(asks_for(16, 2_000, 7), 12)
        .refuses(asks_on(0, 16, (0, 8)), 12)
        .refuses(asks_on(16, 2_000, (0, 8)), 12)
        .goes(Call::Close { session: 9 }, 0, |world| close(world, 9))
        .goes(asks_for(2, 16, 7), 9, |world| open_on(world, 9, 2, 152, 16, (4, 4)))
        .end();
    t.story("sixteen sessions, one more, and farms that fall", sixteen(&[7, 6]))
        .refuses(asks_for(2, 16, 7), 23) // 23 before 14
        .refuses(asks_for(2, 2_000, 7), 23)
        .refuses(asks_for(0, 16, 7), 23)
        .refuses(asks_for(2, 15, 7), 23)
        .refuses(asks_on(2, 16, (0, 8)), 14)
        .end();
    let mut spoilt = sixteen(&[6, 7]);
    spoilt.bench.records[11].window.first = 9;
    t.story("sixteen sessions, one with a bad window, and one more", spoilt)
        .sound(false)
        .refuses(asks_for(2, 16, 7), 11)
        .refuses(asks_for(2, 2_000, 7), 11)
        .refuses(asks_for(0, 15, 7), 11)
        .refuses(asks_on(2, 16, (0, 8)), 11)
        .refuses(asks_on(2, 2_000, (0, 9)), 11)
        .end();
}

// ------------------------------------------------------------------ soundness

/// The rigged bench (S = 4) with the window of one of its sessions, of a kind.
fn windowed(number: usize, kind: Kind, (first, count): (u64, u64)) -> World {
    let mut world = rigged();
    at_record(&mut world, number).window = Window { first, count };
    at_record(&mut world, number).session.kind = kind;
    world
}

const INSIDE_4: [(u64, u64); 9] = [(0, 4), (0, 0), (4, 0), (3, 1), (1, 3), (2, 0), (1, 2), (0, 3), (3, 0)];

const OUTSIDE_4: [(u64, u64); 26] = [
    (5, 0), (4, 1), (0, 5), (3, 2), (1, 4), (2, 3), (100, 0), (0, 100), (65_536, 0), (0, 65_540), (WIDE, 0), (0, WIDE),
    (WIDE + 1, 2), (1, WIDE + 2), (WIDE - 1, 1), (MAX, 0), (0, MAX), (MAX, 1), (1, MAX), (MAX, 5), (MAX - 3, 4),
    (MAX - 1, 4), (4, MAX), (1 << 63, 1 << 63), (1 << 63, 0), (MAX, MAX),
];

fn windows_in_soundness(t: &mut Table) {
    t.says(r#"02, request 7: "A window not inside the S words gets 13, in soundness 11.""#);
    let kinds = [("ready", Kind::Ready), ("finished", Kind::Finished), ("faulted", Kind::Faulted { number: 4, place: 30 })];
    for (name, kind) in kinds {
        for number in [0, 1] {
            for window in INSIDE_4 {
                let world = windowed(number, kind, window);
                t.story(&format!("session {number} {name}, window {window:?}"), world).sound(true).end();
            }
        }
        for (at, window) in OUTSIDE_4.into_iter().enumerate() {
            let (number, other) = (at % 2, 1 - at % 2);
            t.story(&format!("session {number} {name}, window {window:?}: unsound"), windowed(number, kind, window))
                .sound(false)
                .refuses(Call::Turn { session: number as u64, k: 0 }, 11)
                .refuses(Call::Turn { session: other as u64, k: 1 }, 11)
                .refuses(Call::Close { session: number as u64 }, 11)
                .end();
        }
    }
}

/// The rigged bench's session 1 in each record, and one in every record.
fn windows_of_each_record(t: &mut Table) {
    t.says(r#"02, request 7: "A window not inside the S words gets [...] in soundness 11", whichever record has it"#);
    for number in 1..16 {
        for (window, sound) in [((4, 0), true), ((4, 1), false), ((5, 0), false)] {
            let mut world = windowed(1, Kind::Ready, window);
            world.bench.records.swap(1, number);
            t.story(&format!("record {number}, window {window:?}: sound is {sound}"), world).sound(sound).end();
        }
    }
    for bad in 0..16 {
        let mut world = empty(4, 4 + 16 * 16);
        in_slot(&mut world, 2, 0, 32);
        for number in 0..16 {
            open_on(&mut world, number, 2, 4 + 16 * number as u64, 16, (number as u64 % 5, 0));
        }
        at_record(&mut world, bad).window = Window { first: 1, count: 4 };
        t.story(&format!("sixteen sessions, the window of {bad} bad"), world)
            .sound(false)
            .refuses(Call::Turn { session: 15 - bad as u64, k: 0 }, 11)
            .end();
    }
}

fn unsound_for_every_entry(t: &mut Table) {
    t.says(r#"02, request 7; "11 bench not sound for the lent memory and store", first in every order"#);
    for window in [(5, 0), (0, 5), (MAX, 1), (WIDE, 0)] {
        for kind in [Kind::Ready, Kind::Finished, FULL] {
            t.story(&format!("window {window:?}, each entry"), windowed(1, kind, window))
                .sound(false)
                .unsound_everywhere()
                .goes(Call::New { shared: 0, words: 5 }, 0, |world| {
                    world.bench = blank_bench();
                    world.bench.words = 5;
                })
                .end();
        }
    }
}

fn s_beneath_windows(t: &mut Table) {
    t.says(r#"02, request 7: windows are held to S as it is: fewer shared words, and more"#);
    // the two sessions of the rigged bench have (0, 4) and this; S becomes this
    for (window, shared, sound) in [
        ((1, 2), 4, true), ((1, 2), 3, false), ((0, 0), 3, false), ((9, 0), 4, false),
    ] {
        let mut world = windowed(1, Kind::Ready, window);
        world.bench.shared = shared;
        t.story(&format!("S = {shared}, windows (0, 4) and {window:?}: sound is {sound}"), world).sound(sound).end();
    }
    for (window, shared, sound) in [
        ((0, 2), 2, true), ((0, 2), 1, false), ((1, 1), 2, true), ((1, 1), 1, false), ((2, 0), 2, true), ((2, 0), 1, false),
        ((0, 0), 0, true), ((1, 0), 0, false), ((0, 1), 0, false),
    ] {
        let mut world = windowed(1, Kind::Ready, window);
        at_record(&mut world, 0).window = Window::NONE;
        world.bench.shared = shared;
        t.story(&format!("S = {shared}, window {window:?}: sound is {sound}"), world).sound(sound).end();
    }
    // more shared words, the windows as they were
    let mut world = empty(4, 100);
    in_slot(&mut world, 15, 32, 128);
    open_on(&mut world, 0, 15, 40, 20, (1, 3));
    world.bench.shared = 40;
    t.story("S rises beneath a window", world)
        .sound(true)
        .goes(asks_on(15, 20, (37, 3)), 1, |world| open_on(world, 1, 15, 60, 20, (37, 3)))
        .end();
}

fn unused_records(t: &mut Table) {
    t.says(r#"02, request 7, of sessions: an unused record is not judged, and an opening sets all of it"#);
    for window in [(0, 5), (5, 0), (MAX, 1), (MAX, MAX), (WIDE, WIDE), (3, 1)] {
        let (first, count) = window;
        let mut world = rigged();
        at_record(&mut world, 2).window = Window { first, count };
        t.story(&format!("an unused record with window {window:?}"), world)
            .sound(true)
            .goes(Call::Open { slot: 2, length: 16 }, 2, |world| open(world, 2, 2, 54, 16, 30))
            .sound(true)
            .goes(Call::Close { session: 2 }, 0, |world| close(world, 2))
            .goes(asks_on(2, 17, (1, 2)), 2, |world| open_on(world, 2, 2, 54, 17, (1, 2)))
            .end();
        // one that stays unused keeps what it has
        let mut world = rigged();
        at_record(&mut world, 9).window = Window { first, count };
        t.story(&format!("an unused record that keeps window {window:?}"), world)
            .goes(asks_on(2, 16, (4, 0)), 2, |world| open_on(world, 2, 2, 54, 16, (4, 0)))
            .goes(Call::Turn { session: 0, k: 1 }, 1, |world| {
                at_record(world, 0).session = ready(19, 1, 31, 1);
                fill_words(&mut world.memory, 4 + 19, &[5]);
            })
            .goes(Call::Close { session: 1 }, 0, |world| close(world, 1))
            .end();
    }
    // the rigged archive is four words of 9, one record
    let mut world = rigged();
    at_record(&mut world, 2).window = Window::all(MAX);
    t.story("an unused record, and an opening for a farm", world)
        .accepts(true)
        .finds(9, 0, 4)
        .goes(asks_for(2, 16, 9), 2, |world| open_on(world, 2, 2, 54, 16, (0, 4)))
        .goes(asks_for(2, 16, 8), 3, |world| open_on(world, 3, 2, 70, 16, (0, 0)))
        .end();
}

fn new_benches_have_none(t: &mut Table) {
    t.says(r#""A new bench has no slot loaded and no record used"; 02, request 7: its records have no window"#);
    t.story("a new bench after windows", windowed(1, Kind::Ready, (1, 2)))
        .goes(Call::New { shared: 8, words: 100 }, 0, |world| {
            let mut bench = blank_bench();
            (bench.shared, bench.words) = (8, 100);
            world.bench = bench;
        })
        // every word is 9 but for the two regions, which are 0
        .accepts(false)
        .goes(Call::New { shared: 4, words: 100 }, 0, |world| world.bench.shared = 4)
        .accepts(true)
        .goes(Call::Load { slot: 1, start: 0, length: 32 }, 0, |world| in_slot(world, 1, 0, 32))
        .goes(asks_on(1, 20, (2, 2)), 0, |world| {
            open(world, 0, 1, 4, 20, 30);
            at_record(world, 0).window = Window { first: 2, count: 2 };
        })
        .end();
}

// ------------------------------------------------------------ reads and stores

/// A step of the rig's session (S = 4, shared words 500 to 503) on a window.
fn on<'a>(t: &'a mut Table, code: &[u8], stack: &[u16], window: (u64, u64), most_first: bool) -> Rig<'a> {
    t.rig(code, stack).in_sex(most_first).with_window(window.0, window.1)
}

/// A read of an address gives a word, or fault 6.
fn reads(t: &mut Table, code: &[u8], base: u16, window: (u64, u64), word: Option<u16>, most_first: bool) {
    let rig = on(t, code, &[base], window, most_first);
    match word {
        Some(word) => rig.leaves(&[word], 34 + code.len() as u64),
        None => rig.faults(6),
    }
}

/// The instructions that read by an index, and the index: SIND0 to SIND7, IND
/// with a B of one byte and of two.
const READERS: [(&[u8], u16); 11] = [
    (&[120], 0), (&[121], 1), (&[122], 2), (&[123], 3), (&[124], 4), (&[125], 5), (&[126], 6), (&[127], 7), (&[230, 0], 0),
    (&[230, 127], 127), (&[230, 0xFF, 0xFF], 32_767),
];

/// Each window inside the four words, with its first and its last word.
const WINDOWS: [((u64, u64), Option<(u16, u16)>); 15] = [
    ((0, 0), None), ((1, 0), None), ((2, 0), None), ((3, 0), None), ((4, 0), None), ((0, 1), Some((500, 500))),
    ((1, 1), Some((501, 501))), ((2, 1), Some((502, 502))), ((3, 1), Some((503, 503))), ((0, 2), Some((500, 501))),
    ((1, 2), Some((501, 502))), ((2, 2), Some((502, 503))), ((0, 3), Some((500, 502))), ((1, 3), Some((501, 503))),
    ((0, 4), Some((500, 503))),
];

fn reads_at_the_ends(t: &mut Table, most_first: bool) {
    t.says(r#"02, request 7: "a session that sees only that range, at 32,768 onward. Reads beyond it give fault 6.""#);
    for (window, words) in WINDOWS {
        let past = 32_768 + window.1 as u16;
        for (code, index) in READERS {
            let first = words.map(|(first, _)| first);
            reads(t, code, 32_768 - index, window, first, most_first);
            if let Some((_, last)) = words {
                reads(t, code, past - 1 - index, window, Some(last), most_first);
            }
            reads(t, code, past - index, window, None, most_first);
            reads(t, code, past + 1 - index, window, None, most_first);
            // the word before the window: no address
            reads(t, code, 32_767 - index, window, None, most_first);
        }
    }
}

fn reads_of_one_window(t: &mut Table, most_first: bool) {
    t.says(r#"02, request 7: "Document 01's address rule reads with the window": 1..39 are private, 32,768 to 32,770 the words 1 to 3 of 4, all else faults"#);
    let window = (1, 3);
    let seen = [
        (1, Some(1_001)), (38, Some(1_038)), (39, None), (40, None), (41, None), (500, None), (32_767, None),
        (32_768, Some(501)), (32_769, Some(502)), (32_770, Some(503)), (32_771, None), (32_772, None), (32_775, None),
        (36_864, None), (65_534, None), (65_535, None), (0, None),
    ];
    for (address, word) in seen {
        // word 39 is the address itself, on the stack
        let word = if address == 39 { Some(39) } else { word };
        reads(t, &[120], address, window, word, most_first);
        reads(t, &[230, 0], address, window, word, most_first);
    }
    // with other windows 32,769 is another word, or none
    for (window, word) in [
        ((0, 4), Some(501)), ((1, 3), Some(502)), ((2, 2), Some(503)), ((3, 1), None), ((4, 0), None), ((0, 2), Some(501)),
        ((0, 1), None), ((1, 1), None), ((2, 1), None), ((1, 2), Some(502)), ((0, 0), None),
    ] {
        reads(t, &[121], 32_768, window, word, most_first);
        reads(t, &[230, 0x80, 0x01], 32_768, window, word, most_first);
        reads(t, &[230, 0xFF, 0xFF], 2, window, word, most_first);
        reads(t, &[126], 32_763, window, word, most_first);
    }
}

fn sums(t: &mut Table, most_first: bool) {
    t.says(r#""An indexed address is the plain sum; a sum above 65,535 faults, and so does a base of NIL at any index", whatever the window"#);
    for window in [(0, 4), (1, 3), (2, 0), (3, 1)] {
        // 65,535 is beyond the window; one more would be NIL, two more word 1
        for (base, code) in [
            (65_535, &[120][..]), (65_535, &[121]), (65_535, &[122]), (65_530, &[127]), (65_529, &[127]), (65_528, &[127]),
            (65_535, &[230, 1]), (65_535, &[230, 2]), (65_535, &[230, 0x80, 0x09]), (32_768, &[230, 0xFF, 0xFF]),
            (32_769, &[230, 0xFF, 0xFF]), (32_770, &[230, 0xFF, 0xFF]), (32_800, &[230, 0xFF, 0xFF]), (0, &[120]),
            (0, &[121]), (0, &[230, 0xFF, 0xFF]), (0, &[230, 0]),
        ] {
            reads(t, code, base, window, None, most_first);
        }
        // NIL by index 0 is no private word, and no shared one
        on(t, &[120], &[], window, most_first).faults(3);
        on(t, &[230, 0], &[], window, most_first).faults(3);
    }
}

fn stores(t: &mut Table, most_first: bool) {
    t.says(r#""and can only be read": a store into the window, beside it, or beyond it is fault 6"#);
    for window in [(0, 4), (1, 3), (2, 2), (0, 0), (4, 0), (1, 1)] {
        for address in [0, 40, 32_767, 32_768, 32_769, 32_770, 32_771, 32_772, 65_535] {
            on(t, &[196], &[77, address], window, most_first).faults(6);
        }
        on(t, &[196], &[77, 20], window, most_first).leaves_and_writes(&[], 35, &[(20, 77)]);
        on(t, &[196], &[77], window, most_first).faults(3);
    }
}

/// Offsets of a record that would reach 32,768: no such word is read, stored or
/// named, whatever the window.  Globals are at 5+B, the record at 20 has 24+B; one
/// link leads to 12, two lead to 30.
fn other_addresses(t: &mut Table, most_first: bool) {
    t.says(r#""The only limit is that the word lies in 1..L-1, also where just its address is pushed; else fault 6"; a window is none of a record's words"#);
    let b = |word: u16, offset: u16| {
        let [high, low] = (word - offset | 0x8000).to_be_bytes();
        [high, low]
    };
    for window in [(0, 4), (1, 3)] {
        for word in [32_767, 32_768, 32_769] {
            for (first, offset, stack) in [
                (133, 5, &[][..]), (134, 5, &[]), (165, 5, &[7]), (135, 24, &[]), (132, 24, &[]), (164, 24, &[7]),
                (173, 16, &[]), (174, 34, &[]),
            ] {
                let [high, low] = b(word, offset);
                on(t, &[first, high, low], stack, window, most_first).faults(6);
            }
            for (first, stack) in [(136, &[][..]), (137, &[]), (166, &[7])] {
                for (links, offset) in [(0, 24), (1, 16)] {
                    let [high, low] = b(word, offset);
                    on(t, &[first, links, high, low], stack, window, most_first).faults(6);
                }
            }
        }
    }
}

/// The hand segment with code from byte 34 on.
fn report(code: &[u8], most_first: bool) -> Vec<u8> {
    let mut bytes = hand_segment(0);
    set_bytes(&mut bytes, 34, code);
    if most_first {
        super::most_first(&mut bytes);
    }
    bytes
}

/// Such a report in slot 15 of a bench with shared words; 200 words more, each 9.
fn reporting(shared: &[u16], code: &[u8], most_first: bool) -> World {
    let mut world = with_shared(shared);
    world.bench.words += 100;
    world.memory.resize(world.memory.len() + 100, 9);
    let bytes = report(code, most_first);
    set_bytes(&mut world.store, 32, &bytes);
    world
}

fn sexed(name: &str, most_first: bool) -> String {
    format!("{name}{}", if most_first { ", most byte first" } else { "" })
}

fn the_largest_region(t: &mut Table, most_first: bool) {
    t.says(r#""1..L-1 is a private word of its region; 32,768+i is shared word i": with L = 32,768 the private words end where the window begins"#);
    for (code, address, word) in [
        ([156, 120], 32_767, Some(32_767)), ([156, 120], 32_768, Some(501)), ([156, 121], 32_766, Some(32_767)),
        ([156, 121], 32_767, Some(501)), ([156, 121], 32_768, Some(502)), ([156, 121], 32_769, None), ([156, 120], 32_770, None),
        ([156, 127], 32_760, Some(32_760)), ([156, 127], 32_761, Some(501)), ([156, 127], 32_762, Some(502)), ([156, 127], 32_763, None),
    ] {
        // the address is the stack's one word, at 32,767
        let mut world = with_shared(&[500, 501, 502, 503]);
        world.bench.words = 4 + 32_768;
        world.memory.resize(4 + 32_768, 9);
        let bytes = report(&code, most_first);
        set_bytes(&mut world.store, 32, &bytes);
        open_on(&mut world, 0, 15, 4, 32_768, (1, 2));
        at_record(&mut world, 0).session = ready(32_767, 1, 35, 1);
        world.memory[4 + 32_767] = address;
        let fault = Kind::Faulted { number: 6, place: 35 };
        let name = sexed(&format!("L = 32,768, {code:?} on {address}"), most_first);
        t.story(&name, world)
            .goes(Call::Turn { session: 0, k: 1 }, 1, |world| match word {
                Some(word) => {
                    // 32,767 by index 0 or 32,766 by 1 is the address itself
                    world.memory[4 + 32_767] = if word > 1_000 { address } else { word };
                    at_record(world, 0).session.counter = 36;
                }
                None => at_record(world, 0).session.kind = fault,
            })
            .end();
    }
    the_largest_region_stores(t, most_first);
}

fn the_largest_region_stores(t: &mut Table, most_first: bool) {
    for (address, good) in [(32_767, true), (32_768, false), (32_769, false)] {
        let mut world = with_shared(&[500, 501, 502, 503]);
        world.bench.words = 4 + 32_768;
        world.memory.resize(4 + 32_768, 9);
        let bytes = report(&[196], most_first);
        set_bytes(&mut world.store, 32, &bytes);
        open_on(&mut world, 0, 15, 4, 32_768, (1, 2));
        at_record(&mut world, 0).session = ready(32_766, 1, 34, 1);
        fill_words(&mut world.memory, 4 + 32_766, &[77, address]);
        let name = sexed(&format!("L = 32,768, a store to {address}"), most_first);
        t.story(&name, world)
            .goes(Call::Turn { session: 0, k: 1 }, 1, |world| {
                if good {
                    world.memory[4 + 32_767] = 77;
                    at_record(world, 0).session = down_to(32_766, ready(32_768, 1, 35, 1));
                } else {
                    at_record(world, 0).session.kind = Kind::Faulted { number: 6, place: 34 };
                }
            })
            .end();
    }
}

fn the_largest_window(t: &mut Table, most_first: bool) {
    t.says(r#"02, request 7, with S = 32,768: the last word of a window of 32,768 words is at 65,535, of one from word 1 on at 65,534"#);
    // words 7 but for these
    let words = [(0, 100), (1, 101), (2, 102), (16_384, 116), (32_766, 166), (32_767, 167)];
    for (window, address, word) in [
        ((0, 32_768), 65_535, Some(167)), ((0, 32_768), 65_534, Some(166)), ((0, 32_768), 32_768, Some(100)),
        ((1, 32_767), 65_534, Some(167)), ((1, 32_767), 65_535, None), ((1, 32_767), 32_768, Some(101)),
        ((0, 32_767), 65_534, Some(166)), ((0, 32_767), 65_535, None), ((32_767, 1), 32_768, Some(167)),
        ((32_767, 1), 32_769, None), ((32_767, 1), 65_535, None), ((32_768, 0), 32_768, None), ((32_766, 1), 32_768, Some(166)),
        ((32_766, 1), 32_769, None), ((32_766, 2), 32_769, Some(167)), ((16_384, 16_384), 49_151, Some(167)),
        ((16_384, 16_384), 49_152, None), ((16_384, 16_384), 32_768, Some(116)), ((16_384, 1), 49_152, None),
        ((2, 32_766), 65_533, Some(167)), ((2, 32_766), 65_534, None), ((2, 32_766), 32_768, Some(102)),
    ] {
        for (code, index) in [(&[120][..], 0), (&[127], 7), (&[230, 1], 1)] {
            let mut world = large(32_768, &words);
            let bytes = report(&[&[156, 156], code].concat(), most_first);
            set_bytes(&mut world.store, 32, &bytes);
            open_on(&mut world, 0, 15, 32_768, 16, window);
            at_record(&mut world, 0).session = ready(15, 1, 36, 1);
            world.memory[32_768 + 15] = address - index;
            let fault = Kind::Faulted { number: 6, place: 36 };
            t.story(&sexed(&format!("S = 32,768, window {window:?}, {address} by {code:?}"), most_first), world)
                .goes(Call::Turn { session: 0, k: 1 }, 1, |world| match word {
                    Some(word) => {
                        world.memory[32_768 + 15] = word;
                        at_record(world, 0).session.counter = 36 + code.len() as u64;
                    }
                    None => at_record(world, 0).session.kind = fault,
                })
                .end();
        }
    }
}

// -------------------------------------------------------------------- stories

/// LDCI 32,768, SIND0; LDCI 32,771, SIND0; LDCI 32,772, SIND0: the farm of its
/// first record, that record's concentration, the farm of its second.
const THREE: [u8; 12] = [129, 0x00, 0x80, 120, 129, 0x03, 0x80, 120, 129, 0x04, 0x80, 120];

/// What the report comes to where it sees these words, all six steps in one turn
/// (L = 20).  A word that it does not see leaves its address on the stack.
fn reported(world: &mut World, number: usize, seen: &[u16]) {
    let base = world.bench.records[number].base as usize;
    let addresses = [32_768, 32_771, 32_772];
    let mut pushed: Vec<u16> = seen.to_vec();
    pushed.extend(addresses.get(seen.len()));
    let sp = 20 - pushed.len() as u64;
    let after = 34 + 4 * seen.len() as u64;
    at_record(world, number).session = match seen.len() {
        3 => ready(sp, 1, 46, 1),
        // the SIND0 after the last LDCI
        _ => Session { kind: Kind::Faulted { number: 6, place: after + 3 }, ..ready(sp, 1, after + 3, 1) },
    };
    pushed.reverse();
    fill_words(&mut world.memory, base + sp as usize, &pushed);
}

/// The steps done: six, or as many as the first word not seen has before it.
fn reports<'a>(story: Story<'a>, number: usize, seen: &[u16]) -> Story<'a> {
    let done = (2 * seen.len() as u64 + 2).min(6);
    story.goes(Call::Turn { session: number as u64, k: 6 }, done, |world| reported(world, number, seen))
}

/// Farms 2, 5, 5, 9: concentrations 40,000, 39,999, 39,998, 39,997.
const FARMS: [u16; 4] = [2, 5, 5, 9];

fn farms_side_by_side(t: &mut Table, most_first: bool) {
    t.says(r#"02, request 7: "opens a session that sees only that range, at 32,768 onward"; each session its own"#);
    let world = reporting(&archive(&FARMS), &THREE, most_first);
    let story = t.story(&sexed("farms 9, 5 and 2, and all words", most_first), world)
        .goes(asks_for(15, 20, 9), 0, |world| open_on(world, 0, 15, 16, 20, (12, 4)))
        .goes(asks_for(15, 20, 5), 1, |world| open_on(world, 1, 15, 36, 20, (4, 8)))
        .goes(asks_for(15, 20, 2), 2, |world| open_on(world, 2, 15, 56, 20, (0, 4)))
        .goes(Call::Open { slot: 15, length: 20 }, 3, |world| open_on(world, 3, 15, 76, 20, (0, 16)))
        .goes(asks_on(15, 20, (8, 5)), 4, |world| open_on(world, 4, 15, 96, 20, (8, 5)))
        .goes(asks_on(15, 20, (7, 4)), 5, |world| open_on(world, 5, 15, 116, 20, (7, 4)))
        .sound(true);
    let story = reports(story, 1, &[5, 39_999, 5]);
    let story = reports(story, 0, &[9, 39_997]);
    let story = reports(story, 3, &[2, 40_000, 5]);
    let story = reports(story, 2, &[2, 40_000]);
    let story = reports(story, 4, &[5, 39_998, 9]);
    // a window from a concentration on: words 7 to 10
    let story = reports(story, 5, &[39_999, 49_998]);
    story.sound(true).accepts(true).end();
    // step by step, one session after the other
    let world = reporting(&archive(&FARMS), &THREE, most_first);
    let name = sexed("farms 9 and 5 step by step", most_first);
    let mut story = t.story(&name, world)
        .goes(asks_for(15, 20, 9), 0, |world| open_on(world, 0, 15, 16, 20, (12, 4)))
        .goes(asks_for(15, 20, 5), 1, |world| open_on(world, 1, 15, 36, 20, (4, 8)));
    for (number, base, farm) in [(0, 16, 9), (1, 36, 5)] {
        let turn = Call::Turn { session: number, k: 1 };
        story = story.goes(turn, 1, |world| {
            at_record(world, number as usize).session = ready(19, 1, 37, 1);
            fill_words(&mut world.memory, base + 19, &[32_768]);
        });
        story = story.goes(turn, 1, |world| {
            at_record(world, number as usize).session = ready(19, 1, 38, 1);
            fill_words(&mut world.memory, base + 19, &[farm]);
        });
    }
    story.end();
}

fn one_farm_twice(t: &mut Table, most_first: bool) {
    t.says(r#"02, request 7: a farm may be opened as often as there is room; its sessions see the same words"#);
    let world = reporting(&archive(&FARMS), &THREE, most_first);
    let story = t.story(&sexed("farm 5 opened twice", most_first), world)
        .goes(asks_for(15, 20, 5), 0, |world| open_on(world, 0, 15, 16, 20, (4, 8)))
        .goes(asks_for(15, 20, 5), 1, |world| open_on(world, 1, 15, 36, 20, (4, 8)));
    let story = reports(story, 1, &[5, 39_999, 5]);
    let story = reports(story, 0, &[5, 39_999, 5]);
    story.goes(Call::Turn { session: 0, k: 0 }, 0, |_| {}).end();
}

fn a_farm_without_records(t: &mut Table, most_first: bool) {
    t.says(r#"02, request 7: "empty at word 0 if there are none": every shared word is beyond it"#);
    for farm in [0, 3, 8, 10, 65_535] {
        let world = reporting(&archive(&FARMS), &THREE, most_first);
        let story = t.story(&sexed(&format!("farm {farm} has no records"), most_first), world)
            .finds(farm, 0, 0)
            .goes(asks_for(15, 20, farm), 0, |world| open_on(world, 0, 15, 16, 20, (0, 0)));
        reports(story, 0, &[]).sound(true).end();
    }
    // any other reader, any address
    for (code, base) in [([156, 120], 32_768), ([156, 121], 32_767), ([156, 127], 32_769), ([156, 120], 65_535), ([156, 120], 32_771)] {
        on(t, &code[1..], &[base], (0, 0), most_first).faults(6);
    }
}

fn closed_and_opened_again(t: &mut Table, most_first: bool) {
    t.says(r#""Closing [...] frees region and record."; 02, request 7: the next session in that record has a window of its own"#);
    let world = reporting(&archive(&FARMS), &THREE, most_first);
    let story = t.story(&sexed("farm 5, closed, then others in the same record", most_first), world)
        .goes(asks_for(15, 20, 5), 0, |world| open_on(world, 0, 15, 16, 20, (4, 8)));
    let story = reports(story, 0, &[5, 39_999, 5])
        .goes(Call::Close { session: 0 }, 0, |world| close(world, 0))
        .goes(asks_for(15, 20, 9), 0, |world| open_on(world, 0, 15, 16, 20, (12, 4)));
    let story = reports(story, 0, &[9, 39_997])
        .goes(Call::Close { session: 0 }, 0, |world| close(world, 0))
        .goes(Call::Open { slot: 15, length: 20 }, 0, |world| open_on(world, 0, 15, 16, 20, (0, 16)));
    let story = reports(story, 0, &[2, 40_000, 5])
        .goes(Call::Close { session: 0 }, 0, |world| close(world, 0))
        .goes(asks_for(15, 20, 4), 0, |world| open_on(world, 0, 15, 16, 20, (0, 0)));
    reports(story, 0, &[])
        .goes(Call::Close { session: 0 }, 0, |world| close(world, 0))
        .refuses(Call::Close { session: 0 }, 12)
        .end();
}

fn words_that_change(t: &mut Table, most_first: bool) {
    t.says(r#"02, request 7: the record keeps the window, not its words: they are read as they are now, and the window stays where it was opened"#);
    let world = reporting(&archive(&FARMS), &THREE, most_first);
    let first = sexed("farm 5, its first read", most_first);
    let story = t.story(&first, world)
        .goes(asks_for(15, 20, 5), 0, |world| open_on(world, 0, 15, 16, 20, (4, 8)))
        .goes(Call::Turn { session: 0, k: 2 }, 2, |world| {
            at_record(world, 0).session = ready(19, 1, 38, 1);
            fill_words(&mut world.memory, 16 + 19, &[5]);
        });
    // another concentration, and its second record is now farm 8's
    let story = story
        .then(&sexed("then other words in the window", most_first), |world| {
            (world.memory[7], world.memory[8]) = (1_234, 8);
        })
        .finds(5, 4, 4)
        .goes(Call::Turn { session: 0, k: 4 }, 4, |world| {
            at_record(world, 0).session = ready(17, 1, 46, 1);
            fill_words(&mut world.memory, 16 + 17, &[8, 1_234, 5]);
        })
        .goes(Call::Turn { session: 0, k: 1 }, 1, |world| at_record(world, 0).session = ready(17, 1, 47, 1));
    // the archive is refused now; the session goes on
    story
        .then(&sexed("then an archive that is refused", most_first), |world| world.memory[0] = 6)
        .sound(true)
        .accepts(false)
        .denies(Request::Farm(5), 23)
        .goes(Call::Turn { session: 0, k: 1 }, 1, |world| at_record(world, 0).session = ready(17, 1, 48, 1))
        .refuses(asks_for(15, 20, 5), 23)
        .goes(asks_on(15, 20, (4, 8)), 1, |world| open_on(world, 1, 15, 36, 20, (4, 8)))
        .end();
    the_farm_moves(t, most_first);
}

/// Farm 5's records move in the archive, or S grows: a session that is open stays
/// on its words, and a new one goes to the new range.
fn the_farm_moves(t: &mut Table, most_first: bool) {
    let world = reporting(&archive(&FARMS), &THREE, most_first);
    let name = sexed("farm 5 opened before its records move", most_first);
    let story = t.story(&name, world)
        .goes(asks_for(15, 20, 5), 0, |world| open_on(world, 0, 15, 16, 20, (4, 8)));
    let moved = sexed("then farm 5 has the first record", most_first);
    let story = story
        .then(&moved, |world| fill_words(&mut world.memory, 0, &archive(&[5, 6, 7, 9])))
        .finds(5, 0, 4)
        .goes(asks_for(15, 20, 5), 1, |world| open_on(world, 1, 15, 36, 20, (0, 4)));
    let story = reports(story, 1, &[5, 40_000]);
    // words 4, 7 and 8
    reports(story, 0, &[6, 39_999, 7]).end();
}

fn windows_of_odd_sizes(t: &mut Table, most_first: bool) {
    t.says(r#"02, request 7: a window is words, not records: any first word and any number of them, whatever the archive"#);
    // S = 7 is no archive; words 500 to 506
    let shared: Vec<u16> = (500..507).collect();
    for (window, seen) in [
        ((1, 5), &[501, 504, 505][..]), ((2, 5), &[502, 505, 506]), ((3, 4), &[503, 506]), ((3, 3), &[503]), ((6, 1), &[506]),
        ((7, 0), &[]), ((0, 7), &[500, 503, 504]), ((1, 4), &[501, 504]), ((1, 3), &[501]), ((1, 1), &[501]), ((5, 0), &[]),
        ((0, 5), &[500, 503, 504]), ((0, 4), &[500, 503]), ((0, 3), &[500]),
    ] {
        let world = reporting(&shared, &THREE, most_first);
        let story = t.story(&sexed(&format!("S = 7, window {window:?}"), most_first), world)
            .accepts(false)
            .goes(asks_on(15, 20, window), 0, |world| open_on(world, 0, 15, 7, 20, window));
        reports(story, 0, seen).sound(true).end();
    }
}

/// LDCI 32,768, SIND3, SRO 1; LDCI 32,770, IND 5, SRO 2; SLDO1, SLDO2, SBI; LDCI
/// 32,776, SIND0.
const DIFFERENCE: [u8; 19] =
    [129, 0x00, 0x80, 123, 165, 1, 129, 0x02, 0x80, 230, 5, 165, 2, 48, 49, 163, 129, 0x08, 0x80];

fn two_worlds(t: &mut Table, most_first: bool) {
    t.says(r#"02, request 7: "Changing any other farm's records changes no answer of a session on that window, so long as the archive is accepted and the farm's range begins at the same place with the same words.""#);
    let mut code = DIFFERENCE.to_vec();
    code.push(120);
    // farm 5's two records are words 4 to 11 in each
    let own = [5, 1, 2, 700, 5, 1, 3, 650];
    let others: [(&[u16], &[u16]); 6] = [
        (&[2, 9, 9, 9], &[9, 9, 9, 9]), (&[0, 0, 0, 0], &[65_535, 0, 0, 0]), (&[4, 5, 5, 5], &[6, 5, 5, 5, 6, 5, 5, 5]),
        (&[1, 2, 3, 4], &[]), (&[4, 65_535, 65_535, 65_535], &[7, 650, 650, 650, 8, 1, 1, 1, 9, 2, 2, 2]),
        (&[3, 700, 700, 700], &[6, 700, 700, 700]),
    ];
    for (at, (before, behind)) in others.into_iter().enumerate() {
        let shared = [before, &own, behind].concat();
        let mut world = reporting(&shared, &code, most_first);
        let all = shared.len() as u64;
        // in some another session lies before it, in some N is greater
        let neighbour = at % 2 == 1;
        let number = usize::from(neighbour);
        let base = all + if neighbour { 30 } else { 0 };
        if neighbour {
            open_on(&mut world, 0, 15, all, 30, (0, all));
        }
        world.bench.words += at as u64;
        world.memory.resize(world.memory.len() + at, 3);
        let story = t.story(&sexed(&format!("farm 5 in world {at}"), most_first), world)
            .finds(5, 4, 8)
            .goes(asks_for(15, 24, 5), number as u64, |world| open_on(world, number, 15, base, 24, (4, 8)));
        same_answers(story, number, base as usize).end();
    }
}

/// 700 to global 1, 650 to global 2, 50 on the stack, then the word after the
/// farm's records: fault 6.  The same numbers in every world.
fn same_answers<'a>(story: Story<'a>, number: usize, base: usize) -> Story<'a> {
    let turn = |k| Call::Turn { session: number as u64, k };
    story
        .goes(turn(3), 3, |world| {
            at_record(world, number).session = down_to(23, ready(24, 1, 40, 1));
            fill_words(&mut world.memory, base + 23, &[700]);
            fill_words(&mut world.memory, base + 6, &[700]);
        })
        .goes(turn(6), 6, |world| {
            at_record(world, number).session = down_to(22, ready(23, 1, 50, 1));
            fill_words(&mut world.memory, base + 22, &[650, 50]);
            fill_words(&mut world.memory, base + 7, &[650]);
        })
        .goes(turn(9), 2, |world| {
            let stopped = Kind::Faulted { number: 6, place: 53 };
            at_record(world, number).session = Session { kind: stopped, ..ready(22, 1, 53, 1) };
            fill_words(&mut world.memory, base + 22, &[32_776]);
        })
        .goes(turn(9), 0, |_| {})
        .sound(true)
}
