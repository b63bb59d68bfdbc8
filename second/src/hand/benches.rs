//! The entries: new bench, loading, opening, turns, closing; refusals 11 to 17
//! with their orders.

use super::{at_record, at_slot, down_to, fill_words, hand_segment, ready, set_bytes, Story, Table};
use crate::bench::{Record, Slot, Window};
use crate::generate::SMALL;
use crate::machine::{Kind, Session};
use crate::world::{blank_bench, Call, World};

pub fn fill(t: &mut Table) {
    new_benches(t);
    loading(t);
    loading_judges(t);
    opening(t);
    opening_and_g(t);
    sixteen_and_one(t);
    the_lowest_gap(t);
    turns(t);
    shared_words(t);
    the_last_shared_word(t);
    closing(t);
}

/// The store: the small segment at 0 (32 bytes, G = 0), the hand segment at 32
/// (128 bytes, G = 2, n = 3), and two bytes more.  162 bytes.
fn store() -> Vec<u8> {
    let mut store = SMALL.to_vec();
    store.extend(hand_segment(0));
    store.extend([0, 0]);
    store
}

/// A new bench with that store; every word is 9.
pub fn empty(shared: u64, words: u64) -> World {
    let mut bench = blank_bench();
    (bench.shared, bench.words) = (shared, words);
    World { bench, memory: vec![9; words as usize], store: store() }
}

pub fn in_slot(world: &mut World, number: usize, start: u64, length: u64) {
    *at_slot(world, number) = Slot { loaded: true, start, length };
}

/// A session just opened, with all S words for its window; the small segment
/// starts at 30, the hand segment at 34.
pub fn open(world: &mut World, number: usize, slot: u64, base: u64, length: u64, start: u64) {
    let (session, window) = (ready(length, 1, start, 1), Window::all(world.bench.shared));
    *at_record(world, number) = Record { open: true, slot, base, length, window, session };
    fill_words(&mut world.memory, base as usize, &vec![0; length as usize]);
}

pub fn close(world: &mut World, number: usize) {
    let Record { base, length, .. } = *at_record(world, number);
    fill_words(&mut world.memory, base as usize, &vec![0; length as usize]);
    *at_record(world, number) = Record::UNUSED;
}

/// S = 4, N = 100; the small segment in slot 2, the hand segment in slot 15;
/// session 0 of L = 20 at word 4 (small), session 1 of L = 30 at 24 (hand).
pub fn rigged() -> World {
    let mut world = empty(4, 100);
    in_slot(&mut world, 2, 0, 32);
    in_slot(&mut world, 15, 32, 128);
    open(&mut world, 0, 2, 4, 20, 30);
    open(&mut world, 1, 15, 24, 30, 34);
    world
}

fn new_benches(t: &mut Table) {
    t.says(r#""A new bench has no slot loaded and no record used, and touches no word."; "S at most 32,768 and at most N""#);
    let sizes = [(0, 0), (0, 1), (1, 1), (32_768, 32_768), (32_768, 1_048_576), (0, 1_048_576)];
    for (shared, words) in sizes {
        t.story(&format!("new bench of N = {words}, S = {shared}"), rigged())
            .goes(Call::New { shared, words }, 0, |world| {
                world.bench = blank_bench();
                (world.bench.shared, world.bench.words) = (shared, words);
            })
            .end();
    }
    t.says(r#""17 [...] new bench: S or N beyond its limit""#);
    let beyond = [
        (1, 0), (32_769, 40_000), (0, 1_048_577), (2, 1), (u64::MAX, u64::MAX), (0, 1 << 32), (1 << 32, 5),
        (0, u64::MAX), (u64::MAX, 5), (32_769, 1_048_576),
    ];
    for (shared, words) in beyond {
        t.story(&format!("new bench of N = {words}, S = {shared}: refused"), rigged())
            .refuses(Call::New { shared, words }, 17)
            .end();
    }
}

fn loading(t: &mut Table) {
    t.says(r#""loading 11, 12, 17, then 1 to 8"; "slot [...] number above 15; [...] (loading: already loaded)"; "start odd, or start plus length beyond the store""#);
    let load = |slot, start, length| Call::Load { slot, start, length };
    t.story("loading, and its refusals", empty(4, 100))
        .goes(load(15, 32, 128), 0, |world| in_slot(world, 15, 32, 128))
        .refuses(load(15, 0, 32), 12) // already loaded
        .refuses(load(16, 0, 32), 12)
        .refuses(load(4_000_000_000, 0, 32), 12)
        .refuses(load((1 << 32) + 1, 0, 32), 12)
        .refuses(load(u64::MAX, 1, 32), 12) // 12 before 17
        .refuses(load(0, 1, 32), 17) // odd
        .refuses(load(0, 160, 4), 17)
        .refuses(load(0, 162, 2), 17)
        .refuses(load(0, 164, 0), 17)
        .refuses(load(0, 2, u64::MAX), 17)
        .refuses(load(0, u64::MAX - 1, 2), 17)
        .refuses(load(0, 1 << 32, 32), 17)
        .refuses(load(0, 162, 0), 1) // in the store, but no segment
        .refuses(load(0, 0, 31), 1)
        .refuses(load(0, 1, 31), 17) // 17 before 1
        .refuses(load(0, 34, 126), 2) // not where it begins
        .goes(load(0, 0, 32), 0, |world| in_slot(world, 0, 0, 32))
        .goes(load(1, 0, 32), 0, |world| in_slot(world, 1, 0, 32)) // slots may share bytes
        .sound(true)
        .end();
}

fn loading_judges(t: &mut Table) {
    t.says(r#"loading: "11, 12, 17, then 1 to 8", with the routine number as the place of 6 to 8"#);
    let spoilt = [
        (6, 2u16, 2, 0), (1, 1, 3, 0), (7, 1, 4, 0), (0, 10, 5, 0), (13, 11, 6, 2), (50, 32_768, 7, 3),
        (15, 21, 8, 1),
    ];
    for (word, value, number, place) in spoilt {
        let mut world = empty(0, 0);
        set_bytes(&mut world.store, 32 + 2 * word, &value.to_le_bytes());
        t.story(&format!("loading a segment with word {word} = {value}"), world)
            .refuses_at(Call::Load { slot: 0, start: 32, length: 128 }, number, place)
            .end();
    }
}

fn opening(t: &mut Table) {
    t.says(r#""Opening 11, 12, 13, 14, 15."; "Opening gives the lowest gap that fits, from word S up, and the lowest unused record""#);
    let ask = |slot, length| Call::Open { slot, length };
    let mut start = rigged();
    start.bench.records = blank_bench().records;
    start.memory.fill(9);
    t.story("opening, and its refusals", start)
        .goes(ask(2, 20), 0, |world| open(world, 0, 2, 4, 20, 30))
        .goes(ask(15, 30), 1, |world| open(world, 1, 15, 24, 30, 34))
        .sound(true)
        .refuses(ask(16, 20), 12)
        .refuses(ask(4_000_000_000, 20), 12)
        .refuses(ask((1 << 32) + 2, 20), 12)
        .refuses(ask(0, 20), 12) // not loaded
        .refuses(ask(0, 0), 12) // 12 before 13
        .refuses(ask(2, 15), 13)
        .refuses(ask(2, 32_769), 13)
        .refuses(ask(2, u64::MAX), 13)
        .refuses(ask(2, (1 << 32) + 20), 13)
        .refuses(ask(2, 32_768), 15)
        .refuses(ask(2, 47), 15) // 46 words are left
        .goes(ask(2, 46), 2, |world| open(world, 2, 2, 54, 46, 30))
        .refuses(ask(2, 16), 15)
        .end();
}

fn opening_and_g(t: &mut Table) {
    t.says(r#""13 opening: L outside 16..32,768, or L below 6+G""#);
    let ask = |length| Call::Open { slot: 0, length };
    // routine 1 of the hand segment gets DATASIZE 100
    let mut world = empty(0, 40_000);
    set_bytes(&mut world.store, 64, &[100, 0]);
    in_slot(&mut world, 0, 32, 128);
    t.story("G = 100", world)
        .refuses(ask(105), 13)
        .goes(ask(106), 0, |world| open(world, 0, 0, 0, 106, 34))
        .goes(ask(32_768), 1, |world| open(world, 1, 0, 106, 32_768, 34))
        .end();
    // no L is enough for DATASIZE 32,767
    let mut world = empty(0, 40_000);
    set_bytes(&mut world.store, 64, &[0xFF, 0x7F]);
    in_slot(&mut world, 0, 32, 128);
    t.story("G = 32,767", world).refuses(ask(32_768), 13).end();
}

fn sixteen_and_one(t: &mut Table) {
    t.says(r#""14 opening: no record unused", after 13 and before 15"#);
    let ask = |length| Call::Open { slot: 0, length };
    let mut world = empty(0, 300);
    in_slot(&mut world, 0, 0, 32);
    let mut story = t.story("sixteen sessions and one", world);
    for number in 0..16 {
        story = story.goes(ask(16), number, |world| {
            open(world, number as usize, 0, 16 * number, 16, 30);
        });
    }
    story
        .refuses(ask(16), 14)
        .refuses(ask(2_000), 14) // 14 before 15
        .refuses(ask(15), 13) // 13 before 14
        .goes(Call::Close { session: 5 }, 0, |world| close(world, 5))
        .goes(ask(16), 5, |world| open(world, 5, 0, 80, 16, 30))
        .end();
}

fn the_lowest_gap(t: &mut Table) {
    t.says(r#""15 opening: no gap of L free words"; "Freed words can be given again.""#);
    let ask = |length| Call::Open { slot: 0, length };
    let mut world = empty(3, 103);
    in_slot(&mut world, 0, 0, 32);
    let mut story = t.story("gaps", world);
    for number in 0..4 {
        // at 3, 23, 43, 63
        story = story.goes(ask(20), number, |world| {
            open(world, number as usize, 0, 3 + 20 * number, 20, 30);
        });
    }
    story
        .goes(Call::Close { session: 0 }, 0, |world| close(world, 0))
        .goes(Call::Close { session: 2 }, 0, |world| close(world, 2))
        // gaps: 3..23, 43..63, 83..103
        .refuses(ask(21), 15)
        .goes(ask(17), 0, |world| open(world, 0, 0, 3, 17, 30))
        .goes(ask(20), 2, |world| open(world, 2, 0, 43, 20, 30))
        .goes(ask(16), 4, |world| open(world, 4, 0, 83, 16, 30)) // 20..23 is too small
        .sound(true)
        .end();
}

fn turns(t: &mut Table) {
    t.says(r#""Turn and closing 11, 12, 16."; "k = 0 and a session not ready give 0.""#);
    let ask = |session, k| Call::Turn { session, k };
    let faulted = |sp, counter, number| Session {
        kind: Kind::Faulted { number, place: counter },
        ..ready(sp, 1, counter, 1)
    };
    t.story("turns, and their refusals", rigged())
        .goes(ask(0, 0), 0, |_| {})
        .refuses(ask(0, 65_536), 16)
        .refuses(ask(0, u64::MAX), 16)
        .refuses(ask(0, 1 << 32), 16)
        .refuses(ask(2, 65_536), 12) // 12 before 16
        .refuses(ask(16, 1), 12)
        .refuses(ask(4_000_000_000, 1), 12)
        .refuses(ask(1 << 32, 1), 12)
        .refuses(ask(u64::MAX, 1), 12)
        .goes(ask(0, 65_535), 3, |world| {
            at_record(world, 0).session = faulted(18, 32, 1);
            fill_words(&mut world.memory, 4 + 18, &[7, 5]);
        })
        .goes(ask(0, 65_535), 0, |_| {})
        .refuses(ask(0, 65_536), 16) // also when not ready
        // 44 NOPs from 34 to 77, then EXITIC of routine 2, 82: not carried
        .goes(ask(1, 45), 45, |world| at_record(world, 1).session = faulted(30, 78, 2))
        .sound(true)
        .end();
}

fn shared_words(t: &mut Table) {
    t.says(r#""32,768+i is shared word i, for i below S, and can only be read"; other sessions' words stay"#);
    let mut world = empty(4, 100);
    fill_words(&mut world.memory, 3, &[1_234]);
    // LDCI 32,771; SIND0; SRO 1; RPU 0
    set_bytes(&mut world.store, 32 + 34, &[129, 0x03, 0x80, 120, 165, 1, 150, 0]);
    in_slot(&mut world, 0, 32, 128);
    t.story("two sessions read one shared word", world)
        .goes(Call::Open { slot: 0, length: 20 }, 0, |world| open(world, 0, 0, 4, 20, 34))
        .goes(Call::Open { slot: 0, length: 20 }, 1, |world| open(world, 1, 0, 24, 20, 34))
        .goes(Call::Turn { session: 1, k: 100 }, 4, |world| {
            let finished = Session { kind: Kind::Finished, ..ready(20, 1, 40, 1) };
            at_record(world, 1).session = down_to(19, finished);
            // global 1, and the word popped, which keeps it
            fill_words(&mut world.memory, 24 + 6, &[1_234]);
            fill_words(&mut world.memory, 24 + 19, &[1_234]);
        })
        .goes(Call::Turn { session: 1, k: 100 }, 0, |_| {})
        .goes(Call::Turn { session: 0, k: 2 }, 2, |world| {
            at_record(world, 0).session = ready(19, 1, 38, 1);
            fill_words(&mut world.memory, 4 + 19, &[1_234]);
        })
        .end();
}

fn the_last_shared_word(t: &mut Table) {
    t.says(r#""32,768+i is shared word i, for i below S"; "a sum above 65,535 faults": with S = 32,768 the last is 65,535"#);
    // LDCI a base, then SIND0, SIND1 or IND 32,767
    let lines: [(u16, &[u8], Option<u16>); 7] = [
        (65_535, &[120], Some(1_234)), (65_534, &[121], Some(1_234)), (65_535, &[121], None), (65_534, &[120], Some(9)),
        (32_768, &[230, 0xFF, 0xFF], Some(1_234)), (32_769, &[230, 0xFF, 0xFF], None), (65_535, &[230, 0xFF, 0xFF], None),
    ];
    for (base, code, word) in lines {
        let mut world = empty(32_768, 32_784);
        let [low, high] = base.to_le_bytes();
        set_bytes(&mut world.store, 32 + 34, &[129, low, high]);
        set_bytes(&mut world.store, 32 + 37, code);
        world.memory[32_767] = 1_234;
        in_slot(&mut world, 0, 32, 128);
        open(&mut world, 0, 0, 32_768, 16, 34);
        let next = 37 + code.len() as u64;
        t.story(&format!("S = 32,768, {base} by {code:?}"), world)
            .goes(Call::Turn { session: 0, k: 2 }, 2, |world| {
                let bad = Kind::Faulted { number: 6, place: 37 };
                at_record(world, 0).session = match word {
                    Some(_) => ready(15, 1, next, 1),
                    None => Session { kind: bad, ..ready(15, 1, 37, 1) },
                };
                fill_words(&mut world.memory, 32_768 + 15, &[word.unwrap_or(base)]);
            })
            .end();
    }
}

fn closing(t: &mut Table) {
    t.says(r#""Closing zeroes the region and frees region and record.""#);
    let ask = |session| Call::Close { session };
    let story: Story = t.story("closing, and its refusals", rigged());
    story
        .refuses(ask(2), 12)
        .refuses(ask(16), 12)
        .refuses(ask(4_000_000_000), 12)
        .refuses(ask(u64::MAX), 12)
        .goes(Call::Turn { session: 0, k: 9 }, 3, |world| {
            let session = ready(18, 1, 32, 1);
            at_record(world, 0).session =
                Session { kind: Kind::Faulted { number: 1, place: 32 }, ..session };
            fill_words(&mut world.memory, 4 + 18, &[7, 5]);
        })
        .goes(ask(0), 0, |world| close(world, 0)) // a faulted one closes too
        .refuses(ask(0), 12)
        .goes(ask(1), 0, |world| close(world, 1))
        .end();
}
