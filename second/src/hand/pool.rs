//! The constant pool, request 2 of 02: its first word at every limit, judged,
//! turned and loaded, the order of refusal 4, and benches that run a report with
//! a pool.  What soundness says of it is in `soundness`.

use super::benches::{close, in_slot, open};
use super::marked::opened;
use super::segments::{hand_numbers, hand_with};
use super::unlinked::{swapped, unloaded};
use super::{
    at_record, down_to, fill_words, hand_segment, most_first, ready, set_bytes, set_sp, set_words, Table,
};
use crate::generate::SMALL;
use crate::machine::{Kind, Session};
use crate::world::{Call, Judged, World, UNWRITTEN};

pub fn fill(t: &mut Table) {
    for most_first in [false, true] {
        the_first_word(t, most_first);
        over_other_words(t, most_first);
    }
    the_shortest_and_the_longest(t);
    the_order_of_4(t);
    pointers_outside(t);
    four_before_9(t);
    loading_judges_it(t);
    a_bench_with_units(t);
    sessions_on_one_pool(t);
}

/// The hand segment with a pool and its first word.
pub fn with_first(pool: u16, first: u16) -> Vec<u8> {
    hand_with(&[(7, pool), (usize::from(pool), first)])
}

/// The same most byte first, the pool's first word too.
pub fn turned_with_first(pool: u16, first: u16) -> Vec<u8> {
    let mut bytes = with_first(pool, first);
    most_first(&mut bytes);
    set_bytes(&mut bytes, 2 * usize::from(pool), &first.to_be_bytes());
    bytes
}

fn in_sex(pool: u16, first: u16, most_first: bool) -> Vec<u8> {
    if most_first { turned_with_first(pool, first) } else { with_first(pool, first) }
}

/// Judged: the real pool's start, or refused with 4.
fn judged(t: &mut Table, most_first: bool, pool: u16, first: u16, real_start: Option<u32>) {
    let bytes = in_sex(pool, first, most_first);
    let sex = if most_first { ", most byte first" } else { "" };
    let name = format!("pool {pool}, first word {first}{sex}");
    match real_start {
        None => t.refused(&name, &bytes, 4, 0),
        Some(real_start) => {
            let pool = u32::from(pool);
            let judged = Judged { pool, real_start, least_first: !most_first, ..hand_numbers() };
            t.judged(&name, &bytes, judged);
            t.turned(&format!("{name}, turned"), &bytes, &[UNWRITTEN; 130], 9);
        }
    }
}

fn the_first_word(t: &mut Table, most_first: bool) {
    t.says(r#"02, request 2: "The pool's first word must be 0 or point inside the pool (which ends at W), else refusal 4"; 000: it is "a word pointer relative to the start of the constant pool""#);
    // W is 64
    for (first, real_start) in [(0, 64), (1, 57), (2, 58), (6, 62), (7, 63)] {
        judged(t, most_first, 56, first, Some(real_start));
    }
    // 56 and 65,480, 65,481, 65,491 or 65,535 would wrap to 0, 1, 11 or 55
    for first in [8, 9, 63, 64, 255, 32_767, 32_768, 65_480, 65_481, 65_491, 65_535] {
        judged(t, most_first, 56, first, None);
    }
    // 1 and 7 with their bytes exchanged
    for first in [256, 0x0700] {
        judged(t, most_first, 56, first, None);
    }
    for (pool, first, real_start) in [(63, 0, 64), (62, 1, 63), (62, 0, 64), (51, 12, 63), (20, 43, 63), (17, 1, 18)] {
        judged(t, most_first, pool, first, Some(real_start));
    }
    for (pool, first) in [(63, 1), (63, 65_535), (62, 2), (51, 13), (20, 44), (17, 47)] {
        judged(t, most_first, pool, first, None);
    }
}

fn over_other_words(t: &mut Table, turned: bool) {
    t.says(r#""4 pool pointer neither 0 nor 11..W-1"; 02, request 2: the first word is read whatever else it is"#);
    let sex = if turned { ", most byte first" } else { "" };
    let with = |words: &[(usize, u16)]| {
        let mut bytes = hand_with(words);
        if turned {
            most_first(&mut bytes);
        }
        bytes
    };
    // n, the entries of routines 1 and 2, EXITIC and DATASIZE of routine 1,
    // DATASIZE of routine 2
    for (pool, real_start) in [(11, 14), (12, 28), (13, 53), (15, 49), (16, 18), (40, 43)] {
        let numbers =
            Judged { pool: u32::from(pool), real_start, least_first: !turned, ..hand_numbers() };
        t.judged(&format!("the pool at {pool}{sex}"), &with(&[(7, pool)]), numbers);
    }
    // routine 3's entry, 50, from 14 is 64; EXITIC of routines 2 and 3, 82 and 102
    for pool in [14, 39, 49] {
        t.refused(&format!("the pool at {pool}{sex}"), &with(&[(7, pool)]), 4, 0);
    }
    let mut numbers = Judged { pool: 14, real_start: 64, least_first: !turned, ..hand_numbers() };
    numbers.routines[2] = crate::segment::Routine::UNLINKED;
    t.judged(&format!("the pool at a zero entry{sex}"), &with(&[(7, 14), (14, 0)]), numbers);
}

fn the_shortest_and_the_longest(t: &mut Table) {
    t.says(r#""A segment is W words, 16 to 32,767"; 02, request 2: "point inside the pool (which ends at W)""#);
    let small = |pool: u16, words: &[(usize, u16)]| {
        let mut bytes = SMALL.to_vec();
        set_words(&mut bytes, &[(7, pool)]);
        set_words(&mut bytes, words);
        bytes
    };
    // n = 1 at 11, the entry 14 at 12, EXITIC 30 at 13, DATASIZE 0 at 14; the code is 05 07
    let routines = vec![super::routine(14, 0, 30, 30)];
    let numbers = Judged { words: 16, routines, ..hand_numbers() };
    let lawful: [(u16, &[(usize, u16)], u32); 4] = [(11, &[], 12), (14, &[], 16), (15, &[(15, 0)], 16), (14, &[(14, 1)], 15)];
    for (pool, words, real_start) in lawful {
        let mut numbers = Judged { pool: u32::from(pool), real_start, ..numbers.clone() };
        numbers.routines[0].data_size = words.first().filter(|(at, _)| *at == 14).map_or(0, |_| 1);
        t.judged(&format!("W = 16, pool {pool}, words {words:?}"), &small(pool, words), numbers);
    }
    for (pool, words) in [(12, &[][..]), (13, &[]), (15, &[]), (15, &[(15, 1)]), (16, &[]), (14, &[(14, 2)])] {
        t.refused(&format!("W = 16, pool {pool}, words {words:?}"), &small(pool, words), 4, 0);
    }
    for (pool, first, real_start) in [(20, 32_746, Some(32_766)), (20, 32_747, None), (32_766, 0, Some(32_767)), (32_766, 1, None)] {
        let mut bytes = SMALL.to_vec();
        bytes.resize(65_534, 0);
        set_words(&mut bytes, &[(7, pool), (usize::from(pool), first)]);
        let name = format!("W = 32,767, pool {pool}, first word {first}");
        match real_start {
            None => t.refused(&name, &bytes, 4, 0),
            Some(real_start) => {
                t.judged(&name, &bytes, Judged { words: 32_767, pool: u32::from(pool), real_start, ..numbers.clone() });
            }
        }
    }
}

fn the_order_of_4(t: &mut Table) {
    t.says(r#""Checks 1 to 5 come first, then 6, 7, 8"; 02, request 2: "else refusal 4": after 3, before 5"#);
    // the pool at 56, its first word 8 or 65,535
    for first in [8, 65_535] {
        let spoilt: [(&[(usize, u16)], u32, u32); 12] = [
            (&[(6, 2)], 2, 0), // the sex
            (&[(1, 1)], 3, 0), // relocation
            (&[(0, 0)], 4, 0), // D
            (&[(0, 64)], 4, 0),
            (&[(11, 0)], 4, 0), // n
            (&[(11, 256)], 4, 0),
            (&[(12, 0)], 4, 0), // an entry
            (&[(14, 11)], 4, 0),
            (&[(16, 32_768)], 4, 0), // DATASIZE
            (&[(15, 0)], 4, 0), // EXITIC
            (&[(1, 1), (0, 0)], 3, 0),
            (&[(0, 0), (12, 0)], 4, 0),
        ];
        for (words, number, place) in spoilt {
            let mut bytes = with_first(56, first);
            set_words(&mut bytes, words);
            t.refused(&format!("first word {first}, and words {words:?}"), &bytes, number, place);
        }
        let mut odd = with_first(56, first);
        odd.pop();
        t.refused(&format!("first word {first}, 127 bytes"), &odd, 1, 0);
    }
    // a lawful one leaves the others their numbers
    for first in [0, 7] {
        for (word, value, number, place) in [(1, 1, 3, 0), (0, 0, 5, 0), (11, 0, 5, 0), (14, 11, 6, 3), (16, 32_768, 7, 1), (49, 21, 8, 3)] {
            let mut bytes = with_first(56, first);
            set_words(&mut bytes, &[(word, value)]);
            t.refused(&format!("first word {first}, and word {word} {value}"), &bytes, number, place);
        }
    }
}

/// A pointer outside has no first word: word 10 holds 1, word 64 is none.
fn pointers_outside(t: &mut Table) {
    t.says(r#""4 pool pointer neither 0 nor 11..W-1"; 02, request 2: such a pointer leads to no first word"#);
    t.refused("pool pointer 10, word 10 is 1", &hand_with(&[(7, 10), (10, 1)]), 4, 0);
    for first in [0, 7] {
        let bytes = turned_with_first(10, first);
        t.refused(&format!("pool pointer 10, word 10 is {first}, most byte first"), &bytes, 4, 0);
    }
    t.refused("pool pointer 64", &hand_with(&[(7, 64)]), 4, 0);
    t.refused("pool pointer 65,535", &hand_with(&[(7, 65_535)]), 4, 0);
}

fn four_before_9(t: &mut Table) {
    t.says(r#""Turning 1 to 10": 4 comes before 9, and 9 before 10"#);
    let refused = |t: &mut Table, name: &str, bytes: &[u8], length: usize, number: u32| {
        t.turned(&format!("{name}, into {length} bytes"), bytes, &vec![UNWRITTEN; length], number);
    };
    for most_first in [false, true] {
        for (first, number) in [(8, 4), (7, 9), (0, 9)] {
            for length in [127, 128, 140] {
                let name = format!("first word {first}, most byte first is {most_first}");
                refused(t, &name, &in_sex(56, first, most_first), length, number);
            }
        }
    }
}

fn loading_judges_it(t: &mut Table) {
    t.says(r#"loading: "11, 12, 17, then 1 to 8"; 02, request 2: "else refusal 4""#);
    let load = Call::Load { slot: 0, start: 2, length: 128 };
    for most_first in [false, true] {
        for (pool, first) in [(56, 8), (56, 65_535), (63, 1), (56, 0x0700)] {
            let bytes = in_sex(pool, first, most_first);
            t.story(&format!("loading pool {pool}, first word {first}"), unloaded(&bytes))
                .refuses(Call::Load { slot: 16, start: 2, length: 128 }, 12)
                .refuses(Call::Load { slot: 0, start: 3, length: 128 }, 17)
                .refuses(load, 4)
                .sound(true)
                .refuses(Call::Open { slot: 0, length: 16 }, 12)
                .end();
        }
    }
    for most_first in [false, true] {
        for (pool, first) in [(56, 0), (56, 7), (63, 0)] {
            let bytes = in_sex(pool, first, most_first);
            t.story(&format!("loading pool {pool}, first word {first}"), unloaded(&bytes))
                .goes(load, 0, |world| in_slot(world, 0, 2, 128))
                .sound(true)
                .refuses(load, 12)
                .goes(Call::Open { slot: 0, length: 16 }, 0, |world| open(world, 0, 0, 4, 16, 34))
                .goes(Call::Turn { session: 0, k: 1 }, 1, |world| at_record(world, 0).session.counter = 35)
                .goes(Call::Close { session: 0 }, 0, |world| close(world, 0))
                .end();
        }
    }
}

/// A report that counts in global 1 and chooses by the count: for 1 the words
/// 61 and 62, one after the other, for 2 word 61 as its bytes lie, come to global
/// 2; otherwise it returns.  The pool's table is at offset 1, the units at 5,
/// the real pool at 63.
fn units(most_first: bool) -> Vec<u8> {
    let mut bytes = hand_segment(56);
    let code = [
        48, 237, 165, 1, 48, 214, 1, // 34: SLDO1 INCI SRO 1; SLDO1 XJP 1
        150, 0, // 41: RPU 0
        131, 2, 5, 2, 165, 2, 165, 2, 138, 0xED, // 43: LDC 2 5 2; SRO 2 SRO 2; UJP 34
        131, 0, 5, 1, 165, 2, 138, 0xE5, // 53: LDC 0 5 1; SRO 2; UJP 34
    ];
    set_bytes(&mut bytes, 34, &code);
    set_words(&mut bytes, &[(56, 7), (57, 1), (58, 2), (59, 2), (60, 12), (61, 0x1234), (62, 0x5678), (63, 0)]);
    if most_first {
        super::most_first(&mut bytes);
        bytes = swapped(&bytes, 56..=63);
    }
    bytes
}

fn a_bench_with_units(t: &mut Table) {
    t.says(r#"02, request 2: "Most reports print units from the constant pool, and we fault on all of them.""#);
    for most_first in [false, true] {
        // mode 0 leaves the bytes of a most-first segment as they lie
        let second = if most_first { 0x3412 } else { 0x1234 };
        let name = if most_first { "a report with units, most byte first" } else { "a report with units" };
        let finished = Session { kind: Kind::Finished, ..ready(20, 1, 41, 1) };
        t.story(name, unloaded(&units(most_first)))
            .goes(Call::Load { slot: 7, start: 2, length: 128 }, 0, |world| in_slot(world, 7, 2, 128))
            .sound(true)
            .goes(Call::Open { slot: 7, length: 20 }, 0, |world| open(world, 0, 7, 4, 20, 34))
            // up to the first LDC and with it
            .goes(Call::Turn { session: 0, k: 6 }, 6, |world| {
                fill_words(&mut world.memory, 4 + 6, &[1]);
                fill_words(&mut world.memory, 4 + 18, &[0x5678, 0x1234]);
                at_record(world, 0).session = ready(18, 1, 47, 1);
            })
            .sound(true)
            .goes(Call::Turn { session: 0, k: 3 }, 3, |world| {
                fill_words(&mut world.memory, 4 + 7, &[0x1234]);
                at_record(world, 0).session = ready(20, 1, 34, 1);
            })
            .goes(Call::Turn { session: 0, k: 8 }, 8, |world| {
                fill_words(&mut world.memory, 4 + 6, &[2, second]);
                fill_words(&mut world.memory, 4 + 19, &[second]);
                at_record(world, 0).session = ready(20, 1, 34, 1);
            })
            .goes(Call::Turn { session: 0, k: 100 }, 6, |world| {
                fill_words(&mut world.memory, 4 + 6, &[3]);
                fill_words(&mut world.memory, 4 + 19, &[3]);
                at_record(world, 0).session = finished;
            })
            .sound(true)
            .goes(Call::Turn { session: 0, k: 100 }, 0, |_| {})
            .goes(Call::Close { session: 0 }, 0, |world| close(world, 0))
            .end();
    }
}

fn sessions_on_one_pool(t: &mut Table) {
    t.says(r#"02, request 2: a report with a pool in one turn, its sessions apart; the store is not written"#);
    for most_first in [false, true] {
        let second = if most_first { 0x3412 } else { 0x1234 };
        let run = |world: &mut World, number: usize, base: usize, length: usize| {
            fill_words(&mut world.memory, base + 6, &[3, second]);
            fill_words(&mut world.memory, base + length - 2, &[0x5678, 3]);
            let finished = Session { kind: Kind::Finished, ..ready(length as u64, 1, 41, 1) };
            at_record(world, number).session = down_to(length as u64 - 2, finished);
        };
        t.story("two sessions on one report with units", opened(&units(most_first), 16, 34))
            .goes(Call::Turn { session: 0, k: 65_535 }, 23, |world| run(world, 0, 2, 16))
            .sound(true)
            .refuses(Call::Open { slot: 0, length: 16 }, 15)
            .goes(Call::Close { session: 0 }, 0, |world| close(world, 0))
            .goes(Call::Open { slot: 0, length: 18 }, 0, |world| open(world, 0, 0, 2, 18, 34))
            .goes(Call::Turn { session: 0, k: 23 }, 23, |world| run(world, 0, 2, 18))
            .end();
        // no room for two words: 6+G is 8, SP 9
        let mut world = opened(&units(most_first), 16, 43);
        set_sp(at_record(&mut world, 0), 9);
        let full = Session { kind: Kind::Faulted { number: 4, place: 43 }, ..ready(9, 1, 43, 1) };
        t.story("no room for the unit", world)
            .goes(Call::Turn { session: 0, k: 9 }, 1, |world| at_record(world, 0).session = full)
            .sound(true)
            .end();
    }
}
