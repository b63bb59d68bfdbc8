//! Segments judged and turned; refusals 1 to 10 and their order.

use super::{hand_most_first, hand_segment, routine, set_bytes, set_words, Table};
use crate::generate::SMALL;
use crate::world::{Judged, UNWRITTEN};

pub fn fill(t: &mut Table) {
    numbers(t);
    refusals_1_to_3(t);
    refusals_4_and_5(t);
    the_most_routines(t);
    refusals_6_to_8(t);
    the_order_of_judging(t);
    refusals_9_and_10(t);
    turning(t);
    turning_once(t);
}

/// The hand segment with words changed.
pub fn hand_with(words: &[(usize, u16)]) -> Vec<u8> {
    let mut bytes = hand_segment(0);
    set_words(&mut bytes, words);
    bytes
}

/// The hand segment's numbers.
pub fn hand_numbers() -> Judged {
    Judged {
        words: 64,
        least_first: true,
        dictionary: 11,
        relocation: 0,
        pool: 0,
        real_start: 0,
        real_size: 2,
        routines: vec![routine(16, 2, 34, 34), routine(40, 3, 82, 82), routine(50, 0, 102, 102)],
    }
}

fn small_numbers(words: u32) -> Judged {
    Judged { words, routines: vec![routine(14, 0, 30, 30)], ..hand_numbers() }
}

fn numbers(t: &mut Table) {
    t.says(r#""Entry e is the word number of DATASIZE; EXITIC is word e-1; the first instruction is byte 2(e+1).""#);
    t.judged("the small segment's numbers", &SMALL, small_numbers(16));
    t.judged("the hand segment's numbers", &hand_segment(0), hand_numbers());
    let most_first = Judged { least_first: false, ..hand_numbers() };
    t.judged("the same most byte first", &hand_most_first(), most_first);
    t.says(r#""Real size, name and reserved words are not judged.""#);
    let loose = hand_with(&[(2, 0), (5, 65_535), (8, 65_535), (9, 1), (10, 65_535)]);
    t.judged("other names and reserved words", &loose, Judged { real_size: 65_535, ..hand_numbers() });
}

fn refusals_1_to_3(t: &mut Table) {
    t.says(r#""1 segment length odd, or W outside 16..32,767""#);
    t.refused("no bytes", &[], 1, 0);
    t.refused("31 bytes", &SMALL[..31], 1, 0);
    t.refused("W = 15", &SMALL[..30], 1, 0);
    t.judged("W = 16", &SMALL, small_numbers(16));
    let mut bytes = SMALL.to_vec();
    for (length, good) in [(33, false), (65_534, true), (65_535, false), (65_536, false)] {
        bytes.resize(length, 0);
        match good {
            true => t.judged("W = 32,767", &bytes, small_numbers(32_767)),
            false => t.refused(&format!("{length} bytes"), &bytes, 1, 0),
        }
    }
    t.says(r#""2 sex bytes neither 01 00 nor 00 01""#);
    for flag in [[0, 0], [1, 1], [2, 0], [0, 2], [255, 0]] {
        let mut bytes = SMALL;
        set_bytes(&mut bytes, 12, &flag);
        t.refused(&format!("sex bytes {flag:?}"), &bytes, 2, 0);
    }
    t.says(r#""3 relocation pointer not 0""#);
    t.refused("relocation pointer 1", &hand_with(&[(1, 1)]), 3, 0);
    t.refused("relocation pointer 256", &hand_with(&[(1, 256)]), 3, 0);
}

fn refusals_4_and_5(t: &mut Table) {
    t.says(r#""4 pool pointer neither 0 nor 11..W-1""#);
    for pool in [1, 10, 64, 65_535] {
        t.refused(&format!("pool pointer {pool}"), &hand_segment(pool), 4, 0);
    }
    // the word at 11 is n, 3: the real pool starts at 14
    for (pool, real_start) in [(0, 0), (11, 14), (63, 64)] {
        let judged = Judged { pool: u32::from(pool), real_start, ..hand_numbers() };
        t.judged(&format!("pool pointer {pool}"), &hand_segment(pool), judged);
    }
    t.says(r#""5 D outside 11..W-1, n outside 1..255, or D+n at or above W""#);
    for d in [0, 10, 64, 65_535] {
        t.refused(&format!("D = {d}"), &hand_with(&[(0, d)]), 5, 0);
    }
    // all else is good: n is word 10, the entry word 11
    t.refused("D = 10, n = 1", &hand_with(&[(0, 10), (10, 1), (11, 16)]), 5, 0);
    let lowest = Judged { routines: vec![routine(16, 2, 34, 34)], ..hand_numbers() };
    t.judged("D = 11, n = 1", &hand_with(&[(11, 1)]), lowest);
    t.refused("n = 0", &hand_with(&[(11, 0)]), 5, 0);
    t.refused("n = 256", &hand_with(&[(11, 256)]), 5, 0);
    t.refused("D+n = W", &hand_with(&[(11, 53)]), 5, 0);
    t.refused("D = W-1, n = 1", &hand_with(&[(0, 63), (63, 1)]), 5, 0);
    // D = 62, n = 1: the entry is word 63
    let last = Judged { dictionary: 62, routines: vec![routine(16, 2, 34, 34)], ..hand_numbers() };
    t.judged("D+n = W-1", &hand_with(&[(0, 62), (62, 1), (63, 16)]), last);
    // n = 52 makes D+n = W-1; routine 4's entry is word 15, 34, good; its
    // DATASIZE is word 34, two NOPs, 40,092
    t.refused("n = 52", &hand_with(&[(11, 52)]), 7, 4);
}

/// W = 300, D = 11, n routines with one entry, 290.
pub fn many(n: u16) -> Vec<u8> {
    let mut bytes = vec![0; 600];
    set_words(&mut bytes, &[(0, 11), (6, 1), (11, n), (289, 22), (290, 7)]);
    for number in 1..=usize::from(n.min(256)) {
        set_words(&mut bytes, &[(11 + number, 290)]);
    }
    bytes
}

fn the_most_routines(t: &mut Table) {
    t.says(r#""5 [...] n outside 1..255", where D+n is below W"#);
    let routines = vec![routine(290, 7, 22, 582); 255];
    let judged = Judged { words: 300, real_size: 0, routines, ..hand_numbers() };
    t.judged("n = 255", &many(255), judged);
    t.refused("n = 256", &many(256), 5, 0);
    t.refused("n = 257", &many(257), 5, 0);
    // words 0, 1, 6 to 10, 11 to 266, 289 and 290
    let mut output = many(255);
    for word in [0, 1].into_iter().chain(6..=266).chain([289, 290]) {
        output.swap(2 * word, 2 * word + 1);
    }
    t.turned("n = 255 turned", &many(255), &output, 0);
}

fn refusals_6_to_8(t: &mut Table) {
    t.says(r#""6 an entry outside 12..W-2"; the place is the routine number (for zero see `unlinked`)"#);
    for entry in [1, 11, 63, 64, 65_535] {
        t.refused(&format!("entry of routine 1: {entry}"), &hand_with(&[(12, entry)]), 6, 1);
        t.refused(&format!("entry of routine 3: {entry}"), &hand_with(&[(14, entry)]), 6, 3);
    }
    // 12 is inside: DATASIZE is word 12 (12), EXITIC word 11 (the count, 3)
    t.refused("entry 12", &hand_with(&[(12, 12)]), 8, 1);
    // W-2 is inside: DATASIZE is word 62 (NOPs)
    t.refused("entry W-2", &hand_with(&[(12, 62)]), 7, 1);
    t.says(r#""7 DATASIZE 32,768 or more""#);
    t.refused("DATASIZE of routine 1: 32,768", &hand_with(&[(16, 32_768)]), 7, 1);
    t.refused("DATASIZE of routine 2: 65,535", &hand_with(&[(40, 65_535)]), 7, 2);
    let mut largest = hand_numbers();
    largest.routines[1].data_size = 32_767;
    t.judged("DATASIZE of routine 2: 32,767", &hand_with(&[(40, 32_767)]), largest);
    t.says(r#""8 EXITIC outside 22..2W-1""#);
    for exit_ic in [0, 21, 128, 65_535] {
        t.refused(&format!("EXITIC of routine 1: {exit_ic}"), &hand_with(&[(15, exit_ic)]), 8, 1);
        t.refused(&format!("EXITIC of routine 3: {exit_ic}"), &hand_with(&[(49, exit_ic)]), 8, 3);
    }
    for exit_ic in [22, 127] {
        let mut judged = hand_numbers();
        judged.routines[0].exit_ic = u32::from(exit_ic);
        t.judged(&format!("EXITIC {exit_ic}"), &hand_with(&[(15, exit_ic)]), judged);
    }
}

fn the_order_of_judging(t: &mut Table) {
    t.says(r#""Checks 1 to 5 come first, then 6, 7, 8 for routine 1, then routine 2, and so on.""#);
    let mut odd = hand_with(&[(6, 2)]);
    odd.pop();
    t.refused("odd, and a bad sex", &odd, 1, 0);
    t.refused("sex and relocation", &hand_with(&[(6, 2), (1, 1)]), 2, 0);
    t.refused("relocation and pool", &hand_with(&[(1, 1), (7, 1)]), 3, 0);
    t.refused("pool and D", &hand_with(&[(7, 1), (0, 0)]), 4, 0);
    t.refused("n and an entry", &hand_with(&[(11, 0), (12, 0)]), 5, 0);
    t.refused("entry and DATASIZE", &hand_with(&[(12, 0), (16, 32_768)]), 6, 1);
    t.refused("DATASIZE and EXITIC", &hand_with(&[(16, 32_768), (15, 0)]), 7, 1);
    t.refused("routine 1's 8 and routine 2's 6", &hand_with(&[(15, 0), (13, 11)]), 8, 1);
    t.refused("routine 2's 6 and routine 3's 7", &hand_with(&[(13, 11), (50, 32_768)]), 6, 2);
}

fn refusals_9_and_10(t: &mut Table) {
    t.says(r#""9 turning: pool pointer not 0"; "10 turning: output shorter than the segment"; 9 comes before 10"#);
    t.turned("a pool", &hand_segment(56), &[UNWRITTEN; 128], 9);
    t.turned("a pool and a short output", &hand_segment(56), &[UNWRITTEN; 127], 9);
    t.turned("a short output", &hand_segment(0), &[UNWRITTEN; 127], 10);
    t.turned("no output", &hand_segment(0), &[], 10);
    t.refused("EXITIC and a pool", &hand_with(&[(15, 0), (7, 56), (56, 0)]), 8, 1);
}

fn turning(t: &mut Table) {
    t.says(r#""Turning writes the first 2W output bytes and no others"; "swaps the two bytes at each word position""#);
    t.turned("into 2W bytes", &hand_segment(0), &hand_most_first(), 0);
    let mut longer = hand_most_first();
    longer.extend([UNWRITTEN; 3]);
    t.turned("into more bytes", &hand_segment(0), &longer, 0);
    t.turned("back again", &hand_most_first(), &hand_segment(0), 0);
}

fn turning_once(t: &mut Table) {
    t.says(r#"each word position is swapped "once, even if two rules name it", and every other byte copied"#);
    // n = 4; routine 2's entry is 16, as routine 1's; routine 4's entry is word
    // 15, which is EXITIC of routine 1 (34): DATASIZE is word 34, EXITIC word 33.
    let bytes = hand_with(&[(11, 4), (13, 16), (34, 5), (33, 99)]);
    let mut output = bytes.clone();
    for word in [0, 1, 6, 7, 8, 9, 10, 11, 12, 13, 14, 15, 16, 33, 34, 49, 50] {
        output.swap(2 * word, 2 * word + 1);
    }
    t.turned("positions named twice", &bytes, &output, 0);
    let routines =
        vec![routine(16, 2, 34, 34), routine(16, 2, 34, 34), routine(50, 0, 102, 102), routine(34, 5, 99, 70)];
    t.judged("their routines", &output, Judged { least_first: false, routines, ..hand_numbers() });
}
