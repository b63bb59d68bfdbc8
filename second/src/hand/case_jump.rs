//! XJP, request 2 of 02: which indices jump and where to, the words of the table
//! that may be read, targets at their limits, the order of its checks, and the
//! instruction at the segment's end.

use super::constants::wide;
use super::cut::at_the_end;
use super::marked::{faulted, opened, runs};
use super::{at_record, down_to, ready, set_bytes, set_sp, Rig, Table, RAN_OUT, STEP};

pub fn fill(t: &mut Table) {
    for most_first in [false, true] {
        let mut of = Sexed { t, most_first };
        a_jump_for_each_index(&mut of);
        negative_indices(&mut of);
        one_index(&mut of);
        no_index_at_all(&mut of);
        the_widest_range(&mut of);
        numbers_are_signed(&mut of);
        up_to_w(&mut of);
        up_to_the_real_pool(&mut of);
        no_pool(&mut of);
        targets(&mut of);
        targets_not_judged(&mut of);
        the_order_of_checks(&mut of);
        at_the_segments_end(&mut of);
        a_table_over_other_words(&mut of);
        large_offsets(&mut of);
        the_longest_segment(&mut of);
    }
}

/// The table of cases, for one byte sex.
struct Sexed<'a> {
    t: &'a mut Table,
    most_first: bool,
}

/// A word in a byte sex.
fn pair(value: i16, most_first: bool) -> [u8; 2] {
    if most_first { value.to_be_bytes() } else { value.to_le_bytes() }
}

/// A pool at 56 with its first word and a table from 57 on, in the byte sex.
fn tabled<'a>(mut rig: Rig<'a>, most_first: bool, first: i16, table: &[i16]) -> Rig<'a> {
    for (at, word) in (57..).zip(table) {
        rig = rig.with_segment_bytes(2 * at, &pair(*word, most_first));
    }
    let mut pool = vec![first];
    pool.extend(table);
    let note = format!(", pool {pool:?}");
    rig.with_segment_bytes(112, &pair(first, most_first)).noted(&note).in_sex(most_first)
}

impl Sexed<'_> {
    /// XJP 1 on an index, above a 7; the byte after it is 36.
    fn rig(&mut self, first: i16, table: &[i16], index: i16) -> Rig<'_> {
        tabled(self.t.rig(&[214, 1], &[index as u16, 7]), self.most_first, first, table)
    }

    /// It goes on at each of these bytes, the index popped.
    fn lines(&mut self, table: &[i16], lines: &[(i16, u64)]) {
        for (index, counter) in lines {
            self.rig(0, table, *index).leaves(&[7], *counter);
        }
    }
}

fn a_jump_for_each_index(of: &mut Sexed) {
    of.t.says(r#"000 XJP: W1 "is the minimum index of the table. The next word up, W2, is the maximum index. The case table is the next (W2 - W1) + 1 words. [...] Otherwise, do nothing."; "Jumps count from the byte after the instruction""#);
    let table = [0, 3, 10, 21, 30, -14];
    of.lines(&table, &[(-1, 36), (0, 46), (1, 57), (2, 66), (3, 22), (4, 36), (-32_768, 36), (32_767, 36)]);
    let table = [10, 12, 1, 2, 3];
    of.lines(&table, &[(9, 36), (10, 37), (11, 38), (12, 39), (13, 36), (0, 36), (1, 36), (2, 36)]);
    // B in two bytes: the byte after is 37
    for (index, counter) in [(9, 37), (10, 38), (12, 40), (13, 37)] {
        let rig = of.t.rig(&[214, 0x80, 1], &[index, 7]);
        tabled(rig, of.most_first, 0, &table).leaves(&[7], counter);
    }
    // the index is the only word on the stack
    let most_first = of.most_first;
    tabled(of.t.rig(&[214, 1], &[11]), most_first, 0, &table).leaves(&[], 38);
    tabled(of.t.rig(&[214, 1], &[13]), most_first, 0, &table).leaves(&[], 36);
}

fn negative_indices(of: &mut Sexed) {
    of.t.says(r#"000 XJP: "If TOS, the actual index, is in the range W1 through W2"; open question 2: "signed W1, W2, index""#);
    of.lines(&[-2, 1, 10, 20, 30, 40], &[(-3, 36), (-2, 46), (-1, 56), (0, 66), (1, 76), (2, 36)]);
    of.lines(&[-5, -3, 10, 20, 30], &[(-6, 36), (-5, 46), (-4, 56), (-3, 66), (-2, 36), (0, 36), (5, 36), (3, 36)]);
    of.lines(&[-1, 0, 5, 6], &[(-2, 36), (-1, 41), (0, 42), (1, 36)]);
}

fn one_index(of: &mut Sexed) {
    of.t.says(r#"000 XJP: "The case table is the next (W2 - W1) + 1 words", where W1 = W2"#);
    for only in [5, 0, -1, 32_767, -32_768] {
        of.rig(0, &[only, only, 20], only).leaves(&[7], 56);
        of.rig(0, &[only, only, 20], only.wrapping_add(1)).leaves(&[7], 36);
        of.rig(0, &[only, only, 20], only.wrapping_sub(1)).leaves(&[7], 36);
    }
}

fn no_index_at_all(of: &mut Sexed) {
    of.t.says(r#"000 XJP: "in the range W1 through W2"; open question 2: "W1 > W2 never in range""#);
    for table in [[1, 0, 10, 20], [2, -2, 10, 20], [32_767, -32_768, 10, 20], [0, -1, 10, 20]] {
        let (least, most) = (table[0], table[1]);
        for index in [least, most, 1] {
            of.rig(0, &table, index).leaves(&[7], 36);
        }
    }
}

fn the_widest_range(of: &mut Sexed) {
    of.t.says(r#"000 XJP: "The case table is the next (W2 - W1) + 1 words"; open question 2: "W2-W1 computed without 16-bit wrap"; 02, request 2: fault 6"#);
    let table = [-32_768, 32_767, 10, 11, 12, 13, 14];
    of.lines(&table, &[(-32_768, 46), (-32_767, 47), (-32_764, 50)]);
    // word 64 and far beyond
    for index in [-32_763, -1, 0, 1, 32_767] {
        of.rig(0, &table, index).faults(6);
    }
}

fn numbers_are_signed(of: &mut Sexed) {
    of.t.says(r#"open question 2: "signed W1, W2, index""#);
    // never in range, though 1 to 65,535 would be
    of.lines(&[1, -1, 10, 20], &[(1, 36), (2, 36), (5, 36), (-1, 36), (32_767, 36)]);
    // in range, though 65,535 to 1 would not be
    of.lines(&[-1, 1, 10, 20, 30], &[(0, 56), (1, 66), (-1, 46)]);
    // a backward jump; as an unsigned number it would lead beyond the end
    of.lines(&[0, 0, -2], &[(0, 34)]);
    // bytes that are not alike: 256 is not 1
    of.lines(&[256, 257, 10, 20], &[(1, 36), (256, 46), (257, 56), (2, 36), (258, 36)]);
}

fn up_to_w(of: &mut Sexed) {
    of.t.says(r#"02, request 2: "where a word to be read lies at W or above [...] fault 6""#);
    // W1 at 62, W2 at 63 and W3 beyond: words 57 to 61 are not of this table
    let table = [9, 9, 9, 9, 9, 3, 4];
    for (index, good) in [(2, true), (5, true), (-1, true), (3, false), (4, false)] {
        let rig = tabled(of.t.rig(&[214, 6], &[index as u16, 7]), of.most_first, 0, &table);
        match good {
            true => rig.leaves(&[7], 36),
            false => rig.faults(6),
        }
    }
    // W2 is 64, whether the index would be in range or not; W1 is 64
    for (offset, index) in [(7, 4), (7, 3), (7, 5), (8, 4), (9, 0), (127, 0)] {
        let rig = of.t.rig(&[214, offset], &[index, 7]);
        tabled(rig, of.most_first, 0, &table).faults(6);
    }
    let most_first = of.most_first;
    tabled(of.t.rig(&[214, 0xFF, 0xFF], &[0]), most_first, 0, &table).faults(6);
    // the last word: W3 is 63
    of.lines(&[0, 4, 1, 2, 3, 4, 5], &[(4, 41), (3, 40)]);
    of.rig(0, &[0, 5, 1, 2, 3, 4, 5], 5).faults(6);
    of.rig(0, &[0, 5, 1, 2, 3, 4, 5], 6).leaves(&[7], 36);
    of.rig(0, &[0, 32_767, 1, 2, 3, 4, 5], 32_767).faults(6);
}

fn up_to_the_real_pool(of: &mut Sexed) {
    of.t.says(r#"02, request 2: "where a word to be read lies [...] from the real pool's start on, fault 6""#);
    // the real pool starts at 61: W3 at 60 is the last to be read
    let table = [0, 4, 1, 2, 3, 4, 5];
    for (first, last) in [(5, 1), (4, 0), (7, 3)] {
        for index in [0, last, last + 1, 4] {
            match index <= last {
                true => of.rig(first, &table, index).leaves(&[7], 37 + index as u64),
                false => of.rig(first, &table, index).faults(6),
            }
        }
        of.rig(first, &table, 5).leaves(&[7], 36);
        of.rig(first, &table, -1).leaves(&[7], 36);
    }
    // first word 3: W1 and W2 are read, and no W3; 2: W2 is 58, the real pool
    for index in [0, 4] {
        of.rig(3, &table, index).faults(6);
    }
    for index in [-1, 5] {
        of.rig(3, &table, index).leaves(&[7], 36);
    }
    for index in [-1, 0, 4, 5] {
        of.rig(2, &table, index).faults(6);
        of.rig(1, &table, index).faults(6);
    }
}

fn no_pool(of: &mut Sexed) {
    of.t.says(r#"02, request 2: "With no pool [...] fault 6""#);
    for code in [&[214, 0][..], &[214, 1], &[214, 57], &[214, 11], &[214, 0x80, 57], &[214, 0xFF, 0xFF]] {
        let rig = of.t.rig(code, &[0, 7]).with_segment_word(7, 0).noted(", no pool");
        tabled(rig, of.most_first, 0, &[0, 4, 1, 2, 3, 4, 5]).faults(6);
    }
}

fn targets(of: &mut Sexed) {
    of.t.says(r#"02, request 2: "a case target outside 22..2W-1 gives fault 7"; "Jumps count from the byte after the instruction""#);
    // from 36
    for (by, target) in [(-14, 22), (-13, 23), (-2, 34), (0, 36), (1, 37), (91, 127), (90, 126)] {
        of.rig(0, &[3, 3, by], 3).leaves(&[7], target);
    }
    for by in [-15, -16, -36, -37, -38, 92, 93, 128, 32_767, -32_768, 32_731, 32_732] {
        of.rig(0, &[3, 3, by], 3).faults(7);
    }
    // the real pool is no code, but may be jumped to
    of.rig(7, &[3, 3, 90], 3).leaves(&[7], 126);
}

fn targets_not_judged(of: &mut Sexed) {
    of.t.says(r#""the target of a jump not taken isn't judged""#);
    for index in [2, 5] {
        of.rig(0, &[3, 4, -15, 92], index).leaves(&[7], 36);
        of.rig(0, &[3, 4, 32_767, -32_768], index).leaves(&[7], 36);
    }
    // another index's target is not judged either
    of.rig(0, &[3, 4, -15, 9], 4).leaves(&[7], 45);
    of.rig(0, &[3, 4, 9, 92], 3).leaves(&[7], 45);
}

fn the_order_of_checks(of: &mut Sexed) {
    of.t.says(r#""3 too few words on the stack; [...] 6 bad address; 7 jump target outside 22..2W-1 [...]. This is also the order of checks""#);
    let most_first = of.most_first;
    let good = [0, 4, 1, 2, 3, 4, 5];
    tabled(of.t.rig(&[214, 1], &[]), most_first, 0, &good).faults(3);
    // 3 before 6: no pool, W1 beyond, W2 in the real pool
    let rig = of.t.rig(&[214, 1], &[]).with_segment_word(7, 0).noted(", no pool");
    tabled(rig, most_first, 0, &good).faults(3);
    tabled(of.t.rig(&[214, 8], &[]), most_first, 0, &good).faults(3);
    tabled(of.t.rig(&[214, 0xFF, 0xFF], &[]), most_first, 0, &good).faults(3);
    tabled(of.t.rig(&[214, 1], &[]), most_first, 2, &good).faults(3);
    // 6 before 7: W3 is the real pool's first word, where a bad target is
    of.rig(4, &[0, 1, 5, -15], 1).faults(6);
    of.rig(5, &[0, 1, 5, -15], 1).faults(7);
    of.rig(3, &[0, 1, 92, 5], 0).faults(6);
    of.rig(4, &[0, 1, 92, 5], 0).faults(7);
    // SP at 6+G: the index is word 8, 1008
    for (most, counter) in [(1_007, 36), (1_008, 41)] {
        let rig = tabled(of.t.rig(&[214, 1], &[]).with_sp(8), most_first, 0, &[1_008, most, 5]);
        rig.becomes("SP = 9", ready(9, 20, counter, 1));
    }
}

fn at_the_segments_end(of: &mut Sexed) {
    of.t.says(r#"02, request 8: fault 1 carries "the offset of the first byte it could not fetch"; an instruction whose last byte is the segment's last is whole"#);
    let most_first = of.most_first;
    // nothing on the stack and no pool: 1 comes first
    for code in [&[214][..], &[214, 0x80], &[214, 0xFF]] {
        at_the_end(of.t, code, &[]).with_segment_word(7, 0).in_sex(most_first).runs_out();
    }
    // the byte after is 128
    let table = [1, 3, -94, -2, 0];
    for code in [&[214, 1][..], &[214, 0x80, 1]] {
        tabled(at_the_end(of.t, code, &[1, 7]), most_first, 0, &table).leaves(&[7], 34);
        tabled(at_the_end(of.t, code, &[2, 7]), most_first, 0, &table).leaves(&[7], 126);
        tabled(at_the_end(of.t, code, &[3, 7]), most_first, 0, &table).faults(7);
        tabled(at_the_end(of.t, code, &[]), most_first, 0, &table).faults(3);
        tabled(at_the_end(of.t, code, &[1]), most_first, 1, &table).faults(6);
        tabled(at_the_end(of.t, code, &[4, 7]), most_first, 0, &table)
            .stepped("goes on, then fault 1", ready(39, 20, 128, 1))
            .goes(STEP, 1, |world| at_record(world, 1).session.kind = RAN_OUT)
            .end();
    }
}

fn a_table_over_other_words(of: &mut Sexed) {
    of.t.says(r#""4 pool pointer neither 0 nor 11..W-1": a table may lie over the dictionary, and offset 0 is the pool's first word"#);
    // n = 3 is W1 and makes the real pool start at 14; the entries 16 and 40
    // are W2 and W3
    for (index, after) in [(2, Some(36)), (3, Some(76)), (4, None), (16, None), (17, Some(36))] {
        let most_first = of.most_first;
        let rig = of.t.rig(&[214, 0], &[index, 7]).with_segment_word(7, 11).in_sex(most_first);
        match after {
            Some(counter) => rig.leaves(&[7], counter),
            None => rig.faults(6),
        }
    }
    // the pool at 56: W1 is its first word, 0 or the real pool's offset
    for (first, index, counter) in [(0, 0, 41), (0, 1, 42), (0, 2, 36), (4, 4, 41), (4, 3, 36), (4, 5, 42)] {
        let most = first + 1;
        let rig = of.t.rig(&[214, 0], &[index, 7]);
        tabled(rig, of.most_first, first, &[most, 5, 6]).leaves(&[7], counter);
    }
}

fn large_offsets(of: &mut Sexed) {
    of.t.says(r#"000 XJP: the table is "with word offset B in the constant pool": B of one byte and of two, 127 and 128; a target at 2W-1"#);
    // W1 at 100+B: words 227 on hold 1, 2, 40, 50; 228 on 2, 40, 50, 51, ..
    let mut bytes = wide(of.most_first, 0, &[]);
    let table = [1, 2, 40, 50, 51, 52].into_iter().chain((0..34).map(|_| 765));
    for (at, word) in (227..).zip(table) {
        set_bytes(&mut bytes, 2 * at, &pair(word, of.most_first));
    }
    let lines: [(&[u8], u8, u64); 7] = [
        (&[214, 0x7F], 1, 73), (&[214, 0x7F], 2, 83), (&[214, 0x7F], 3, 33),
        (&[214, 0x80, 0x7F], 2, 84), (&[214, 0x80, 0x80], 2, 84), (&[214, 0x80, 0x80], 4, 86),
        (&[214, 0x80, 0x80], 31, 799), // from 34 by 765
    ];
    for (code, index, counter) in lines {
        let mut bytes = bytes.clone();
        set_bytes(&mut bytes, 30, &[index]); // SLDC
        set_bytes(&mut bytes, 31, code);
        let story = of.t.story(&format!("SLDC {index}, XJP {code:?}, W = 400"), opened(&bytes, 20, 30));
        let after = down_to(19, ready(20, 1, counter, 1));
        runs(story, 2, 2, after, &[(19, &[u16::from(index)])]).end();
    }
    // 299: W1 is W-1, W2 is W
    for code in [&[5, 214, 0x81, 0x2B][..], &[5, 214, 0x81, 0x2C], &[5, 214, 0xFF, 0xFF]] {
        set_bytes(&mut bytes, 30, code);
        let story = of.t.story(&format!("{code:?}, W = 400"), opened(&bytes, 20, 30));
        runs(story, 2, 2, faulted(ready(19, 1, 31, 1), 6), &[(19, &[5])]).end();
    }
}

/// W = 32,767: one routine, its code from byte 30 on, a pool at 20 with a table
/// at offset 1 and nothing else.
fn longest(most_first: bool, table: &[(usize, i16)]) -> Vec<u8> {
    let mut bytes = vec![0; 65_534];
    let words = [(0, 11), (6, 1), (7, 20), (11, 1), (12, 14), (13, 30)];
    for (at, word) in words.into_iter().chain(table.iter().copied()) {
        set_bytes(&mut bytes, 2 * at, &pair(word, most_first));
    }
    bytes
}

fn the_longest_segment(of: &mut Sexed) {
    of.t.says(r#""jump target outside 22..2W-1", W = 32,767: the sum does not wrap at 16 bits; 000 XJP: "The case table is the next (W2 - W1) + 1 words""#);
    // W1 and W2 are 21 and 22, W3 is 23
    let one = |by: i16| vec![(21, 5), (22, 5), (23, by)];
    // XJP 1 at a byte, W3, and the target or none
    let lines: [(u64, i16, Option<u64>); 8] = [
        (200, 32_767, Some(32_969)), (200, -32_768, None), (200, -180, Some(22)), (200, -181, None),
        (65_532, -32_768, Some(32_766)), (65_532, 32_767, None), (65_532, 0, None), (65_530, 1, Some(65_533)),
    ];
    for (at, by, target) in lines {
        let mut bytes = longest(of.most_first, &one(by));
        set_bytes(&mut bytes, at as usize, &[214, 1]);
        let mut world = opened(&bytes, 16, at);
        set_sp(at_record(&mut world, 0), 15);
        world.memory[2 + 15] = 5;
        let story = of.t.story(&format!("W = 32,767, XJP 1 at {at}, by {by}"), world);
        match target {
            Some(target) => runs(story, 1, 1, ready(16, 1, target, 1), &[]).end(),
            None => runs(story, 1, 1, faulted(ready(15, 1, at, 1), 7), &[]).end(),
        }
    }
    // the table's words are 23 to 32,766: 32,744 of them
    for (least, index, target) in [(-16_000, 16_000, Some(32_023)), (-16_000, 16_743, Some(32_766)), (-16_000, 16_744, None), (-32_768, 0, None)] {
        let mut bytes = longest(of.most_first, &[(21, least), (22, 32_767)]);
        if let Some(at) = target {
            set_bytes(&mut bytes, 2 * at, &pair(7, of.most_first));
        }
        set_bytes(&mut bytes, 200, &[214, 1]);
        let mut world = opened(&bytes, 16, 200);
        set_sp(at_record(&mut world, 0), 15);
        world.memory[2 + 15] = index as u16;
        let story = of.t.story(&format!("W = 32,767, W1 {least}, index {index}"), world);
        match target {
            Some(_) => runs(story, 1, 1, ready(16, 1, 209, 1), &[]).end(),
            None => runs(story, 1, 1, faulted(ready(15, 1, 200, 1), 6), &[]).end(),
        }
    }
}
