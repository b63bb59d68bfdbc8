//! LDC, request 2 of 02: the words pushed in either byte sex and mode, the words
//! that may be read, the room they need, and the instruction at the segment's
//! end.  `pool` has the pool itself, `case_jump` the other instruction.

use super::cut::at_the_end;
use super::marked::{faulted, opened, runs};
use super::{at_record, ready, set_bytes, Rig, Table, RAN_OUT, STEP};

pub fn fill(t: &mut Table) {
    for most_first in [false, true] {
        let mut of = Sexed { t, most_first };
        the_words_pushed(&mut of);
        modes(&mut of);
        the_first_word_itself(&mut of);
        up_to_w(&mut of);
        up_to_the_real_pool(&mut of);
        no_words(&mut of);
        no_pool(&mut of);
        a_pool_over_other_words(&mut of);
        room(&mut of);
        six_before_4(&mut of);
        at_the_segments_end(&mut of);
        large_offsets(&mut of);
        many_words(&mut of);
        one_after_another(&mut of);
        lco_stays_as_it_was(&mut of);
    }
}

/// The table, for cases of one byte sex.
struct Sexed<'a> {
    t: &'a mut Table,
    most_first: bool,
}

/// Words 57 to 63 of the rig's pool, as their bytes lie.
const BLOCK: [u8; 14] =
    [0x12, 0x34, 0x56, 0x78, 0x9A, 0xBC, 0xDE, 0xF0, 0x11, 0x22, 0x33, 0x44, 0x55, 0x66];
/// The same words read least byte first, and most byte first.
const LEAST: [u16; 7] = [0x3412, 0x7856, 0xBC9A, 0xF0DE, 0x2211, 0x4433, 0x6655];
const MOST: [u16; 7] = [0x1234, 0x5678, 0x9ABC, 0xDEF0, 0x1122, 0x3344, 0x5566];

impl Sexed<'_> {
    /// The rig, its pool at 56 with a first word and `BLOCK`.
    fn rig(&mut self, first: u16, code: &[u8], stack_top_first: &[u16]) -> Rig<'_> {
        let rig = self.t.rig(code, stack_top_first);
        pooled(rig, self.most_first, first)
    }

    /// The words 57 on as LDC pushes them in a mode.
    fn words(&self, mode: u8) -> [u16; 7] {
        if self.most_first && mode == 2 { MOST } else { LEAST }
    }
}

fn pooled(rig: Rig, most_first: bool, first: u16) -> Rig {
    let pair = if most_first { first.to_be_bytes() } else { first.to_le_bytes() };
    let rig = rig.with_segment_bytes(112, &pair).with_segment_bytes(114, &BLOCK);
    let rig = if first == 0 { rig } else { rig.noted(&format!(", first word {first}")) };
    rig.in_sex(most_first)
}

/// The first so many, the last one on top.
fn top_first(words: &[u16], count: usize) -> Vec<u16> {
    words.iter().take(count).rev().copied().collect()
}

fn the_words_pushed(of: &mut Sexed) {
    of.t.says(r#"000 LDC: "Push the UB_2 words starting at that offset onto the evaluation stack [...] swap the bytes of each word as it is pushed.": one by one, so that the last one is the top"#);
    for count in 1..=7u8 {
        let stack = top_first(&of.words(2), usize::from(count));
        of.rig(0, &[131, 2, 1, count], &[]).leaves(&stack, 38);
        let words = of.words(0);
        let mut stack = top_first(&words[1..], usize::from(count) - 1);
        stack.extend([7, 8]);
        // words above stay, and an offset further on
        of.rig(0, &[131, 0, 2, count - 1], &[7, 8]).leaves(&stack, 38);
    }
    // B in two bytes
    let two = top_first(&of.words(2)[3..], 2);
    of.rig(0, &[131, 2, 0x80, 4, 2], &[]).leaves(&two, 39);
}

fn modes(of: &mut Sexed) {
    of.t.says(r#"000 LDC: "If UB_1, the mode, is 2, and the current segment is of opposite byte sex from the host, swap"; 02, request 2: "our own sex is least-first""#);
    for mode in [0, 1, 2, 3, 4, 128, 130, 255] {
        let words = of.words(mode);
        of.rig(0, &[131, mode, 1, 3], &[]).leaves(&top_first(&words, 3), 38);
        of.rig(5, &[131, mode, 3, 2], &[9]).leaves(&[words[3], words[2], 9], 38);
    }
}

fn the_first_word_itself(of: &mut Sexed) {
    of.t.says(r#"000 LDC: "B is a word offset into the constant pool": offset 0 is the pool's first word"#);
    of.rig(0, &[131, 2, 0, 1], &[]).leaves(&[0], 38);
    of.rig(5, &[131, 2, 0, 1], &[]).leaves(&[5], 38);
    let exchanged = if of.most_first { 0x0500 } else { 5 };
    of.rig(5, &[131, 0, 0, 1], &[]).leaves(&[exchanged], 38);
    let second = of.words(2)[0];
    of.rig(5, &[131, 2, 0, 2], &[]).leaves(&[second, 5], 38);
    of.rig(5, &[131, 2, 0x80, 0, 2], &[]).leaves(&[second, 5], 39);
}

fn up_to_w(of: &mut Sexed) {
    of.t.says(r#"02, request 2: "where a word to be read lies at W or above [...] fault 6""#);
    // the pool has words 56 to 63, W is 64
    let all = top_first(&of.words(2), 7);
    let mut with_first = all.clone();
    with_first.push(0);
    of.rig(0, &[131, 2, 7, 1], &[]).leaves(&all[..1], 38);
    of.rig(0, &[131, 2, 6, 2], &[]).leaves(&all[..2], 38);
    of.rig(0, &[131, 2, 1, 7], &[]).leaves(&all, 38);
    of.rig(0, &[131, 2, 0, 8], &[]).leaves(&with_first, 38);
    for (offset, count) in [(8, 1), (7, 2), (6, 3), (2, 7), (1, 8), (0, 9), (9, 1), (127, 1), (0, 255), (7, 255)] {
        of.rig(0, &[131, 2, offset, count], &[]).faults(6);
    }
    of.rig(0, &[131, 0, 0xFF, 0xFF, 1], &[]).faults(6);
    of.rig(0, &[131, 0, 0xFF, 0xFF, 255], &[]).faults(6);
    // 32,760 words on is 56 + 32,760 - 32,768, if it went round
    of.rig(0, &[131, 2, 0xFF, 0xF8, 1], &[]).faults(6);
    // a pool of one word, at W-1
    for (offset, count, good) in [(0, 1, true), (0, 2, false), (1, 1, false), (1, 0, true)] {
        let most_first = of.most_first;
        let rig = of.t.rig(&[131, 2, offset, count], &[]);
        let rig = rig.with_segment_word(7, 63).with_segment_word(63, 0).in_sex(most_first);
        match good {
            true => rig.leaves(&vec![0; usize::from(count)], 38),
            false => rig.faults(6),
        }
    }
}

fn up_to_the_real_pool(of: &mut Sexed) {
    of.t.says(r#"02, request 2: "where a word to be read lies [...] from the real pool's start on, fault 6""#);
    // first word, and the words behind it that may be read
    for (first, readable) in [(1u16, 0usize), (2, 1), (5, 4), (7, 6)] {
        let words = of.words(2);
        for offset in [1, 4, 5, 6, 7] {
            let code = [131, 2, offset as u8, 1];
            match offset <= readable {
                true => of.rig(first, &code, &[]).leaves(&[words[offset - 1]], 38),
                false => of.rig(first, &code, &[]).faults(6),
            }
        }
        let mut all = top_first(&words, readable);
        all.push(first);
        of.rig(first, &[131, 2, 0, first as u8], &[]).leaves(&all, 38);
        of.rig(first, &[131, 2, 0, first as u8 + 1], &[]).faults(6);
        of.rig(first, &[131, 2, 0, 255], &[]).faults(6);
        of.rig(first, &[131, 2, 8, 1], &[]).faults(6); // at W
        // the last word is judged, not only the first
        of.rig(first, &[131, 0, first as u8 - 1, 2], &[]).faults(6);
    }
}

fn no_words(of: &mut Sexed) {
    of.t.says(r#"02, request 2: "where a word to be read lies ...": with UB_2 = 0 none is; open question 4: "no address fault except 'no pool'""#);
    for first in [0, 5] {
        for code in [&[131, 2, 0, 0][..], &[131, 0, 7, 0], &[131, 2, 8, 0], &[131, 2, 9, 0], &[131, 255, 127, 0]] {
            of.rig(first, code, &[7]).leaves(&[7], 38);
        }
        of.rig(first, &[131, 2, 0xFF, 0xFF, 0], &[]).leaves(&[], 39);
        of.rig(first, &[131, 2, 0x80, 8, 0], &[]).with_sp(8).becomes("goes on", ready(8, 20, 39, 1));
    }
}

fn no_pool(of: &mut Sexed) {
    of.t.says(r#"02, request 2: "With no pool [...] fault 6", also for no words (open question 4)"#);
    let codes: [&[u8]; 8] = [
        &[131, 0, 0, 0], &[131, 2, 0, 1], &[131, 2, 57, 1], &[131, 0, 57, 3], &[131, 2, 57, 0],
        &[131, 2, 127, 1], &[131, 2, 0xFF, 0xFF, 0], &[131, 255, 11, 255],
    ];
    for code in codes {
        of.rig(0, code, &[7]).with_segment_word(7, 0).noted(", no pool").faults(6);
        of.rig(0, code, &[]).with_segment_word(7, 0).with_sp(8).noted(", no pool").faults(6); // before 4
    }
}

fn a_pool_over_other_words(of: &mut Sexed) {
    of.t.says(r#""4 pool pointer neither 0 nor 11..W-1": a pool may lie over the dictionary, a routine's words or code"#);
    let most_first = of.most_first;
    // at 11 is n = 3, so that the real pool starts at 14, and entries 16 and
    // 40; at 16 DATASIZE of routine 1, 2: the real pool starts at 18
    let lines: [(u16, [u8; 4], &[u16]); 6] = [
        (11, [131, 2, 0, 3], &[40, 16, 3]), (11, [131, 2, 2, 1], &[40]), (11, [131, 2, 3, 1], &[]),
        (11, [131, 2, 0, 4], &[]), (16, [131, 2, 0, 1], &[2]), (16, [131, 2, 2, 1], &[]),
    ];
    for (pool, code, stack) in lines {
        let rig = of.t.rig(&code, &[]).with_segment_word(7, pool).in_sex(most_first);
        let rig = rig.noted(&format!(", pool at {pool}"));
        match stack {
            [] => rig.faults(6),
            _ => rig.leaves(stack, 38),
        }
    }
    // the code itself: the pool at 20, and LDC at byte 42 with its operands is
    // words 21 and 22
    let (low, high) = if most_first { (0x8302, 0x0102) } else { (0x0283, 0x0201) };
    for (mode, stack) in [(2, [high, low]), (0, [0x0201, 0x0083])] {
        let rig = of.t.rig_at(42, &[131, mode, 1, 2], &[]);
        let rig = rig.with_segment_word(7, 20).with_segment_word(20, 0).in_sex(most_first);
        rig.leaves(&stack, 46);
    }
}

fn room(of: &mut Sexed) {
    of.t.says(r#""4 SP after the step would lie below 6+G"; "Only the session's kind changes.": 6+G is 8"#);
    let one = of.words(2)[0];
    let rig = of.rig(0, &[131, 2, 1, 1], &[]).with_sp(9).writes(8, &[one]);
    rig.becomes("just room", ready(8, 20, 38, 1));
    of.rig(0, &[131, 2, 1, 1], &[]).with_sp(8).faults(4);
    for count in [2u8, 3, 7] {
        let code = [131, 2, 1, count];
        let stack = top_first(&of.words(2), usize::from(count));
        let just = 8 + u64::from(count);
        let rig = of.rig(0, &code, &[]).with_sp(just).writes(8, &stack);
        rig.becomes("just room", ready(8, 20, 38, 1));
        for sp in [8, just - 1] {
            of.rig(0, &code, &[]).with_sp(sp).faults(4);
        }
    }
}

fn six_before_4(of: &mut Sexed) {
    of.t.says(r#""6 bad address; [...] 4 SP after the step would lie below 6+G. This is also the order of checks""#);
    for (first, offset, count) in [(0, 8, 1), (0, 1, 8), (0, 7, 2), (5, 5, 1), (5, 1, 5), (0, 1, 255)] {
        let code = [131, 2, offset, count];
        of.rig(first, &code, &[]).with_sp(8).faults(6);
    }
}

fn at_the_segments_end(of: &mut Sexed) {
    of.t.says(r#"02, request 8: fault 1 carries "the offset of the first byte it could not fetch"; an instruction whose last byte is the segment's last is whole"#);
    let most_first = of.most_first;
    // no pool, no room, nothing on the stack: 1 comes first
    for code in [&[131][..], &[131, 0], &[131, 2], &[131, 2, 1], &[131, 2, 0x80], &[131, 2, 0x80, 1], &[131, 255, 0xFF]] {
        let rig = at_the_end(of.t, code, &[]).with_segment_word(7, 0).with_sp(8);
        rig.in_sex(most_first).runs_out();
    }
    // over words 61 to 63 of the pool, whose words 57 and 58 it pushes
    let stack = top_first(&of.words(2), 2);
    for code in [&[131, 2, 1, 2][..], &[131, 2, 0x80, 1, 2]] {
        let rig = at_the_end(of.t, code, &[]).with_segment_bytes(114, &BLOCK[..4]);
        rig.in_sex(most_first)
            .writes(38, &stack)
            .stepped("two words, then fault 1", ready(38, 20, 128, 1))
            .goes(STEP, 1, |world| at_record(world, 1).session.kind = RAN_OUT)
            .end();
    }
    for (code, sp, number) in [(&[131, 2, 8, 1][..], 40, 6), (&[131, 2, 0x80, 1, 2], 9, 4), (&[131, 2, 1, 1], 8, 4)] {
        at_the_end(of.t, code, &[]).with_sp(sp).in_sex(most_first).faults(number);
    }
}

/// W = 400, least or most byte first: one routine, G = 0, its code from byte 30
/// on; the pool at 100, where word i holds 2000+i from 101 on.
pub fn wide(most_first: bool, first: u16, code: &[u8]) -> Vec<u8> {
    let mut bytes = vec![0; 800];
    let words = [(0, 11), (6, 1), (7, 100), (11, 1), (12, 14), (13, 30), (14, 0), (100, first)];
    for (at, value) in words.into_iter().chain((101..400).map(|at| (at, 2_000 + at as u16))) {
        let pair = if most_first { value.to_be_bytes() } else { value.to_le_bytes() };
        set_bytes(&mut bytes, 2 * at, &pair);
    }
    set_bytes(&mut bytes, 30, code);
    bytes
}

/// The words from one on, as many, the last one on top.
fn from(first: u16, count: u16) -> Vec<u16> {
    (first..first + count).rev().collect()
}

fn large_offsets(of: &mut Sexed) {
    of.t.says(r#"000 LDC: "B is a word offset into the constant pool": B of one byte and of two, 127 and 128"#);
    let lines: [(&[u8], Option<u16>); 9] = [
        (&[131, 2, 0x7F, 1], Some(2_227)),
        (&[131, 2, 0x80, 0x7F, 1], Some(2_227)),
        (&[131, 2, 0x80, 0x80, 1], Some(2_228)),
        (&[131, 2, 0x80, 0xFF, 1], Some(2_355)),
        (&[131, 2, 0x81, 0x00, 1], Some(2_356)),
        (&[131, 2, 0x81, 0x2B, 1], Some(2_399)), // 299: word W-1
        (&[131, 2, 0x81, 0x2C, 1], None), // 300: W
        (&[131, 2, 0xFF, 0xFF, 1], None), // 32,767
        (&[131, 2, 0xFF, 0x9C, 1], None), // 32,668: 100 and that is 32,768
    ];
    for (code, word) in lines {
        let bytes = wide(of.most_first, 0, code);
        let story = of.t.story(&format!("LDC {code:?}, W = 400"), opened(&bytes, 20, 30));
        let after = ready(19, 1, 30 + code.len() as u64, 1);
        match word {
            Some(word) => runs(story, 1, 1, after, &[(19, &[word])]).end(),
            None => runs(story, 1, 1, faulted(ready(20, 1, 30, 1), 6), &[]).end(),
        }
    }
}

fn many_words(of: &mut Sexed) {
    of.t.says(r#"02, request 2: "Show once, over the count of words, what the stack then holds."; the words above and below stay"#);
    // 6+G is 6: L = 261 has just room for 255 words
    for (count, length) in [(255u8, 300u64), (255, 261), (255, 262), (254, 261), (128, 200), (127, 133)] {
        let bytes = wide(of.most_first, 0, &[131, 2, 1, count]);
        let sp = length - u64::from(count);
        let mut start = opened(&bytes, length, 30);
        start.memory[2..2 + length as usize].fill(77);
        let story = of.t.story(&format!("{count} words, L = {length}"), start);
        let words = from(2_101, u16::from(count));
        runs(story, 1, 1, ready(sp, 1, 34, 1), &[(sp as usize, &words)]).end();
    }
    for (count, length) in [(255u8, 260u64), (255, 16), (254, 259), (127, 132)] {
        let bytes = wide(of.most_first, 0, &[131, 2, 1, count]);
        let story = of.t.story(&format!("{count} words, L = {length}"), opened(&bytes, length, 30));
        runs(story, 1, 1, faulted(ready(length, 1, 30, 1), 4), &[]).end();
    }
    // the real pool at 100+255: the last word is 354, and one more is in it
    for (count, offset, good) in [(254u8, 1u8, true), (255, 0, true), (255, 1, false), (1, 127, true)] {
        let bytes = wide(of.most_first, 255, &[131, 2, offset, count]);
        let story = of.t.story(&format!("{count} words from {offset}, real pool at 355"), opened(&bytes, 300, 30));
        let sp = 300 - u64::from(count);
        let mut words = from(2_100 + u16::from(offset), u16::from(count));
        if offset == 0 {
            words[254] = 255; // the first word itself
        }
        match good {
            true => runs(story, 1, 1, ready(sp, 1, 34, 1), &[(sp as usize, &words)]).end(),
            false => runs(story, 1, 1, faulted(ready(300, 1, 30, 1), 6), &[]).end(),
        }
    }
}

fn one_after_another(of: &mut Sexed) {
    of.t.says(r#"000 LDC: "Push the UB_2 words": those pushed before stay beneath"#);
    // SLDC 5; LDC of 101 to 103; LDC of none; LDC of 110 and 111; ADI of the top two
    let code = [5, 131, 2, 1, 3, 131, 2, 9, 0, 131, 2, 10, 2, 162];
    let bytes = wide(of.most_first, 0, &code);
    let story = of.t.story("three LDC and an ADI", opened(&bytes, 40, 30));
    let story = runs(story, 2, 2, ready(36, 1, 35, 1), &[(36, &[2_103, 2_102, 2_101, 5])]);
    let story = runs(story, 1, 1, ready(36, 1, 39, 1), &[]);
    let story = runs(story, 1, 1, ready(34, 1, 43, 1), &[(34, &[2_111, 2_110])]);
    runs(story, 1, 1, ready(35, 1, 44, 1), &[(35, &[4_221])]).end();
    // the pool over the routine's own code, at word 20, byte 40
    let mut bytes = wide(of.most_first, 0, &[131, 0, 1, 2]);
    let pair = if of.most_first { [0, 20] } else { [20, 0] };
    set_bytes(&mut bytes, 14, &pair);
    set_bytes(&mut bytes, 40, &[0, 0, 1, 2, 3, 4]);
    let story = of.t.story("bytes as they lie", opened(&bytes, 20, 30));
    runs(story, 1, 1, ready(18, 1, 34, 1), &[(18, &[0x0403, 0x0201])]).end();
}

fn lco_stays_as_it_was(of: &mut Sexed) {
    of.t.says(r#""LCO [...] faults with 6 with no pool or at W or above."; open question 5: "LCO unchanged", for it reads no word"#);
    for first in [1, 5, 7] {
        for offset in [0u8, 1, 5, 7] {
            of.rig(first, &[130, offset], &[]).leaves(&[56 + u16::from(offset)], 36);
        }
        of.rig(first, &[130, 8], &[]).faults(6);
    }
}
