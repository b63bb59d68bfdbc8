//! Where the bytes ran out, request 8 of 02: every instruction cut by the
//! segment's end after each of its bytes, the same ones whole, faults that keep
//! their place, runs up to a cut instruction, and records of the time before.

use super::benches::{close, open, rigged};
use super::instructions::calls;
use super::marked::{faulted, opened, ran_out, runs, small_with};
use super::{at_record, ready, set_bytes, Rig, Table, RAN_OUT, STEP};
use crate::generate::SMALL;
use crate::machine::{Kind, Session};
use crate::world::{Call, World};

pub fn fill(t: &mut Table) {
    for most_first in [false, true] {
        let mut of = Sexed { t, most_first };
        every_instruction_cut(&mut of);
        a_cut_comes_before_a_db(&mut of);
        no_operands_at_the_end(&mut of);
        operands_at_the_end(&mut of);
        jumps_calls_and_returns_at_the_end(&mut of);
        other_faults_keep_their_place(&mut of);
        not_carried_at_the_end(&mut of);
        the_first_byte_out_of_range(&mut of);
        runs_into_a_cut(&mut of);
    }
    bytes_before_the_cut(t);
    a_cut_comes_before_all_else(t);
    other_short_forms_at_the_end(t);
    back_to_the_end(t);
    in_turns(t);
    the_longest_segment(t);
    a_bench_runs_into_a_cut(t);
    records_of_before(t);
    places_of_any_fault(t);
}

/// The table, for cases of one byte sex.
struct Sexed<'a> {
    t: &'a mut Table,
    most_first: bool,
}

impl Sexed<'_> {
    /// Code whose last byte is the rig's last, 127.
    fn at_the_end(&mut self, code: &[u8], stack_top_first: &[u16]) -> Rig<'_> {
        at_the_end(self.t, code, stack_top_first).in_sex(self.most_first)
    }

    /// Code that ends with a B of one byte, and the same with two: from 80.
    fn with_either_b(&mut self, code: &[u8], stack_top_first: &[u16], ends: impl Fn(Rig)) {
        let mut longer = code.to_vec();
        longer.insert(code.len() - 1, 0x80);
        ends(self.at_the_end(code, stack_top_first));
        ends(self.at_the_end(&longer, stack_top_first));
    }
}

/// The first bytes with operands and the longest operands of their form: UB,
/// SB, W, B, DB and B, DB and UB, UB and B and UB.
const OPERANDS: [(&[u8], &[u8]); 7] = [
    (&[128, 144, 145, 239, 240], &[2]), // LDCB CPL CPG SCPI1 SCPI2
    (&[138, 212, 241], &[0]), // UJP FJP TJP
    (&[129, 139, 213], &[0, 0]), // LDCI JPL FJPL
    // LCO LLA LDO LAO LDL RPU STL SRO SLOD1 SLOD2 XJP IND
    (&[130, 132, 133, 134, 135, 150, 164, 165, 173, 174, 214, 230], &[0x80, 1]),
    (&[136, 137, 166], &[1, 0x80, 1]), // LDA LOD STR
    (&[146], &[1, 3]), // CPI
    (&[131], &[2, 0x80, 1, 1]), // LDC
];

/// Code whose last byte is the rig's last, 127.
pub fn at_the_end<'a>(t: &'a mut Table, code: &[u8], stack_top_first: &[u16]) -> Rig<'a> {
    t.rig_at(128 - code.len(), code, stack_top_first)
}

fn every_instruction_cut(of: &mut Sexed) {
    of.t.says(r#"02, request 8: "The operand reader shall report the offset of the first byte it could not fetch, and fault 1 carries that as its place."; "Only the session's kind changes.""#);
    for (firsts, operands) in OPERANDS {
        for first in firsts {
            let mut code = vec![*first];
            code.extend(operands);
            code.pop();
            while !code.is_empty() {
                of.at_the_end(&code, &[1, 1]).runs_out();
                code.pop();
            }
        }
    }
}

fn bytes_before_the_cut(t: &mut Table) {
    t.says(r#"02, request 8: "the offset of the first byte it could not fetch", whatever the bytes fetched are; "All operands are fetched before a DB is judged.""#);
    let lines: [&[u8]; 11] = [
        &[129, 0xFF], &[139, 0x80], &[213, 0x7F], // W
        &[135, 0xFF], &[130, 0x81], &[150, 0xFF], // B
        &[136, 0], &[137, 127], &[166, 0, 0xFF], &[137, 127, 0x80], // DB and B
        &[146, 127], // DB and UB
    ];
    for code in lines {
        at_the_end(t, code, &[1]).runs_out();
    }
    // a B from 7F is whole, its word beyond L; from 80 it is cut
    at_the_end(t, &[135, 0x7F], &[1]).faults(6);
    at_the_end(t, &[135, 0x80], &[1]).runs_out();
}

fn a_cut_comes_before_a_db(of: &mut Sexed) {
    of.t.says(r#""All operands are fetched before a DB is judged."; "a DB byte above 127 faults with 2"; 02, request 8: "All other faults keep theirs.""#);
    let dbs: &[u8] = if of.most_first { &[200] } else { &[128, 200, 255] };
    for &db in dbs {
        for first in [136, 137, 166] {
            of.at_the_end(&[first, db], &[1]).runs_out();
            of.at_the_end(&[first, db, 0x80], &[1]).runs_out();
            // whole
            of.at_the_end(&[first, db, 1], &[1]).faults(2);
            of.at_the_end(&[first, db, 0x80, 1], &[1]).faults(2);
        }
        of.at_the_end(&[146, db], &[1]).runs_out();
        of.at_the_end(&[146, db, 2], &[1]).faults(2);
    }
}

fn a_cut_comes_before_all_else(t: &mut Table) {
    t.says(r#""1 an instruction byte outside 22..2W-1; [...] This is also the order of checks"; 02, request 8: "fault 1 carries that as its place""#);
    // the return that finishes fetches its B too
    for code in [&[150][..], &[150, 0x80], &[150, 0xFF]] {
        at_the_end(t, code, &[]).with_m(1).runs_out();
        at_the_end(t, code, &[1, 1]).with_m(1).runs_out();
        // before 9: a mark of zeroes
        at_the_end(t, code, &[]).with_mark(20, [0; 5]).runs_out();
    }
    // before 3
    for code in [&[164][..], &[165, 0x80], &[166, 1], &[230], &[212], &[241], &[213, 0]] {
        at_the_end(t, code, &[]).runs_out();
    }
    // before 9, a link of 0
    for code in [&[173][..], &[174, 0x80], &[137, 1], &[136, 1, 0x80], &[166, 1], &[146, 1], &[239], &[240]] {
        at_the_end(t, code, &[1]).with_word(20, 0).runs_out();
    }
    // before 6: no pool
    at_the_end(t, &[130], &[]).with_segment_word(7, 0).runs_out();
    at_the_end(t, &[130, 0xFF], &[]).with_segment_word(7, 0).runs_out();
    // before 4: SP = 6+G
    for code in [&[128][..], &[129, 1], &[133], &[134, 0x80], &[144], &[145], &[146, 0]] {
        at_the_end(t, code, &[]).with_sp(8).runs_out();
    }
}

/// The step leaves the stack so and the counter on 2W; the next one finds no
/// first byte there.
fn goes_on(rig: Rig, stack_top_first: &[u16]) {
    let sp = 40 - stack_top_first.len();
    rig.writes(sp, stack_top_first)
        .stepped(&format!("leaves {stack_top_first:?}, then fault 1"), ready(sp as u64, 20, 128, 1))
        .goes(STEP, 1, |world| at_record(world, 1).session.kind = RAN_OUT)
        .end();
}

fn no_operands_at_the_end(of: &mut Sexed) {
    of.t.says(r#"02, request 8: what has no operands is not cut by the segment's end; after it, "A first byte out of range gives the same place as before.""#);
    let lines: [(u8, &[u16], &[u16]); 35] = [
        (0, &[], &[0]), (31, &[9], &[31, 9]), // SLDC
        (32, &[], &[1_025]), (46, &[], &[1_039]), // SLDL
        (48, &[], &[1_006]), (63, &[], &[1_021]), // SLDO
        (96, &[], &[25]), (103, &[], &[32]), // SLLA
        (120, &[5], &[1_005]), (127, &[5], &[30]), // SIND
        (140, &[3, 2], &[6]), (141, &[2, 7], &[3]), (143, &[2, 7], &[1]), // MPI DVI MODI
        (152, &[], &[0]), (156, &[], &[]), (156, &[9], &[9]), // LDCN NOP
        (160, &[5, 3], &[7]), (161, &[5, 3], &[1]), // LOR LAND
        (162, &[5, 3], &[8]), (162, &[5, 3, 9], &[8, 9]), (163, &[5, 3], &[65_534]), // ADI SBI
        (176, &[5, 3], &[0]), (177, &[5, 3], &[1]), // EQUI NEQI
        (178, &[5, 3], &[1]), (179, &[5, 3], &[0]), // LEQI GEQI
        (180, &[5, 3], &[1]), (181, &[5, 3], &[0]), // LEUSW GEUSW
        (189, &[7, 8], &[8, 7]), (203, &[9, 1, 5], &[5]), // SWAP CHK
        (224, &[65_529], &[7]), (225, &[7], &[65_529]), // ABI NGI
        (226, &[7], &[7, 7]), (229, &[1], &[65_534]), // DUP1 LNOT
        (237, &[7], &[8]), (238, &[7], &[6]), // INCI DECI
    ];
    for (first, before, after) in lines {
        goes_on(of.at_the_end(&[first], before), after);
    }
    goes_on(of.at_the_end(&[104], &[7]).writes(25, &[7]), &[]); // SSTL
    goes_on(of.at_the_end(&[111], &[7]).writes(32, &[7]), &[]);
    goes_on(of.at_the_end(&[196], &[7, 10]).writes(10, &[7]), &[]); // STO
}

fn other_short_forms_at_the_end(t: &mut Table) {
    t.says(r#"02, request 8: what has no operands is not cut by the segment's end, for every x of SLDCx, SLDLx, SLDOx, SLLAx, SSTLx and SINDx"#);
    for x in 1..=30 {
        goes_on(at_the_end(t, &[x], &[]), &[u16::from(x)]);
    }
    for x in 2..=14 {
        goes_on(at_the_end(t, &[31 + x], &[]), &[1_024 + u16::from(x)]); // local x is word 24+x
    }
    at_the_end(t, &[47], &[]).faults(6); // local 16 is word 40
    for x in 2..=15 {
        goes_on(at_the_end(t, &[47 + x], &[]), &[match x {
            7 => 30, // word 12
            15 => 12, // word 20
            _ => 1_005 + u16::from(x), // global x is word 5+x
        }]);
    }
    for x in 2..=7 {
        goes_on(at_the_end(t, &[95 + x], &[]), &[24 + u16::from(x)]);
        goes_on(at_the_end(t, &[103 + x], &[7]).writes(24 + usize::from(x), &[7]), &[]);
    }
    for x in 1..=6 {
        goes_on(at_the_end(t, &[120 + x], &[5]), &[1_005 + u16::from(x)]);
    }
}

fn operands_at_the_end(of: &mut Sexed) {
    of.t.says(r#"02, request 8: an instruction whose last byte is the segment's last is whole; after it, "A first byte out of range gives the same place as before.""#);
    let pushing: [(&[u8], u16); 9] = [
        (&[130, 1], 57), (&[132, 1], 25), (&[133, 1], 1_006), (&[134, 1], 6), (&[135, 1], 1_025),
        (&[136, 1, 1], 17), (&[137, 1, 1], 1_017), (&[173, 1], 1_017), (&[174, 1], 1_035),
    ];
    for (code, word) in pushing {
        of.with_either_b(code, &[], |rig| goes_on(rig, &[word]));
    }
    let storing: [(&[u8], usize); 3] = [(&[164, 2], 26), (&[165, 1], 6), (&[166, 1, 1], 17)];
    for (code, at) in storing {
        of.with_either_b(code, &[7], |rig| goes_on(rig.writes(at, &[7]), &[]));
    }
    of.with_either_b(&[230, 3], &[5], |rig| goes_on(rig, &[1_008]));
    goes_on(of.at_the_end(&[128, 200], &[]), &[200]);
    goes_on(of.at_the_end(&[129, 0x34, 0x12], &[]), &[4_660]);
    // jumps not taken
    goes_on(of.at_the_end(&[212, 0], &[1]), &[]);
    goes_on(of.at_the_end(&[241, 0], &[0]), &[]);
    goes_on(of.at_the_end(&[213, 0, 0], &[1]), &[]);
}

fn jumps_calls_and_returns_at_the_end(of: &mut Sexed) {
    of.t.says(r#"02, request 8: an instruction whose last byte is the segment's last is whole; "the byte after the call" then is 2W"#);
    of.at_the_end(&[138, 0xFE], &[]).leaves(&[], 126); // to itself
    of.at_the_end(&[139, 0xFD, 0xFF], &[]).leaves(&[], 125);
    of.at_the_end(&[212, 0xFE], &[0]).leaves(&[], 126);
    of.at_the_end(&[241, 0xFE], &[1]).leaves(&[], 126);
    of.at_the_end(&[213, 0xFD, 0xFF], &[0]).leaves(&[], 125);
    let calling: [(&[u8], u16); 5] =
        [(&[144, 3], 20), (&[145, 3], 1), (&[146, 1, 3], 12), (&[239, 3], 12), (&[240, 3], 30)];
    for (code, parent) in calling {
        calls(of.at_the_end(code, &[]), 35, [parent, 20, 128, 1, 1], 3, 102);
    }
    of.with_either_b(&[150, 0], &[], |rig| {
        rig.with_sp(15).with_mark(20, [0, 12, 40, 1, 3]).becomes("M = 12", ready(25, 12, 40, 3));
    });
    of.with_either_b(&[150, 0], &[], |rig| rig.with_m(1).finishes());
}

fn back_to_the_end(t: &mut Table) {
    t.says(r#""MSIPC in 22..2W": a return to 2W goes well, and the step after it finds no first byte; 02, request 8: "A first byte out of range gives the same place as before.""#);
    for code in [&[150, 0][..], &[150, 0x80, 0]] {
        at_the_end(t, code, &[])
            .with_mark(20, [0, 12, 128, 1, 3])
            .stepped("back to 128, then fault 1", ready(25, 12, 128, 3))
            .goes(STEP, 1, |world| at_record(world, 1).session.kind = RAN_OUT)
            .end();
    }
}

fn other_faults_keep_their_place(of: &mut Sexed) {
    of.t.says(r#"02, request 8: "All other faults keep theirs."; "The place is the instruction's first byte.""#);
    let lines: [(&[u8], &[u16], u8); 21] = [
        (&[164, 1], &[], 3), (&[166, 1, 0x80, 1], &[], 3), (&[213, 0, 0], &[], 3), (&[162], &[1], 3),
        (&[137, 3, 1], &[], 9), (&[146, 3, 2], &[], 9), (&[150, 0], &[], 9), (&[150, 0x80, 0], &[], 9),
        (&[144, 4], &[], 8), (&[146, 1, 0], &[], 8), (&[240, 255], &[], 8),
        (&[141], &[0, 5], 5), (&[143], &[0, 5], 5),
        (&[135, 16], &[], 6), (&[130, 0xFF, 0xFF], &[], 6), (&[120], &[0], 6), (&[136, 2, 6], &[], 6),
        (&[138, 0], &[], 7), (&[139, 0, 0], &[], 7), (&[212, 0], &[0], 7), // to 128
        (&[203], &[9, 1, 10], 10),
    ];
    for (code, stack, number) in lines {
        of.at_the_end(code, stack).faults(number);
    }
    for code in [&[5][..], &[128, 1], &[129, 1, 1], &[137, 1, 0x80, 1], &[144, 3], &[146, 0, 3]] {
        of.at_the_end(code, &[]).with_sp(8).faults(4);
    }
}

fn not_carried_at_the_end(of: &mut Sexed) {
    of.t.says(r#""the first byte is judged for 1 and 2 before its operands are fetched"; 02, request 8: "All other faults keep theirs.""#);
    for code in [&[142, 0][..], &[215, 0xFF], &[208, 1, 2], &[255, 0x80]] {
        of.at_the_end(code, &[1]).faults(2);
    }
    if of.most_first {
        // all but the last two have operands in 000; `fault_2_not_carried` has
        // every byte that is not carried, least byte first
        let firsts = [
            112, 142, 147, 148, 149, 153, 155, 169, 172, 185, 199, 208, 210, 215, 216, 231, 242, 64, 255,
        ];
        for first in firsts {
            of.at_the_end(&[first], &[1]).faults(2);
        }
    }
}

fn the_first_byte_out_of_range(of: &mut Sexed) {
    of.t.says(r#"02, request 8: "A first byte out of range gives the same place as before."; "counter in 22..2W""#);
    of.at_the_end(&[], &[1, 1]).faults(1);
    of.at_the_end(&[], &[]).with_m(1).faults(1);
    of.at_the_end(&[], &[]).with_sp(8).faults(1);
    for (words, bytes) in [(16, SMALL.to_vec()), (21, small_with(&[]))] {
        let bytes = if of.most_first { small_most_first(bytes) } else { bytes };
        let end = faulted(ready(16, 1, 2 * words, 1), 1);
        let story = of.t.story(&format!("counter 2W, W = {words}"), opened(&bytes, 16, 2 * words));
        let story = runs(story, 9, 1, end, &[]);
        runs(story, 9, 0, end, &[]).end();
    }
}

/// The same most byte first: the small segment's words that are numbers.
fn small_most_first(mut bytes: Vec<u8>) -> Vec<u8> {
    for word in [0, 1].into_iter().chain(6..=14) {
        bytes.swap(2 * word, 2 * word + 1);
    }
    bytes
}

/// From 30 on NOPs, and then a cut instruction that ends at 2W = 42.
fn with_cut_end(cut: &[u8]) -> Vec<u8> {
    let mut bytes = small_with(&[]);
    set_bytes(&mut bytes, 42 - cut.len(), cut);
    bytes
}

fn runs_into_a_cut(of: &mut Sexed) {
    of.t.says(r#"02, request 8: "For a cut segment [...] fault 1 carries that as its place."; "A step that faults [...] count[s]"; "a session not ready give[s] 0""#);
    let lines: [&[u8]; 12] = [
        &[128], &[138], &[129], &[129, 1], &[135], &[135, 0x80], &[136], &[136, 0], &[136, 0, 0x80],
        &[136, 200], &[146, 0], &[150],
    ];
    for cut in lines {
        let bytes = with_cut_end(cut);
        let bytes = if of.most_first { small_most_first(bytes) } else { bytes };
        let counter = 42 - cut.len() as u64;
        let (nops, end) = (counter - 30, ran_out(ready(16, 1, counter, 1), 42));
        let story = of.t.story(&format!("a run into {cut:?}"), opened(&bytes, 16, 30));
        let story = runs(story, 60, nops + 1, end, &[]);
        runs(story, 60, 0, end, &[]).end();
    }
}

fn in_turns(t: &mut Table) {
    t.says(r#"02, request 8: "Case (e) gains its place: 2W.", in a run of several turns"#);
    // ten NOPs, the cut instruction at 40, and no step more
    let bytes = with_cut_end(&[135, 0x80]);
    let end = ran_out(ready(16, 1, 40, 1), 42);
    let story = t.story("a run into LDL 80, in turns", opened(&bytes, 16, 30));
    let story = runs(story, 10, 10, ready(16, 1, 40, 1), &[]);
    let story = runs(story, 1, 1, end, &[]);
    runs(story, 1, 0, end, &[]).end();
}

fn the_longest_segment(t: &mut Table) {
    t.says(r#""A segment is W words, 16 to 32,767"; 02, request 8: "Case (e) gains its place: 2W.""#);
    let mut nops = SMALL.to_vec();
    nops.resize(65_534, 156);
    for cut in [&[][..], &[128], &[129, 0], &[135, 0x80], &[136, 1, 0x80], &[136, 200]] {
        let counter = 65_534 - cut.len();
        let mut bytes = nops.clone();
        set_bytes(&mut bytes, counter, cut);
        let session = ready(16, 1, counter as u64, 1);
        let story = t.story(&format!("W = 32,767, cut: {cut:?}"), opened(&bytes, 16, counter as u64));
        runs(story, 3, 1, ran_out(session, 65_534), &[]).end();
    }
}

/// The rigged bench with LDL and a B from 80 as the small segment's code, in
/// slot 2.  The store goes on after it with 11, the hand segment's first byte.
fn rigged_with_cut() -> World {
    let mut world = rigged();
    set_bytes(&mut world.store, 30, &[135, 0x80]);
    world
}

fn a_bench_runs_into_a_cut(t: &mut Table) {
    t.says(r#"02, request 8: "the offset of the first byte it could not fetch", in the segment, whatever the store has after it"#);
    t.story("a cut segment before another one", rigged_with_cut())
        .goes(Call::Turn { session: 0, k: 9 }, 1, |world| {
            at_record(world, 0).session = ran_out(ready(20, 1, 30, 1), 32);
        })
        .sound(true)
        .goes(Call::Turn { session: 0, k: 9 }, 0, |_| {})
        .goes(Call::Turn { session: 1, k: 1 }, 1, |world| at_record(world, 1).session.counter = 35)
        .goes(Call::Open { slot: 2, length: 16 }, 2, |world| open(world, 2, 2, 54, 16, 30))
        .goes(Call::Turn { session: 2, k: 1 }, 1, |world| {
            at_record(world, 2).session = ran_out(ready(16, 1, 30, 1), 32);
        })
        .sound(true)
        .goes(Call::Close { session: 0 }, 0, |world| close(world, 0))
        .goes(Call::Close { session: 2 }, 0, |world| close(world, 2))
        .sound(true)
        .end();
}

fn records_of_before(t: &mut Table) {
    t.says(r#""if faulted, fault in 1..10 and place in 22..2W"; open question 16: "A fault 1 saved before R8 has the old place; it stays sound""#);
    // 30 is the instruction, 31 its B's first byte, 32 is 2W
    for (counter, place) in [(30, 22), (30, 30), (30, 31), (30, 32), (22, 32)] {
        let mut world = rigged_with_cut();
        at_record(&mut world, 0).session = ran_out(ready(20, 1, counter, 1), place);
        t.story(&format!("a record of fault 1 at {place}, counter {counter}"), world)
            .sound(true)
            .goes(Call::Turn { session: 0, k: 1 }, 0, |_| {})
            .goes(Call::Turn { session: 0, k: 65_535 }, 0, |_| {})
            .refuses(Call::Turn { session: 0, k: 65_536 }, 16)
            .goes(Call::Turn { session: 1, k: 1 }, 1, |world| at_record(world, 1).session.counter = 35)
            // one of today beside it
            .goes(Call::Open { slot: 2, length: 16 }, 2, |world| open(world, 2, 2, 54, 16, 30))
            .goes(Call::Turn { session: 2, k: 9 }, 1, |world| {
                at_record(world, 2).session = ran_out(ready(16, 1, 30, 1), 32);
            })
            .sound(true)
            .goes(Call::Turn { session: 0, k: 9 }, 0, |_| {})
            .goes(Call::Close { session: 0 }, 0, |world| close(world, 0))
            .sound(true)
            .end();
    }
    // every operand form, on the rig: the step is not taken again
    for code in [&[128][..], &[138], &[129, 0], &[135, 0x80], &[136, 200], &[146, 1], &[150]] {
        for place in [128 - code.len() as u64, 128] {
            let mut rig = at_the_end(t, code, &[1]);
            *rig.session() = ran_out(*rig.session(), place);
            let Rig { table, name, world, .. } = rig;
            let name = format!("{name}, recorded as fault 1 at {place}");
            table.story(&name, world).sound(true).goes(STEP, 0, |_| {}).end();
        }
    }
}

fn places_of_any_fault(t: &mut Table) {
    t.says(r#""if faulted, fault in 1..10 and place in 22..2W", whatever the fault and the counter"#);
    let record = |number, place| {
        let mut world = rigged_with_cut();
        let session = Session { kind: Kind::Faulted { number, place }, ..ready(20, 1, 30, 1) };
        at_record(&mut world, 0).session = session;
        (format!("a record of fault {number} at {place}"), world)
    };
    for (number, place) in [(2, 31), (2, 32), (9, 32), (10, 22), (4, 32)] {
        let (name, world) = record(number, place);
        t.story(&name, world)
            .sound(true)
            .goes(Call::Turn { session: 0, k: 9 }, 0, |_| {})
            .goes(Call::Close { session: 0 }, 0, |world| close(world, 0))
            .end();
    }
    for (number, place) in [(1, 0), (1, 21), (1, 33), (1, u64::MAX), (2, 33), (9, 21)] {
        let (name, world) = record(number, place);
        t.story(&name, world)
            .sound(false)
            .refuses(Call::Turn { session: 0, k: 1 }, 11)
            .refuses(Call::Close { session: 0 }, 11)
            .end();
    }
}
