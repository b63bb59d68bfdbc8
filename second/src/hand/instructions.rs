//! Each carried instruction's ordinary meaning and its edges, on the rig (L =
//! 40, M = 20, 6+G = 8, word i = 1000+i, code at byte 34).

use super::{carried, ready, Rig, Table};

const MINUS_1: u16 = 65_535;
const MINUS_7: u16 = 65_529;
const LEAST: u16 = 32_768; // -32,768
const MOST: u16 = 32_767;

pub fn fill(t: &mut Table) {
    constants(t);
    constant_offset(t);
    local_words(t);
    local_addresses(t);
    local_stores(t);
    global_words(t);
    intermediate_words(t);
    indirect_words(t);
    store_indirect(t);
    integers(t);
    products(t);
    comparisons(t);
    logic_and_stack(t);
    subrange_check(t);
    jumps_count_bytes_from_the_byte_after(t);
    conditional_jumps_look_at_bit_0(t);
    routine_calls(t);
    a_call_of_a_huge_routine_faults_with_4(t);
    returns(t);
    the_return_that_finishes(t);
    fault_1_outside(t);
    fault_2_not_carried(t);
    fault_3_too_few_words(t);
    fault_4_stack_full(t);
    the_order_of_checks(t);
}

fn constants(t: &mut Table) {
    t.says(r#"000 SLDC "Push the opcode, with the high byte zero", LDCB "Push UB, with high byte zero", LDCI "Push W", LDCN "Push NIL"; "0 is NIL.""#);
    t.rig(&[0], &[]).leaves(&[0], 35); // SLDC0
    t.rig(&[31], &[9]).leaves(&[31, 9], 35);
    t.rig(&[152], &[]).leaves(&[0], 35); // LDCN: NIL is 0
    t.rig(&[128, 0xFF], &[]).leaves(&[255], 36); // LDCB, high byte zero
    t.rig(&[129, 0x34, 0x12], &[]).leaves(&[4_660], 37); // LDCI
    t.rig(&[129, 0xFF, 0xFF], &[]).leaves(&[MINUS_1], 37);
    t.rig(&[129, 0x00, 0x80], &[]).leaves(&[LEAST], 37);
}

fn constant_offset(t: &mut Table) {
    t.says(r#""LCO pushes pool pointer plus B, a word offset; it faults with 6 with no pool or at W or above.""#);
    // pool pointer 56, W = 64
    t.rig(&[130, 0], &[]).leaves(&[56], 36);
    t.rig(&[130, 7], &[]).leaves(&[63], 36);
    t.rig(&[130, 0x80, 7], &[]).leaves(&[63], 37);
    t.rig(&[130, 8], &[]).faults(6);
    t.rig(&[130, 0xFF, 0xFF], &[]).faults(6);
    t.rig(&[130, 0], &[]).with_segment_word(7, 0).faults(6);
    t.rig(&[130, 11], &[]).with_segment_word(7, 0).faults(6);
}

fn local_words(t: &mut Table) {
    t.says(r#"000 LDL "Fetch the word with offset B in the local activation record and push it"; "Offset x of a record is word M+4+x.""#);
    t.rig(&[32], &[]).leaves(&[1_025], 35); // SLDL1: word 24+1
    t.rig(&[46], &[]).leaves(&[1_039], 35); // SLDL15: word 39, the last
    t.rig(&[47], &[]).faults(6); // SLDL16: word 40 = L
    t.rig(&[135, 0], &[]).leaves(&[1_024], 36); // LDL 0: MSPROC's word
    t.rig(&[135, 15], &[]).leaves(&[1_039], 36);
    t.rig(&[135, 0x80, 15], &[]).leaves(&[1_039], 37);
    t.rig(&[135, 16], &[]).faults(6);
    t.rig(&[135, 0xFF, 0xFF], &[]).faults(6);
    t.rig(&[32], &[]).with_m(35).faults(6); // M = L-5: word 40
    t.rig(&[32], &[]).with_m(34).leaves(&[1_039], 35);
}

fn local_addresses(t: &mut Table) {
    t.says(r#"000 LLA "Calculate address of the word with offset B in the local activation record and push it"; "also where just its address is pushed; else fault 6""#);
    t.rig(&[96], &[]).leaves(&[25], 35); // SLLA1
    t.rig(&[103], &[]).leaves(&[32], 35); // SLLA8
    t.rig(&[96], &[]).with_m(35).faults(6);
    t.rig(&[132, 0], &[]).leaves(&[24], 36); // LLA
    t.rig(&[132, 15], &[]).leaves(&[39], 36);
    t.rig(&[132, 16], &[]).faults(6); // "also where just its address is pushed"
}

fn local_stores(t: &mut Table) {
    t.says(r#"000 STL "Store TOS into word with offset B in the local activation record"; "The text prints 64 for STL [...]; appendix B decides.""#);
    t.rig(&[104], &[7]).leaves_and_writes(&[], 35, &[(39, 7), (25, 7)]); // SSTL1
    t.rig(&[111], &[7, 8]).leaves_and_writes(&[8], 35, &[(38, 7), (32, 7)]); // SSTL8
    t.rig(&[104], &[7]).with_m(35).faults(6);
    t.rig(&[164, 2], &[7]).leaves_and_writes(&[], 36, &[(39, 7), (26, 7)]); // STL
    t.rig(&[164, 15], &[7]).leaves_and_writes(&[], 36, &[(39, 7)]); // on its own word
    t.rig(&[164, 16], &[7]).faults(6);
    // 64, which the text of 000 prints for STL, is unused in appendix B
    t.rig(&[64, 2], &[7]).faults(2);
}

fn global_words(t: &mut Table) {
    t.says(r#""Globals are the record at 1, so offset x is word 5+x.""#);
    t.rig(&[48], &[]).leaves(&[1_006], 35); // SLDO1: word 5+1
    t.rig(&[63], &[]).leaves(&[1_021], 35); // SLDO16
    t.rig(&[133, 0], &[]).leaves(&[1_005], 36); // LDO
    t.rig(&[133, 34], &[]).leaves(&[1_039], 36);
    t.rig(&[133, 35], &[]).faults(6);
    t.rig(&[134, 1], &[]).leaves(&[6], 36); // LAO
    t.rig(&[134, 34], &[]).leaves(&[39], 36);
    t.rig(&[134, 35], &[]).faults(6);
    t.rig(&[165, 1], &[7]).leaves_and_writes(&[], 36, &[(39, 7), (6, 7)]); // SRO
    t.rig(&[165, 35], &[7]).faults(6);
}

fn intermediate_words(t: &mut Table) {
    t.says(r#""Following 0 static links stays; for DB above 0 it takes one link and then DB-1 more; a link outside 1..L-5 faults with 9.""#);
    // links: 20 -> 12 -> 30
    t.rig(&[173, 1], &[]).leaves(&[1_017], 36); // SLOD1: word 12+4+1
    t.rig(&[174, 1], &[]).leaves(&[1_035], 36); // SLOD2: word 30+4+1
    t.rig(&[137, 0, 1], &[]).leaves(&[1_025], 37); // LOD 0 links
    t.rig(&[137, 1, 1], &[]).leaves(&[1_017], 37);
    t.rig(&[137, 2, 1], &[]).leaves(&[1_035], 37);
    t.rig(&[137, 2, 0x80, 1], &[]).leaves(&[1_035], 38);
    t.rig(&[137, 3, 1], &[]).faults(9); // word 30 holds 1030
    t.rig(&[137, 2, 6], &[]).faults(6); // word 30+4+6 = 40
    t.rig(&[136, 1, 1], &[]).leaves(&[17], 37); // LDA
    t.rig(&[136, 2, 5], &[]).leaves(&[39], 37);
    t.rig(&[136, 2, 6], &[]).faults(6);
    t.rig(&[166, 1, 1], &[7]).leaves_and_writes(&[], 37, &[(39, 7), (17, 7)]); // STR
    t.rig(&[166, 2, 6], &[7]).faults(6);
    // a link outside 1..L-5
    for code in [&[173, 1][..], &[174, 1], &[137, 1, 1], &[136, 1, 1], &[146, 1, 2], &[239, 2]] {
        for bad in [0, 36, 40, 65_535] {
            t.rig(code, &[]).with_word(20, bad).faults(9);
        }
    }
    t.rig(&[173, 0], &[]).with_word(20, 35).leaves(&[1_039], 36); // L-5 is good
    t.rig(&[173, 0], &[]).with_word(20, 1).leaves(&[1_005], 36);
    // 127 links round a loop; 128 is no DB
    t.rig(&[137, 127, 1], &[]).with_word(20, 20).leaves(&[1_025], 37);
    t.rig(&[137, 128, 1], &[]).with_word(20, 20).faults(2);
}

fn indirect_words(t: &mut Table) {
    t.says(r#""An indexed address is the plain sum; a sum above 65,535 faults, and so does a base of NIL at any index.""#);
    t.rig(&[120], &[5]).leaves(&[1_005], 35); // SIND0
    t.rig(&[127], &[5]).leaves(&[30], 35); // SIND7: word 12, which holds 30
    t.rig(&[120], &[39]).leaves(&[39], 35); // the stack's own word
    t.rig(&[121], &[39]).faults(6); // word 40
    t.rig(&[120], &[40]).faults(6);
    t.rig(&[120], &[0]).faults(6); // NIL
    t.rig(&[125], &[0]).faults(6); // "a base of NIL at any index"
    t.rig(&[230, 0xFF, 0xFF], &[0]).faults(6);
    t.rig(&[120], &[32_768]).leaves(&[500], 35); // shared word 0
    t.rig(&[123], &[32_768]).leaves(&[503], 35);
    t.rig(&[124], &[32_768]).faults(6); // S = 4
    t.rig(&[120], &[32_771]).leaves(&[503], 35);
    t.rig(&[120], &[32_772]).faults(6);
    t.rig(&[120], &[32_767]).faults(6);
    t.rig(&[121], &[32_767]).leaves(&[500], 35); // "the plain sum"
    t.rig(&[230, 3], &[5]).leaves(&[1_008], 36); // IND
    t.rig(&[230, 0xFF, 0xFF], &[1]).leaves(&[500], 37); // 1+32,767
    t.rig(&[121], &[65_535]).faults(6); // sum above 65,535
    t.rig(&[120], &[65_535]).faults(6);
}

fn store_indirect(t: &mut Table) {
    t.says(r#"000 STO "Store TOS into the word pointed to by TOS-1"; shared words "can only be read. All else faults.""#);
    t.rig(&[196], &[7, 10, 3]).leaves_and_writes(&[3], 35, &[(37, 7), (38, 10), (10, 7)]);
    t.rig(&[196], &[7, 39]).leaves_and_writes(&[], 35, &[(38, 7), (39, 7)]);
    t.rig(&[196], &[7, 1]).leaves_and_writes(&[], 35, &[(38, 7), (39, 1), (1, 7)]);
    t.rig(&[196], &[7, 0]).faults(6);
    t.rig(&[196], &[7, 40]).faults(6);
    t.rig(&[196], &[7, 32_768]).faults(6); // shared words "can only be read"
}

/// A word operation on two words: TOS-1 first, as 000 writes it.
fn two(t: &mut Table, code: u8, below: u16, top: u16, result: u16) {
    t.rig(&[code], &[top, below, 77]).leaves(&[result, 77], 35);
}

fn one(t: &mut Table, code: u8, top: u16, result: u16) {
    t.rig(&[code], &[top, 77]).leaves(&[result, 77], 35);
}

fn integers(t: &mut Table) {
    t.says(r#""Integers wrap to 16 bits, two's complement. The quotient is cut towards zero and the remainder takes the dividend's sign.""#);
    two(t, 162, 2, 3, 5); // ADI
    two(t, 162, MOST, 1, LEAST); // (g)
    two(t, 162, MINUS_1, 1, 0);
    two(t, 163, 2, 3, MINUS_1); // SBI: TOS-1 minus TOS
    two(t, 163, LEAST, 1, MOST);
    two(t, 140, 300, 300, 24_464); // MPI (h)
    two(t, 140, MINUS_1, MINUS_7, 7);
    two(t, 140, LEAST, MINUS_1, LEAST);
    two(t, 141, 7, 2, 3); // DVI
    two(t, 141, MINUS_7, 2, 65_533); // (i): -3
    two(t, 141, 7, 65_534, 65_533);
    two(t, 141, MINUS_7, 65_534, 3);
    two(t, 141, LEAST, MINUS_1, LEAST); // (j)
    two(t, 141, 0, 5, 0);
    two(t, 143, 7, 2, 1); // MODI
    two(t, 143, MINUS_7, 2, MINUS_1); // (i)
    two(t, 143, 7, 65_534, 1);
    two(t, 143, LEAST, MINUS_1, 0); // (j)
    t.rig(&[141], &[0, 5]).faults(5);
    t.rig(&[143], &[0, 5]).faults(5);
    one(t, 224, MINUS_7, 7); // ABI
    one(t, 224, 7, 7);
    one(t, 224, LEAST, LEAST);
    one(t, 225, 7, MINUS_7); // NGI
    one(t, 225, 0, 0);
    one(t, 225, LEAST, LEAST);
    one(t, 237, MOST, LEAST); // INCI
    one(t, 237, MINUS_1, 0);
    one(t, 238, LEAST, MOST); // DECI
    one(t, 238, 0, MINUS_1);
}

/// A product, with either word as TOS.
fn product(t: &mut Table, one: u16, other: u16, result: u16) {
    two(t, 140, one, other, result);
    if one != other {
        two(t, 140, other, one, result);
    }
}

fn products(t: &mut Table) {
    t.says(r#"000 MPI "Multiply TOS by TOS-1"; "Integers wrap to 16 bits, two's complement.""#);
    product(t, 0, MINUS_1, 0); // no part of it stays
    product(t, 1, 43_981, 43_981); // all parts of it stay
    product(t, 5, 171, 855); // a low byte by a low byte, into the high byte
    product(t, 2, 128, 256); // the low byte's last bit goes over
    product(t, 127, 128, 16_256); // 128*128 less 128
    product(t, 255, 255, 65_025); // the largest product of two bytes
    product(t, 3, 512, 1_536); // only the high byte of 512 counts
    product(t, 256, 4_660, 13_312); // 12 34 to 34 00: the low byte moves up
    product(t, 17, 4_660, 13_684); // 79,220 less 65,536: both bytes of one count
    product(t, 1_000, 1_001, 17_960); // 1,001,000 less 15*65,536: both of both
    product(t, 255, 256, 65_280); // 255 in the high byte
    product(t, 255, 257, MINUS_1); // 65,535, no bit twice
    product(t, 256, 256, 0); // 65,536: high byte by high byte is lost
    product(t, 257, 257, 513); // 66,049 less 65,536
    product(t, 257, MINUS_1, 65_279); // -257
    product(t, MOST, 2, 65_534); // -2
    product(t, MOST, MOST, 1); // 2^30 less 2^16, plus 1
    product(t, LEAST, 2, 0); // 65,536
    product(t, LEAST, 3, LEAST); // 98,304 less 65,536
    product(t, LEAST, LEAST, 0); // 2^30
    product(t, LEAST, MOST, LEAST); // 2^30 less 32,768
    product(t, MINUS_1, MOST, 32_769); // -32,767
    product(t, MINUS_1, MINUS_1, 1);
}

fn comparisons(t: &mut Table) {
    t.says(r#""signed and unsigned word comparisons"; "Comparisons push 1 or 0.""#);
    two(t, 176, 5, 5, 1); // EQUI
    two(t, 176, 5, 6, 0);
    two(t, 177, 5, 6, 1); // NEQI
    two(t, 177, 5, 5, 0);
    two(t, 178, MINUS_1, 1, 1); // LEQI, signed
    two(t, 178, 1, MINUS_1, 0);
    two(t, 178, 5, 5, 1);
    two(t, 178, LEAST, MOST, 1);
    two(t, 179, 1, MINUS_1, 1); // GEQI, signed
    two(t, 179, MINUS_1, 1, 0);
    two(t, 179, 5, 5, 1);
    two(t, 180, MINUS_1, 1, 0); // LEUSW, unsigned
    two(t, 180, 1, MINUS_1, 1);
    two(t, 180, 5, 5, 1);
    two(t, 181, MINUS_1, 1, 1); // GEUSW, unsigned
    two(t, 181, 1, MINUS_1, 0);
    two(t, 181, 5, 5, 1);
}

fn logic_and_stack(t: &mut Table) {
    t.says(r#""AND, OR, NOT of all 16 bits; duplicate one word, swap, no-operation""#);
    two(t, 161, 0x0FF0, 0x3C3C, 0x0C30); // LAND
    two(t, 160, 0x0FF0, 0x3C3C, 0x3FFC); // LOR
    one(t, 229, 0x0FF0, 0xF00F); // LNOT, all 16 bits
    one(t, 229, 1, 0xFFFE);
    t.rig(&[226], &[7, 8]).leaves(&[7, 7, 8], 35); // DUP1
    t.rig(&[189], &[7, 8, 9]).leaves(&[8, 7, 9], 35); // SWAP
    t.rig(&[156], &[]).leaves(&[], 35); // NOP
    t.rig(&[156], &[7]).leaves(&[7], 35);
}

fn subrange_check(t: &mut Table) {
    t.says(r#"000 CHK "Ensure that TOS-1 <= TOS-2 <= TOS, leaving TOS-2 on the Stack"; "10 subrange check failed""#);
    // top first: upper bound, lower bound, value
    t.rig(&[203], &[9, 1, 5, 77]).leaves(&[5, 77], 35);
    t.rig(&[203], &[9, 1, 1]).leaves(&[1], 35);
    t.rig(&[203], &[9, 1, 9]).leaves(&[9], 35);
    t.rig(&[203], &[9, 1, 10]).faults(10);
    t.rig(&[203], &[9, 1, 0]).faults(10);
    t.rig(&[203], &[9, MINUS_7, MINUS_1]).leaves(&[MINUS_1], 35); // signed
    t.rig(&[203], &[MINUS_1, 1, 5]).faults(10);
    t.rig(&[203], &[1, 9, 5]).faults(10);
}

fn jumps_count_bytes_from_the_byte_after(t: &mut Table) {
    t.says(r#""Jumps count from the byte after the instruction"; "7 jump target outside 22..2W-1""#);
    t.rig(&[138, 0], &[]).leaves(&[], 36); // UJP
    t.rig(&[138, 0xFE], &[]).leaves(&[], 34); // itself
    t.rig(&[138, 5], &[]).leaves(&[], 41);
    t.rig(&[138, 0xF2], &[]).leaves(&[], 22); // 36-14
    t.rig(&[138, 0xF1], &[]).faults(7); // 21
    t.rig(&[138, 91], &[]).leaves(&[], 127);
    t.rig(&[138, 92], &[]).faults(7); // 128 = 2W
    t.rig(&[139, 0, 0], &[]).leaves(&[], 37); // JPL
    t.rig(&[139, 0xF1, 0xFF], &[]).leaves(&[], 22); // 37-15
    t.rig(&[139, 0xF0, 0xFF], &[]).faults(7);
    t.rig(&[139, 90, 0], &[]).leaves(&[], 127);
    t.rig(&[139, 91, 0], &[]).faults(7);
    t.rig(&[139, 0xFF, 0x7F], &[]).faults(7);
    t.rig(&[139, 0x00, 0x80], &[]).faults(7);
}

fn conditional_jumps_look_at_bit_0(t: &mut Table) {
    t.says(r#""A conditional jump looks at bit 0 only"; "the target of a jump not taken isn't judged.""#);
    for (word, is_true) in [(0, false), (1, true), (2, false), (3, true), (65_534, false), (65_535, true)] {
        t.rig(&[212, 5], &[word, 8]).leaves_and_writes(&[8], if is_true { 36 } else { 41 }, &[]);
        t.rig(&[241, 5], &[word, 8]).leaves_and_writes(&[8], if is_true { 41 } else { 36 }, &[]);
        t.rig(&[213, 5, 0], &[word, 8]).leaves_and_writes(&[8], if is_true { 37 } else { 42 }, &[]);
    }
    // "the target of a jump not taken isn't judged"
    t.rig(&[212, 0x80], &[1]).leaves(&[], 36);
    t.rig(&[212, 0x80], &[0]).faults(7);
    t.rig(&[241, 0x80], &[0]).leaves(&[], 36);
    t.rig(&[241, 0x80], &[1]).faults(7);
    t.rig(&[213, 0, 0x80], &[1]).leaves(&[], 37);
    t.rig(&[213, 0, 0x80], &[0]).faults(7);
    // a jump not taken at the segment's end leaves the counter on 2W
    t.rig_at(126, &[212, 0], &[1]).leaves(&[], 128);
    t.rig_at(126, &[212, 0], &[0]).faults(7);
}

/// A call by the rig's session with SP = 40: M = SP, a mark, the routine and
/// its start.
pub fn calls(rig: Rig, new_m: u64, mark: [u16; 5], routine: u64, start: u64) {
    let after = ready(new_m, new_m, start, routine);
    rig.writes(new_m as usize, &mark).becomes(&format!("M = SP = {new_m}"), after);
}

fn routine_calls(t: &mut Table) {
    t.says(r#""The new M and SP are SP-5-DATASIZE. The mark holds the lexical parent's M [...], the caller's M, the byte after the call, 1, and the caller's routine number.""#);
    // DATASIZE of routine 2 is 3, of routine 3 is 0, of routine 1 is 2
    calls(t.rig(&[144, 2], &[]), 32, [20, 20, 36, 1, 1], 2, 82); // CPL
    calls(t.rig(&[144, 3], &[]), 35, [20, 20, 36, 1, 1], 3, 102);
    calls(t.rig(&[144, 1], &[]), 33, [20, 20, 36, 1, 1], 1, 34);
    calls(t.rig(&[145, 3], &[]), 35, [1, 20, 36, 1, 1], 3, 102); // CPG
    calls(t.rig(&[146, 0, 3], &[]), 35, [20, 20, 37, 1, 1], 3, 102); // CPI
    calls(t.rig(&[146, 1, 3], &[]), 35, [12, 20, 37, 1, 1], 3, 102);
    calls(t.rig(&[146, 2, 3], &[]), 35, [30, 20, 37, 1, 1], 3, 102);
    calls(t.rig(&[239, 3], &[]), 35, [12, 20, 36, 1, 1], 3, 102); // SCPI1
    calls(t.rig(&[240, 3], &[]), 35, [30, 20, 36, 1, 1], 3, 102); // SCPI2
    for code in [&[144][..], &[145], &[146, 0], &[239], &[240]] {
        for bad in [0, 4, 255] {
            let code: Vec<u8> = code.iter().copied().chain([bad]).collect();
            t.rig(&code, &[]).faults(8);
        }
    }
    // 6+G is 8: routine 2 takes 8 words
    calls(t.rig(&[144, 2], &[]).with_sp(16), 8, [20, 20, 36, 1, 1], 2, 82);
    t.rig(&[144, 2], &[]).with_sp(15).faults(4);
    t.rig(&[144, 2], &[]).with_sp(8).faults(4);
    // a call that is the segment's last instruction: MSIPC is 2W
    calls(t.rig_at(126, &[144, 3], &[]), 35, [20, 20, 128, 1, 1], 3, 102);
}

fn a_call_of_a_huge_routine_faults_with_4(t: &mut Table) {
    t.says(r#""4 SP after the step would lie below 6+G""#);
    // DATASIZE of routine 2 is 32,767: SP would be 40-5-32,767, below 0
    t.rig(&[144, 2], &[]).with_segment_word(40, 32_767).faults(4);
}

/// RPU with a mark at 20.
fn returning(t: &mut Table, mark: [u16; 5], b: u8) -> Rig<'_> {
    t.rig(&[150, b], &[]).with_sp(15).with_mark(20, mark)
}

fn returns(t: &mut Table) {
    t.says(r#""in this order, MSDYN must be in 1..L-5, MSPROC in 1..n, MSENDV 1, MSIPC in 22..2W, and the new SP in 6+G..L; else fault 9""#);
    // MSSTAT is not judged
    returning(t, [9_999, 12, 40, 1, 3], 0).becomes("M = 12", ready(25, 12, 40, 3));
    returning(t, [0, 12, 40, 1, 3], 15).becomes("SP = L", ready(40, 12, 40, 3));
    returning(t, [0, 12, 40, 1, 3], 16).faults(9); // SP 41
    returning(t, [0, 1, 22, 1, 1], 0).becomes("the least", ready(25, 1, 22, 1));
    returning(t, [0, 35, 128, 1, 3], 0).becomes("the most", ready(25, 35, 128, 3));
    for bad in [
        [0, 0, 40, 1, 3], [0, 36, 40, 1, 3], [0, 65_535, 40, 1, 3], // MSDYN
        [0, 12, 21, 1, 3], [0, 12, 129, 1, 3], // MSIPC
        [0, 12, 40, 0, 3], [0, 12, 40, 2, 3], // MSENDV
        [0, 12, 40, 1, 0], [0, 12, 40, 1, 4], [0, 12, 40, 1, 257], // MSPROC
    ] {
        returning(t, bad, 0).faults(9);
    }
    // new SP below 6+G = 8: M = 2 gives 7+B
    let low = [0, 1, 40, 1, 1];
    t.rig(&[150, 0], &[]).with_m(2).with_mark(2, low).faults(9);
    t.rig(&[150, 1], &[]).with_m(2).with_mark(2, low).becomes("SP = 6+G", ready(8, 1, 40, 1));
}

fn the_return_that_finishes(t: &mut Table) {
    t.says(r#""With M = 1 the session finishes, and all registers and memory stay; that return is checked no further.""#);
    // M = 1: "all registers and memory stay; that return is checked no further"
    t.rig(&[150, 0], &[4]).with_m(1).finishes();
    t.rig(&[150, 0xFF, 0xFF], &[4]).with_m(1).finishes();
    // only M counts, not the routine number, and no word of a mark
    t.rig(&[150, 0], &[]).with_m(1).with_mark(1, [0, 0, 0, 0, 0]).finishes();
}

fn fault_1_outside(t: &mut Table) {
    // operands cut off by the end are in `cut`
    t.says(r#""1 an instruction byte outside 22..2W-1""#);
    t.rig(&[], &[]).with_counter(128).faults(1);
    // byte 22 is an instruction byte: D's own count, 3, is SLDC3 there
    t.rig(&[], &[]).with_counter(22).leaves(&[3], 23);
}

fn fault_2_not_carried(t: &mut Table) {
    t.says(r#""2 not carried"; "the first byte is judged for 1 and 2 before its operands are fetched"; "a DB byte above 127 faults with 2""#);
    let carried = carried();
    for first in 0..=255u8 {
        if !carried.contains(&first) {
            t.rig(&[first], &[]).faults(2);
            t.rig_at(127, &[first], &[]).faults(2); // before its operands are fetched
        }
    }
    for db in [128, 255] {
        for code in [[136, db, 1], [137, db, 1], [166, db, 1], [146, db, 2]] {
            t.rig(&code, &[]).faults(2); // before 3, 9 and 8
        }
    }
}

fn fault_3_too_few_words(t: &mut Table) {
    t.says(r#""3 too few words on the stack""#);
    for first in (104..=111).chain(120..=127).chain([224, 225, 226, 229, 237, 238]) {
        t.rig(&[first], &[]).faults(3);
    }
    for code in [&[164, 1][..], &[165, 1], &[166, 0, 1], &[230, 1], &[212, 0], &[241, 0], &[213, 0, 0]] {
        t.rig(code, &[]).faults(3);
    }
    for first in (160..=163).chain(176..=181).chain([140, 141, 143, 189, 196]) {
        t.rig(&[first], &[]).faults(3);
        t.rig(&[first], &[0]).faults(3);
    }
    for stack in [&[][..], &[1], &[1, 2]] {
        t.rig(&[203], stack).faults(3);
    }
}

fn fault_4_stack_full(t: &mut Table) {
    t.says(r#""4 SP after the step would lie below 6+G""#);
    // 6+G is 8: at SP = 9 a word can be pushed, at SP = 8 none
    let pushes: [(&[u8], u16); 17] = [
        (&[5], 5), (&[32], 1_025), (&[48], 1_006), (&[96], 25), (&[128, 1], 1), (&[129, 1, 1], 257),
        (&[130, 1], 57), (&[132, 1], 25), (&[133, 1], 1_006), (&[134, 1], 6), (&[135, 1], 1_025),
        (&[136, 1, 1], 17), (&[137, 1, 1], 1_017), (&[152], 0), (&[173, 1], 1_017),
        (&[174, 1], 1_035), (&[226], 1_009),
    ];
    for (code, word) in pushes {
        t.rig(code, &[]).with_sp(8).faults(4);
        let after = ready(8, 20, 34 + code.len() as u64, 1);
        t.rig(code, &[]).with_sp(9).writes(8, &[word]).becomes("SP = 6+G", after);
    }
    // what gives no more than it takes goes on at 8: words 8 and 9 hold 5 and 6
    let others: [(u8, u64, usize, &[u16]); 6] = [
        (162, 9, 9, &[11]), (189, 8, 8, &[6, 5]), (225, 8, 8, &[65_531]), (120, 8, 8, &[1_005]),
        (156, 8, 8, &[]), (104, 9, 25, &[5]),
    ];
    for (first, sp, at, words) in others {
        let full = t.rig(&[first], &[]).with_sp(8).with_word(8, 5).with_word(9, 6);
        full.writes(at, words).becomes("goes on when full", ready(sp, 20, 35, 1));
    }
}

fn the_order_of_checks(t: &mut Table) {
    t.says(r#""This is also the order of checks" (1, 2, 3, 9, 8, 5, 6, 7, 10, 4)"#);
    t.rig(&[104], &[]).with_m(35).faults(3); // 3 before 6
    t.rig(&[166, 1, 1], &[]).with_word(20, 0).faults(3); // 3 before 9
    t.rig(&[141], &[0]).faults(3); // 3 before 5
    t.rig(&[212, 0x80], &[]).faults(3); // 3 before 7
    t.rig(&[146, 1, 0], &[]).with_word(20, 0).faults(9); // 9 before 8
    t.rig(&[239, 0], &[]).with_word(20, 0).faults(9);
    t.rig(&[166, 1, 0xFF, 0xFF], &[7]).with_word(20, 0).faults(9); // 9 before 6
    t.rig(&[137, 1, 1], &[]).with_word(20, 0).with_sp(8).faults(9); // 9 before 4
    t.rig(&[144, 0], &[]).with_sp(8).faults(8); // 8 before 4
    t.rig(&[135, 16], &[]).with_sp(8).faults(6); // 6 before 4
    t.rig(&[130, 8], &[]).with_sp(8).faults(6);
    t.rig(&[203], &[1, 9]).faults(3); // 3 before 10
}
