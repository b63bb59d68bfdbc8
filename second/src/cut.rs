//! Instructions cut by the segment's end for the generator (request 8 of 02):
//! how such a step is counted, segments whose code runs on into one, and
//! benches that load and run them, some with records of the time before.

use crate::bench;
use crate::generate::{put_word, Outcome, Rng, SMALL};
use crate::machine::{self, Form, Kind};
use crate::segment::{Segment, Sex};
use crate::world::{ask, blank_bench, Call, World};

// Fault 1 is counted by the bytes of the instruction that were there before the
// end: `CUT` and 1, 2, 3 or 4; where a DB above 127 is among them, which would be
// fault 2 if the instruction were whole, `CUT_DB` and 2 or 3.
pub const CUT: u32 = 16;
pub const CUT_DB: u32 = 24;
/// The last of these numbers.
pub const LAST_CUT: u32 = CUT_DB + 3;

/// After which of its bytes each first byte can be cut.  (Written from 000's
/// operands and 01's list, not from the interpreter.)
pub fn possible_cuts(first: u8) -> Vec<Outcome> {
    let cuts: &[u32] = match first {
        128 | 144 | 145 | 239 | 240 => &[CUT + 1], // UB: LDCB CPL CPG SCPI1 SCPI2
        138 | 212 | 241 => &[CUT + 1], // SB: UJP FJP TJP
        129 | 139 | 213 => &[CUT + 1, CUT + 2], // W: LDCI JPL FJPL
        // B: LCO LLA LDO LAO LDL RPU STL SRO SLOD1 SLOD2 XJP IND
        130 | 132..=135 | 150 | 164 | 165 | 173 | 174 | 214 | 230 => &[CUT + 1, CUT + 2],
        131 => &[CUT + 1, CUT + 2, CUT + 3, CUT + 4], // UB, B and UB: LDC
        // DB and B: LDA LOD STR
        136 | 137 | 166 => &[CUT + 1, CUT + 2, CUT + 3, CUT_DB + 2, CUT_DB + 3],
        146 => &[CUT + 1, CUT + 2, CUT_DB + 2], // DB and UB: CPI
        _ => &[],
    };
    cuts.iter().map(|cut| (Some(first), *cut)).collect()
}

/// What a fault 1 at a counter is counted as; beyond the end it is plain 1.
pub fn counted(segment: &Segment, counter: u64) -> u32 {
    let at = usize::try_from(counter).unwrap_or(usize::MAX);
    let there = segment.bytes.get(at..).unwrap_or(&[]);
    match *there {
        [] => 1,
        [136 | 137 | 146 | 166, 128..=255, ..] => CUT_DB + there.len() as u32,
        _ => CUT + there.len() as u32,
    }
}

/// The bytes that are there, if an outcome is that of a cut instruction.
pub fn bytes_there(end: u32) -> Option<u32> {
    match end {
        CUT_DB..=LAST_CUT => Some(end - CUT_DB),
        CUT..CUT_DB => Some(end - CUT),
        _ => None,
    }
}

/// What a fault 1 was counted as, in words.
pub fn name(end: u32) -> String {
    let db = if end >= CUT_DB { ", DB above 127" } else { "" };
    format!("1 cut after {}{db}", bytes_there(end).unwrap_or(0))
}

/// The first bytes of an instruction, never all of them.
fn cut_instruction(rng: &mut Rng) -> Vec<u8> {
    let with_operands: Vec<u8> = (0..=255).filter(|first| !possible_cuts(*first).is_empty()).collect();
    let first = rng.pick(&with_operands, 128);
    let db = rng.pick(&[0, 1, 2, 127, 128, 200, 255], 0);
    let any = rng.next() as u8;
    let there: &[u8] = match machine::instruction(first).map(|row| row.form) {
        Some(Form::W) => &[any],
        Some(Form::B) => &[any | 128],
        Some(Form::DbB) => &[db, any | 128],
        Some(Form::DbUb) => &[db],
        Some(Form::UbBUb) => &[db, any | 128, any],
        _ => &[],
    };
    let kept = rng.up_to(there.len() as u64) as usize;
    std::iter::once(first).chain(there.iter().copied().take(kept)).collect()
}

/// Statements on global 1 that leave the stack as it was.
const STATEMENTS: [&[u8]; 8] = [
    &[156],              // NOP
    &[5, 165, 1],        // SLDC5 SRO 1
    &[48, 237, 165, 1],  // SLDO1 INCI SRO 1
    &[129, 7, 0, 165, 1], // LDCI 7 SRO 1
    &[138, 0],           // UJP to the next
    &[138, 1, 255],      // UJP over a byte that is not carried
    &[1, 241, 0],        // SLDC1 TJP to the next
    &[2, 164, 1],        // SLDC2 STL 1
];

/// The small segment made longer, in either sex: one routine, G of 1 to 3, and
/// code that runs on to the segment's end, where mostly an instruction is cut.
fn running_out(rng: &mut Rng) -> Vec<u8> {
    let end = match rng.up_to(9) {
        0 => Vec::new(),       // the counter comes to 2W
        1 => vec![rng.pick(&[142, 208, 215, 255], 64)], // not carried
        _ => cut_instruction(rng),
    };
    let mut code = Vec::new();
    for _ in 0..rng.up_to(7) {
        code.extend(rng.pick(&STATEMENTS, &[156]));
    }
    // an even number of bytes in all, and W at least 16
    while code.len() + end.len() < 2 || (code.len() + end.len()) % 2 == 1 {
        code.push(156);
    }
    let mut bytes = SMALL[..30].to_vec();
    let sex = if rng.chance(1, 2) { Sex::LeastFirst } else { Sex::MostFirst };
    let globals = rng.between(1, 3);
    for (word, value) in [(0, 11), (6, 1), (8, 2), (11, 1), (12, 14), (13, 30), (14, globals)] {
        put_word(&mut bytes, sex, word, value);
    }
    bytes.extend(code);
    bytes.extend(end);
    bytes
}

/// The number of one of three sessions.
fn some_session(rng: &mut Rng) -> u64 {
    rng.up_to(2)
}

fn some_turn(rng: &mut Rng) -> Call {
    Call::Turn { session: some_session(rng), k: rng.pick(&[1, 2, 3, 9, 60, 60], 60) }
}

/// A bench with such a segment loaded, the store going on after it, three
/// sessions open, and entries that run them into the end and close them.  In
/// half of the cases a session has faulted already, often with the place that
/// fault 1 had before the request.
pub fn bench_case(rng: &mut Rng) -> (World, Vec<Call>) {
    let bytes = running_out(rng);
    let lead = rng.pick(&[0usize, 2, 6], 0);
    let mut store = vec![7; lead];
    store.extend(&bytes);
    store.extend(vec![rng.pick(&[0, 1, 200], 0); rng.pick(&[0, 1, 2, 6], 0)]);
    let bench = bench::new_bench(2, 90).unwrap_or_else(|_| blank_bench());
    let mut start = World { bench, memory: vec![9; 90], store };
    let slot = rng.up_to(15);
    let load = Call::Load { slot, start: lead as u64, length: bytes.len() as u64 };
    let open = |rng: &mut Rng| Call::Open { slot, length: rng.between(16, 24) as u64 };
    for call in [load, open(rng), open(rng), open(rng)] {
        let _ = ask(&mut start, call);
    }
    if rng.chance(1, 2) {
        faulted_before(rng, &mut start);
    }
    let mut calls: Vec<Call> = (0..4).map(|_| some_turn(rng)).collect();
    calls.push(Call::Close { session: some_session(rng) });
    calls.push(open(rng));
    calls.extend([some_turn(rng), some_turn(rng)]);
    (start, calls)
}

/// One session has run into its fault; if that is 1, its record is as it was
/// made before the request, with the instruction as its place, or one byte on.
fn faulted_before(rng: &mut Rng, world: &mut World) {
    let session = some_session(rng);
    let _ = ask(world, Call::Turn { session, k: 200 });
    let Some(record) = world.bench.records.get_mut(session as usize) else { return };
    let counter = record.session.counter;
    if let Kind::Faulted { number: 1, place } = record.session.kind {
        let place = rng.pick(&[counter, counter, counter, (counter + 1).min(place)], place);
        record.session.kind = Kind::Faulted { number: 1, place };
    }
}
