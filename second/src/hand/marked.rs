//! "Marked cases: (a) to (l)", the small run, and "Mistakes already made
//! here", as far as they are requests.

use super::{
    at_record, down_to, fill_words, hand_segment, most_first, ready, set_bytes, set_words, Story, Table,
};
use crate::bench::{Record, Slot, Window};
use crate::generate::SMALL;
use crate::machine::{Kind, Session};
use crate::world::{blank_bench, Call, World, UNWRITTEN};

/// The turned bytes of the small segment, as 01 has them.
const TURNED: [u8; 32] = [
    0x00, 0x0B, 0x00, 0x00, 0x50, 0x4F, 0x4E, 0x44, 0x20, 0x20, 0x20, 0x20, 0x00, 0x01, 0x00, 0x00,
    0x00, 0x02, 0x00, 0x00, 0x00, 0x00, 0x00, 0x01, 0x00, 0x0E, 0x00, 0x1E, 0x00, 0x00, 0x05, 0x07,
];

pub fn fill(t: &mut Table) {
    a_to_d(t);
    e(t);
    f_to_j(t);
    the_small_run(t);
    its_turned_bytes(t);
    where_code_starts(t);
    name_and_w_operand(t);
    operands_stay(t);
    its_own_mark(t);
    a_cleared_region(t);
    a_call_and_its_return(t);
}

/// The small segment, from byte 30 on with other code, then NOPs to W = 21.
pub fn small_with(code: &[u8]) -> Vec<u8> {
    let mut bytes = SMALL.to_vec();
    bytes.resize(42, 156);
    set_bytes(&mut bytes, 30, &[156, 156]);
    set_bytes(&mut bytes, 30, code);
    bytes
}

/// S = 2 words of 9, one session of a segment at word 2, all its words 0, then
/// 2 free words of 9; SP = L, M = 1.
pub fn opened(bytes: &[u8], length: u64, start: u64) -> World {
    let mut bench = blank_bench();
    (bench.shared, bench.words) = (2, length + 4);
    bench.slots[0] = Slot { loaded: true, start: 0, length: bytes.len() as u64 };
    let (session, window) = (ready(length, 1, start, 1), Window::all(2));
    bench.records[0] = Record { open: true, slot: 0, base: 2, length, window, session };
    let mut memory = vec![9; length as usize + 4];
    fill_words(&mut memory, 2, &vec![0; length as usize]);
    World { bench, memory, store: bytes.to_vec() }
}

/// Steps of session 0: the session after them, and words of its region.
pub fn runs<'a>(story: Story<'a>, k: u64, done: u64, session: Session, words: &[(usize, &[u16])]) -> Story<'a> {
    story.goes(Call::Turn { session: 0, k }, done, |world| {
        at_record(world, 0).session = session;
        for (at, words) in words {
            fill_words(&mut world.memory, 2 + at, words);
        }
    })
}

pub fn faulted(session: Session, number: u8) -> Session {
    Session { kind: Kind::Faulted { number, place: session.counter }, ..session }
}

/// Fault 1 at the first byte that could not be fetched.
pub fn ran_out(session: Session, place: u64) -> Session {
    Session { kind: Kind::Faulted { number: 1, place }, ..session }
}

/// LAO B pushes 5+B: in a region large enough it shows B itself.
fn a_to_d(t: &mut Table) {
    t.says(r#""(a) B from 7F is 127; (b) 80 7F also 127, two bytes; (c) 80 80 is 128; (d) FF FF is 32,767""#);
    let good: [(&str, &[u8], u16); 3] = [
        ("(a)", &[134, 0x7F], 132), ("(b)", &[134, 0x80, 0x7F], 132), ("(c)", &[134, 0x80, 0x80], 133),
    ];
    for (name, code, word) in good {
        let after = ready(32_767, 1, 30 + code.len() as u64, 1);
        let story = t.story(name, opened(&small_with(code), 32_768, 30));
        runs(story, 1, 1, after, &[(32_767, &[word])]).end();
    }
    // 5+32,767 lies outside any region
    let code = [134, 0xFF, 0xFF];
    let story = t.story("(d) by LAO", opened(&small_with(&code), 32_768, 30));
    runs(story, 1, 1, faulted(ready(32_768, 1, 30, 1), 6), &[]).end();
    // but 1 indexed by 32,767 is shared word 0
    let code = [1, 230, 0xFF, 0xFF];
    let story = t.story("(d) by IND", opened(&small_with(&code), 16, 30));
    runs(story, 2, 2, ready(15, 1, 34, 1), &[(15, &[9])]).end();
}

/// LDL with a B from 80 as the segment's last two bytes, 2W = 32.
fn e(t: &mut Table) {
    t.says(r#""(e) B from 80 at the segment's end, fault 1"; 02, request 8: "Case (e) gains its place: 2W.""#);
    let end = ran_out(ready(16, 1, 30, 1), 32);
    for (name, mut bytes) in [("(e)", SMALL), ("(e) of the turned bytes", TURNED)] {
        set_bytes(&mut bytes, 30, &[135, 0x80]);
        let story = t.story(name, opened(&bytes, 16, 30));
        let story = runs(story, 5, 1, end, &[]);
        runs(story, 5, 0, end, &[]).end();
    }
}

fn f_to_j(t: &mut Table) {
    // code, steps, SP after them and the words from there to 15
    let lines: [(&str, &'static str, &[u8], u64, &[u16]); 7] = [
        ("(f)", r#""(f) W from 34 12 is 4,660""#, &[129, 0x34, 0x12], 1, &[4_660]),
        ("(g)", r#""(g) 32,767+1 is -32,768""#, &[129, 0xFF, 0x7F, 1, 162], 3, &[1, 32_768]),
        ("(h)", r#""(h) 300 times 300 is 24,464""#, &[129, 0x2C, 0x01, 129, 0x2C, 0x01, 140], 3, &[300, 24_464]),
        ("(i)", r#""(i) -7 by 2 is -3, remainder -1""#, &[7, 225, 2, 141], 4, &[2, 65_533]),
        ("(i) remainder", r#""(i) -7 by 2 is -3, remainder -1""#, &[7, 225, 2, 143], 4, &[2, 65_535]),
        ("(j)", r#""(j) -32,768 by -1 is -32,768, remainder 0""#, &[129, 0x00, 0x80, 1, 225, 141], 4, &[65_535, 32_768]),
        ("(j) remainder", r#""(j) -32,768 by -1 is -32,768, remainder 0""#, &[129, 0x00, 0x80, 1, 225, 143], 4, &[65_535, 0]),
    ];
    for (name, sentence, code, k, words) in lines {
        t.says(sentence);
        let story = t.story(name, opened(&small_with(code), 16, 30));
        let after = ready(15, 1, 30 + code.len() as u64, 1);
        let low = 16 - words.len();
        // a word popped keeps what it held
        runs(story, k, k, down_to(low as u64, after), &[(low, words)]).end();
    }
}

fn the_small_run(t: &mut Table) {
    t.says(r#""(k) the small run": "after two steps words 15 and 14 hold 5 and 7 and SP is 14. A turn of 9 returns 3, fault 1 at place 32.""#);
    let end = faulted(ready(14, 1, 32, 1), 1);
    let story = t.story("(k) two steps, then the rest", opened(&SMALL, 16, 30));
    let story = runs(story, 2, 2, ready(14, 1, 32, 1), &[(14, &[7, 5])]);
    runs(story, 9, 1, end, &[]).end();
    let story = t.story("(k) a turn of 9", opened(&SMALL, 16, 30));
    let story = runs(story, 9, 3, end, &[(14, &[7, 5])]);
    runs(story, 9, 0, end, &[]).end();
    let story = t.story("(k) of the turned bytes", opened(&TURNED, 16, 30));
    runs(story, 9, 3, end, &[(14, &[7, 5])]).end();
}

fn its_turned_bytes(t: &mut Table) {
    t.says(r#""(l) its turned bytes""#);
    t.turned("(l)", &SMALL, &TURNED, 0);
    let mut longer = TURNED.to_vec();
    longer.push(UNWRITTEN);
    t.turned("(l) into 33 bytes", &SMALL, &longer, 0);
    t.turned("(l) and back", &TURNED, &SMALL, 0);
}

fn where_code_starts(t: &mut Table) {
    t.says(r#"a mistake: "Starting code after EXITIC by adding two words to the entry.""#);
    // routine 1's entry is 16: 2(16+1) is 34, not 36
    let bytes = hand_segment(0);
    let mut start = opened(&bytes, 16, 34);
    let record = start.bench.records[0];
    start.bench.records[0] = Record::UNUSED;
    start.memory.fill(9);
    t.story("opening starts at 34", start)
        .goes(Call::Open { slot: 0, length: 16 }, 0, |world| {
            *at_record(world, 0) = record;
            fill_words(&mut world.memory, 2, &[0; 16]);
        })
        .end();
}

fn name_and_w_operand(t: &mut Table) {
    t.says(r#"a mistake: "Swapping the name, or a W operand, of a most-first segment.""#);
    let mut most_first = super::hand_most_first();
    set_bytes(&mut most_first, 34, &[129, 0x34, 0x12]);
    let mut least_first = hand_segment(0);
    set_bytes(&mut least_first, 34, &[129, 0x34, 0x12]);
    t.turned("turned most first", &least_first, &most_first, 0);
    t.turned("turned least first", &most_first, &least_first, 0);
    let story = t.story("LDCI of a most-first segment", opened(&most_first, 16, 34));
    runs(story, 1, 1, ready(15, 1, 37, 1), &[(15, &[4_660])]).end();
}

fn operands_stay(t: &mut Table) {
    t.says(r#"a mistake: "Leaving operands popped when a fault is found.""#);
    t.rig(&[141], &[0, 5, 6]).faults(5);
    t.rig(&[143], &[0, 5, 6]).faults(5);
    t.rig(&[196], &[7, 0]).faults(6);
    t.rig(&[203], &[1, 2, 3]).faults(10);
    t.rig(&[212, 0x80], &[0]).faults(7);
    t.rig(&[120], &[0]).faults(6);
}

fn its_own_mark(t: &mut Table) {
    t.says(r#"a mistake: "Trusting MSDYN on return; a report can overwrite its own mark.""#);
    // CPL 3; routine 3 stores 36 (L-4) in its own MSDYN: LLA 0 is word M+4,
    // less 3 is M+1; then it returns.
    let mut bytes = hand_segment(0);
    set_bytes(&mut bytes, 34, &[144, 3]);
    set_bytes(&mut bytes, 102, &[132, 0, 3, 163, 128, 36, 196, 150, 0]);
    let story = t.story("MSDYN overwritten", opened(&bytes, 40, 34));
    let after = faulted(down_to(33, ready(35, 35, 109, 3)), 9);
    // the mark at 35, and what was pushed below it: 36, then M+1 (and a 3 before)
    runs(story, 50, 7, after, &[(35, &[1, 36, 36, 1, 1]), (33, &[36, 36])]).end();
}

fn a_cleared_region(t: &mut Table) {
    t.says(r#"a mistake: "Opening a region without clearing it."; "sets every word of the region to zero""#);
    let mut start = opened(&SMALL, 20, 30);
    let record = start.bench.records[0];
    start.bench.records[0] = Record::UNUSED;
    start.memory.fill(65_535);
    t.story("opening clears, closing clears", start)
        .goes(Call::Open { slot: 0, length: 20 }, 0, |world| {
            *at_record(world, 0) = record;
            fill_words(&mut world.memory, 2, &[0; 20]);
        })
        .goes(Call::Turn { session: 0, k: 2 }, 2, |world| {
            at_record(world, 0).session = ready(18, 1, 32, 1);
            fill_words(&mut world.memory, 2 + 18, &[7, 5]);
        })
        .goes(Call::Close { session: 0 }, 0, |world| {
            *at_record(world, 0) = Record::UNUSED;
            fill_words(&mut world.memory, 2, &[0; 20]);
        })
        .end();
}

fn a_call_and_its_return(t: &mut Table) {
    t.says(r#""Locals keep what their words held."; "A return with B drops the mark and B words above it""#);
    // routine 1: SLDC5 CPL 2; routine 2: SLDL4 (offset 4 is the word above its
    // 3 locals: the parameter), SRO 1, RPU 4 (3 locals and the parameter)
    let mut bytes = hand_segment(0);
    set_bytes(&mut bytes, 34, &[5, 144, 2]);
    set_bytes(&mut bytes, 82, &[35, 165, 1, 150, 4]);
    let story = t.story("a call with a parameter", opened(&bytes, 40, 34));
    let words: [(usize, &[u16]); 4] = [
        (39, &[5]),                  // the parameter
        (31, &[1, 1, 37, 1, 1]),     // the mark: SP 39, less 5, less 3
        (30, &[5]),                  // what SLDL4 pushed
        (6, &[5]),                   // global 1
    ];
    runs(story, 5, 5, down_to(30, ready(40, 1, 37, 1)), &words).end();
    // a most-first one calls alike
    let mut turned = bytes.clone();
    most_first(&mut turned);
    let story = t.story("the same most byte first", opened(&turned, 40, 34));
    runs(story, 5, 5, down_to(30, ready(40, 1, 37, 1)), &words).end();
    let story = t.story("step by step", opened(&bytes, 40, 34));
    let story = runs(story, 1, 1, ready(39, 1, 35, 1), &[(39, &[5])]);
    let story = runs(story, 1, 1, ready(31, 31, 82, 2), &[(31, &[1, 1, 37, 1, 1])]);
    let story = runs(story, 1, 1, ready(30, 31, 83, 2), &[(30, &[5])]);
    let story = runs(story, 1, 1, ready(31, 31, 85, 2), &[(6, &[5])]);
    runs(story, 1, 1, ready(40, 1, 37, 1), &[]).end();
    // 300 locals: CPL 2, RPU 300 (81 2C); M is 400-5-300
    let mut bytes = hand_segment(0);
    set_words(&mut bytes, &[(40, 300)]);
    set_bytes(&mut bytes, 34, &[144, 2]);
    set_bytes(&mut bytes, 82, &[150, 0x81, 0x2C]);
    let story = t.story("300 locals", opened(&bytes, 400, 34));
    let story = runs(story, 1, 1, ready(95, 95, 82, 2), &[(95, &[1, 1, 36, 1, 1])]);
    runs(story, 1, 1, ready(400, 1, 36, 1), &[]).end();
}
