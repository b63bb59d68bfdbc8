//! The lowest stack pointer reached (request 3 of 02), which a record keeps: its
//! limits in soundness, opening and closing, each instruction that moves SP or
//! leaves it, faults, forged returns, and turns split in several ways.

use super::benches::{close, empty, in_slot, open, rigged};
use super::marked::{opened, runs};
use super::pool::with_first;
use super::unlinked::swapped;
use super::{
    at_record, blank_bench, down_to, fill_words, hand_segment, ready, set_bytes, set_words, Rig,
    Story, Table,
};
use crate::machine::{Fault, Kind, Session};
use crate::world::{Call, World};

/// What is lost where a number is cut to 32 bits.
const WIDE: u64 = 1 << 32;
const FULL: Kind = Kind::Faulted { number: 4, place: 34 };

pub fn fill(t: &mut Table) {
    limits(t);
    limits_of_other_sizes(t);
    unsound_for_every_entry(t);
    unused_records(t);
    opening_gives_l(t);
    closing_gives_0(t);
    new_benches_have_0(t);
    for most_first in [false, true] {
        let mut of = Sexed { t, most_first };
        words_pushed(&mut of);
        words_popped(&mut of);
        words_replaced(&mut of);
        case_jumps(&mut of);
        calls(&mut of);
        calls_that_fault(&mut of);
        constants(&mut of);
        constants_that_fault(&mut of);
        full_stacks(&mut of);
        every_fault(&mut of);
        returns(&mut of);
        forged_returns(&mut of);
        the_return_that_finishes(&mut of);
        no_steps(&mut of);
        the_lowest_in_the_middle(&mut of);
        split_turns(&mut of);
        a_report_that_forges_its_mark(&mut of);
    }
    sessions_apart(t);
}

/// The table, and the byte sex of the segments that are made.
struct Sexed<'a> {
    t: &'a mut Table,
    most_first: bool,
}

impl Sexed<'_> {
    /// A step of the rig's session with SP and the lowest SP.
    fn at(&mut self, code: &[u8], sp: u64, low: u64) -> Rig<'_> {
        let rig = self.t.rig(code, &[]).in_sex(self.most_first).with_sp(sp).with_low(low);
        rig.noted(&format!(", SP {sp}, lowest {low}"))
    }

    /// The same on a stack.
    fn on(&mut self, code: &[u8], stack: &[u16], low: u64) -> Rig<'_> {
        let rig = self.t.rig(code, stack).in_sex(self.most_first).with_low(low);
        rig.noted(&format!(", lowest {low}"))
    }

    /// The hand segment with code for routine 1, and for routine 2 or 3 at its
    /// start.
    fn report(&self, code: &[u8], start: usize, called: &[u8]) -> Vec<u8> {
        let mut bytes = hand_segment(0);
        set_bytes(&mut bytes, 34, code);
        set_bytes(&mut bytes, start, called);
        if self.most_first {
            super::most_first(&mut bytes);
        }
        bytes
    }

    fn story(&mut self, name: &str, world: World) -> Story<'_> {
        let sex = if self.most_first { ", most byte first" } else { "" };
        self.t.story(&format!("{name}{sex}"), world)
    }
}

/// The step goes on, and the lowest SP is this.
fn lowest(rig: Rig, low: u64, session: Session) {
    rig.becomes(&format!("then {low}"), down_to(low, session));
}

// ---------------------------------------------------------------- soundness

/// The rigged bench, its session 1 (L = 30, 6+G = 8) with SP, the lowest SP and
/// a kind.
fn marked(sp: u64, low: u64, kind: Kind) -> World {
    let mut world = rigged();
    let session = &mut at_record(&mut world, 1).session;
    (session.sp, session.low, session.kind) = (sp, low, kind);
    world
}

fn limit(t: &mut Table, sp: u64, low: u64, kind: Kind, sound: bool) {
    let name = match kind {
        Kind::Ready => "ready",
        Kind::Finished => "finished",
        Kind::Faulted { .. } => "faulted",
    };
    let story = t.story(&format!("{name}, SP {sp}, lowest {low}: sound is {sound}"), marked(sp, low, kind));
    let story = story.sound(sound);
    if sound {
        return story.end();
    }
    story.refuses(Call::Turn { session: 1, k: 0 }, 11).refuses(Call::Close { session: 1 }, 11).end();
}

fn limits(t: &mut Table) {
    t.says(r#"02, request 3: "A sound bench now also has this mark in 6+G..SP.""#);
    for kind in [Kind::Ready, Kind::Finished, FULL] {
        // 6+G is 8, SP is 20, L is 30
        for low in [8, 9, 15, 19, 20] {
            limit(t, 20, low, kind, true);
        }
        for low in [0, 1, 7, 21, 29, 30, 31, WIDE - 1, WIDE, WIDE + 8, WIDE + 20, 1 << 63, u64::MAX] {
            limit(t, 20, low, kind, false);
        }
        // SP at 6+G: one number is left
        for (low, sound) in [(7, false), (8, true), (9, false), (30, false)] {
            limit(t, 8, low, kind, sound);
        }
        // SP at L
        for (low, sound) in [(7, false), (8, true), (29, true), (30, true), (31, false)] {
            limit(t, 30, low, kind, sound);
        }
        // a mark in 6+G..L does not make an SP outside sound
        for (sp, low) in [(7, 7), (31, 30), (31, 8), (WIDE + 20, 8), (u64::MAX, 8)] {
            limit(t, sp, low, kind, false);
        }
    }
}

fn limits_of_other_sizes(t: &mut Table) {
    t.says(r#"02, request 3: "in 6+G..SP"; "G is DATASIZE of its routine 1.""#);
    // session 0 on the small segment: G is 0, L is 20
    for (low, sound) in [(5, false), (6, true), (7, true), (12, true), (13, false), (20, false)] {
        let mut world = rigged();
        (at_record(&mut world, 0).session.sp, at_record(&mut world, 0).session.low) = (12, low);
        t.story(&format!("G = 0, SP 12, lowest {low}: sound is {sound}"), world).sound(sound).end();
    }
    // G rises beneath a session: 6+G is 20, then 21
    for (g, sound) in [(14, true), (15, false)] {
        let mut world = marked(25, 20, Kind::Ready);
        world.store[64] = g;
        t.story(&format!("G = {g}, SP 25, lowest 20: sound is {sound}"), world).sound(sound).end();
    }
    // G is routine 1's, also where the session is in another: DATASIZE of 2 is 3
    for (low, sound) in [(8, true), (9, true), (7, false)] {
        let mut world = marked(20, low, Kind::Ready);
        at_record(&mut world, 1).session.routine = 2;
        t.story(&format!("in routine 2, lowest {low}: sound is {sound}"), world).sound(sound).end();
    }
    // L of 32,768
    for (sp, low, sound) in [(32_768, 32_768, true), (32_768, 6, true), (32_767, 32_768, false), (32_768, 32_769, false)] {
        let mut world = empty(0, 32_768);
        in_slot(&mut world, 0, 0, 32);
        open(&mut world, 0, 0, 0, 32_768, 30);
        (at_record(&mut world, 0).session.sp, at_record(&mut world, 0).session.low) = (sp, low);
        t.story(&format!("L = 32,768, SP {sp}, lowest {low}: sound is {sound}"), world).sound(sound).end();
    }
}

fn unsound_for_every_entry(t: &mut Table) {
    t.says(r#"02, request 3; "11 bench not sound for the lent memory and store", first in every order"#);
    for low in [7, 21, u64::MAX] {
        for kind in [Kind::Ready, Kind::Finished, FULL] {
            // session 1 is unsound, whichever is asked
            t.story(&format!("lowest SP {low}, each entry"), marked(20, low, kind))
                .unsound_everywhere()
                .refuses(Call::Turn { session: 1, k: 1 }, 11)
                .refuses(Call::Close { session: 1 }, 11)
                .goes(Call::New { shared: 0, words: 5 }, 0, |world| {
                    world.bench = blank_bench();
                    world.bench.words = 5;
                })
                .end();
        }
    }
}

fn unused_records(t: &mut Table) {
    t.says(r#"02, request 3, of sessions: an unused record is not judged, and an opening sets all of it"#);
    for low in [0, 1, 16, 9_999, u64::MAX] {
        let mut world = rigged();
        at_record(&mut world, 2).session.low = low;
        t.story(&format!("an unused record with {low}"), world)
            .sound(true)
            .goes(Call::Open { slot: 2, length: 16 }, 2, |world| open(world, 2, 2, 54, 16, 30))
            .sound(true)
            .goes(Call::Close { session: 2 }, 0, |world| close(world, 2))
            .end();
        // one that stays unused keeps what it has
        let mut world = rigged();
        at_record(&mut world, 9).session.low = low;
        t.story(&format!("an unused record that keeps {low}"), world)
            .goes(Call::Open { slot: 2, length: 16 }, 2, |world| open(world, 2, 2, 54, 16, 30))
            .goes(Call::Turn { session: 0, k: 1 }, 1, |world| {
                at_record(world, 0).session = ready(19, 1, 31, 1);
                fill_words(&mut world.memory, 4 + 19, &[5]);
            })
            .goes(Call::Close { session: 1 }, 0, |world| close(world, 1))
            .end();
    }
}

// ------------------------------------------------------- opening and closing

fn opening_gives_l(t: &mut Table) {
    t.says(r#"02, request 3: "the lowest stack pointer reached since opening, L at the start""#);
    for length in [16, 17, 31, 300, 32_768] {
        let mut world = empty(3, 32_771);
        in_slot(&mut world, 4, 32, 128);
        t.story(&format!("opened with L = {length}"), world)
            .goes(Call::Open { slot: 4, length }, 0, |world| {
                open(world, 0, 4, 3, length, 34);
                at_record(world, 0).session.low = length;
            })
            .goes(Call::Turn { session: 0, k: 0 }, 0, |_| {})
            .sound(true)
            .end();
    }
    the_largest(t);
    // 6+G is L: the mark has one number only, and no word can be pushed
    let mut world = empty(0, 40);
    set_words(&mut world.store[32..160], &[(16, 14)]);
    set_bytes(&mut world.store, 32 + 34, &[156, 5]);
    in_slot(&mut world, 4, 32, 128);
    t.story("opened with L = 6+G", world)
        .goes(Call::Open { slot: 4, length: 20 }, 0, |world| open(world, 0, 4, 0, 20, 34))
        .goes(Call::Turn { session: 0, k: 9 }, 2, |world| {
            let full = Kind::Faulted { number: 4, place: 35 };
            at_record(world, 0).session = Session { kind: full, ..ready(20, 1, 35, 1) };
        })
        .sound(true)
        .end();
}

/// L = 32,768: NOP SLDC5 SRO 1 NOP, the mark at 32,768 and then at 32,767.
fn the_largest(t: &mut Table) {
    for code in [[156, 5, 165, 1, 156, 156], [156, 156, 5, 5, 162, 156]] {
        let mut bytes = hand_segment(0);
        set_bytes(&mut bytes, 34, &code);
        let nops = code.iter().take_while(|byte| **byte == 156).count() as u64;
        let at = 34 + nops;
        let story = t.story(&format!("L = 32,768, {code:?}"), opened(&bytes, 32_768, 34));
        let story = runs(story, nops, nops, down_to(32_768, ready(32_768, 1, at, 1)), &[]);
        let story = runs(story, 1, 1, down_to(32_767, ready(32_767, 1, at + 1, 1)), &[(32_767, &[5])]);
        if nops == 1 {
            let back = down_to(32_767, ready(32_768, 1, at + 3, 1));
            let story = runs(story, 1, 1, back, &[(6, &[5])]);
            runs(story, 1, 1, Session { counter: at + 4, ..back }, &[]).sound(true).end();
        } else {
            let deeper = down_to(32_766, ready(32_766, 1, at + 2, 1));
            let story = runs(story, 1, 1, deeper, &[(32_766, &[5])]);
            let back = down_to(32_766, ready(32_767, 1, at + 3, 1));
            runs(story, 1, 1, back, &[(32_767, &[10])]).sound(true).end();
        }
    }
}

fn closing_gives_0(t: &mut Table) {
    t.says(r#"02, request 3: "since opening"; a closed record is as an unused one, and the next opening starts anew"#);
    t.story("deep, closed, opened again", rigged())
        .goes(Call::Turn { session: 0, k: 2 }, 2, |world| {
            at_record(world, 0).session = down_to(18, ready(18, 1, 32, 1));
            fill_words(&mut world.memory, 4 + 18, &[7, 5]);
        })
        .goes(Call::Close { session: 0 }, 0, |world| {
            close(world, 0);
            at_record(world, 0).session.low = 0;
        })
        .goes(Call::Open { slot: 2, length: 17 }, 0, |world| open(world, 0, 2, 4, 17, 30))
        .goes(Call::Turn { session: 0, k: 1 }, 1, |world| {
            at_record(world, 0).session = down_to(16, ready(16, 1, 31, 1));
            fill_words(&mut world.memory, 4 + 16, &[5]);
        })
        .goes(Call::Close { session: 0 }, 0, |world| close(world, 0))
        .goes(Call::Open { slot: 15, length: 20 }, 0, |world| open(world, 0, 15, 4, 20, 34))
        .sound(true)
        .end();
    // of any kind, and with a mark anywhere
    for (low, kind) in [(8, Kind::Ready), (20, Kind::Finished), (13, FULL)] {
        t.story(&format!("closed at {low}"), marked(20, low, kind))
            .goes(Call::Close { session: 1 }, 0, |world| close(world, 1))
            .goes(Call::Open { slot: 15, length: 29 }, 1, |world| open(world, 1, 15, 24, 29, 34))
            .end();
    }
}

fn new_benches_have_0(t: &mut Table) {
    t.says(r#""A new bench has no slot loaded and no record used"; 02, request 3: its records have no mark"#);
    t.story("a new bench after deep sessions", marked(20, 9, Kind::Ready))
        .goes(Call::New { shared: 4, words: 100 }, 0, |world| {
            let mut bench = blank_bench();
            (bench.shared, bench.words) = (4, 100);
            world.bench = bench;
        })
        .goes(Call::Load { slot: 1, start: 0, length: 32 }, 0, |world| in_slot(world, 1, 0, 32))
        .goes(Call::Open { slot: 1, length: 20 }, 0, |world| open(world, 0, 1, 4, 20, 30))
        .end();
}

// -------------------------------------------------------------- instructions

/// Every form of instruction that pushes one word, and that word on the rig
/// with SP = 30.
const PUSHES: [(&[u8], u16); 21] = [
    (&[0], 0), (&[31], 31), (&[32], 1_025), (&[46], 1_039), (&[48], 1_006), (&[63], 1_021), (&[96], 25),
    (&[103], 32), (&[128, 9], 9), (&[129, 1, 1], 257), (&[130, 1], 57), (&[132, 1], 25),
    (&[133, 1], 1_006), (&[134, 1], 6), (&[135, 1], 1_025), (&[136, 1, 1], 17), (&[137, 1, 1], 1_017),
    (&[152], 0), (&[173, 1], 1_017), (&[174, 1], 1_035), (&[226], 1_030),
];

fn words_pushed(of: &mut Sexed) {
    of.t.says(r#"02, request 3: "the lowest stack pointer reached": a push from 30 gives 29, unless it was there before"#);
    for (code, word) in PUSHES {
        let after = ready(29, 20, 34 + code.len() as u64, 1);
        for (low, then) in [(30, 29), (29, 29), (28, 28)] {
            lowest(of.at(code, 30, low).writes(29, &[word]), then, after);
        }
    }
    // at the ends: from L, and down to 6+G
    lowest(of.at(&[5], 40, 40).writes(39, &[5]), 39, ready(39, 20, 35, 1));
    lowest(of.at(&[5], 9, 9).writes(8, &[5]), 8, ready(8, 20, 35, 1));
    lowest(of.at(&[5], 9, 8).writes(8, &[5]), 8, ready(8, 20, 35, 1));
}

/// Instructions that take more words than they give: code, stack with its top
/// first, the stack after, words besides, and the counter.
type Popping = (&'static [u8], &'static [u16], &'static [u16], &'static [(usize, u16)], u64);

const POPS: [Popping; 29] = [
    (&[104], &[7, 8], &[8], &[(25, 7)], 35), (&[111], &[7, 8], &[8], &[(32, 7)], 35), // SSTL
    (&[164, 2], &[7, 8], &[8], &[(26, 7)], 36), (&[165, 1], &[7, 8], &[8], &[(6, 7)], 36), // STL SRO
    (&[166, 1, 1], &[7, 8], &[8], &[(17, 7)], 37), // STR
    (&[196], &[7, 10, 3], &[3], &[(10, 7)], 35), (&[203], &[9, 1, 5, 3], &[5, 3], &[], 35), // STO CHK
    (&[140], &[3, 2, 9], &[6, 9], &[], 35), (&[141], &[3, 7, 9], &[2, 9], &[], 35), // MPI DVI
    (&[143], &[3, 7, 9], &[1, 9], &[], 35), (&[160], &[1, 2, 9], &[3, 9], &[], 35), // MODI LOR
    (&[161], &[3, 2, 9], &[2, 9], &[], 35), (&[162], &[3, 2, 9], &[5, 9], &[], 35), // LAND ADI
    (&[163], &[2, 3, 9], &[1, 9], &[], 35), (&[176], &[2, 2, 9], &[1, 9], &[], 35), // SBI EQUI
    (&[177], &[2, 2, 9], &[0, 9], &[], 35), (&[178], &[3, 2, 9], &[1, 9], &[], 35), // NEQI LEQI
    (&[179], &[3, 2, 9], &[0, 9], &[], 35), (&[180], &[3, 2, 9], &[1, 9], &[], 35), // GEQI LEUSW
    (&[181], &[3, 2, 9], &[0, 9], &[], 35), // GEUSW
    (&[212, 5], &[0, 8], &[8], &[], 41), (&[212, 5], &[1, 8], &[8], &[], 36), // FJP
    (&[213, 5, 0], &[0, 8], &[8], &[], 42), (&[213, 5, 0], &[1, 8], &[8], &[], 37), // FJPL
    (&[241, 5], &[1, 8], &[8], &[], 41), (&[241, 5], &[0, 8], &[8], &[], 36), // TJP
    (&[104], &[7], &[], &[(25, 7)], 35), (&[162], &[3, 2], &[5], &[], 35), (&[196], &[7, 10], &[], &[(10, 7)], 35),
];

fn words_popped(of: &mut Sexed) {
    of.t.says(r#"02, request 3: "the lowest [...] reached since opening": what raises SP does not raise it"#);
    for (code, stack, left, written, counter) in POPS {
        let before = 40 - stack.len() as u64;
        for low in [before, before - 1] {
            let mut rig = of.on(code, stack, low);
            rig.written.extend(written);
            let sp = 40 - left.len();
            lowest(rig.writes(sp, left), low, ready(sp as u64, 20, counter, 1));
        }
    }
}

fn words_replaced(of: &mut Sexed) {
    of.t.says(r#"02, request 3: "the lowest stack pointer reached": what is popped and pushed within a step does not count"#);
    let replaced: [(&[u8], &[u16], &[u16], u64); 14] = [
        (&[156], &[7], &[7], 35), (&[138, 5], &[7], &[7], 41), (&[139, 5, 0], &[7], &[7], 42), // NOP UJP JPL
        (&[189], &[7, 8], &[8, 7], 35), (&[224], &[65_535], &[1], 35), (&[225], &[1], &[65_535], 35), // SWAP ABI NGI
        (&[229], &[0], &[65_535], 35), (&[237], &[1], &[2], 35), (&[238], &[2], &[1], 35), // LNOT INCI DECI
        (&[120], &[5], &[1_005], 35), (&[127], &[10], &[1_017], 35), (&[230, 3], &[5], &[1_008], 36), // SIND IND
        (&[120], &[32_768], &[500], 35), (&[156], &[], &[], 35),
    ];
    for (code, stack, left, counter) in replaced {
        let sp = 40 - stack.len() as u64;
        for low in [sp, sp - 1] {
            lowest(of.on(code, stack, low).writes(sp as usize, left), low, ready(sp, 20, counter, 1));
        }
    }
}

fn case_jumps(of: &mut Sexed) {
    of.t.says(r#"02, request 3, with request 2's case jump: it pops, so it raises SP and not the mark"#);
    // XJP 1: W1 = W2 = 5, W3 = 2
    for (index, counter) in [(5, 38), (4, 36), (6, 36)] {
        for low in [38, 30] {
            let most_first = of.most_first;
            let table: Vec<u8> =
                [5u16, 5, 2].iter().flat_map(|w| if most_first { w.to_be_bytes() } else { w.to_le_bytes() }).collect();
            let rig = of.on(&[214, 1], &[index, 8], low).with_segment_bytes(114, &table);
            lowest(rig, low, ready(39, 20, counter, 1));
        }
    }
}

/// The calls on the rig: code before the routine's number, and MSSTAT.
const CALLS: [(&[u8], u16); 7] = [
    (&[144], 20), (&[145], 1), (&[146, 0], 20), (&[146, 1], 12), (&[146, 2], 30), (&[239], 12), (&[240], 30),
];

fn with_number(code: &[u8], number: u8) -> Vec<u8> {
    code.iter().copied().chain([number]).collect()
}

fn calls(of: &mut Sexed) {
    of.t.says(r#""The new M and SP are SP-5-DATASIZE"; 02, request 3: "the lowest stack pointer reached""#);
    // routine 1 has DATASIZE 2 and starts at 34, 2 has 3 and 82, 3 has 0 and 102
    for (call, parent) in CALLS {
        for (number, m, start) in [(1, 33, 34), (2, 32, 82), (3, 35, 102)] {
            let code = with_number(call, number);
            let mark = [parent, 20, 34 + code.len() as u16, 1, 1];
            // at SP; one above the new SP; at it; below it
            for (low, then) in [(40, m), (m + 1, m), (m, m), (m - 1, m - 1)] {
                if number != 3 && low != 40 && low != m - 1 {
                    continue;
                }
                let rig = of.at(&code, 40, low).writes(m as usize, &mark);
                lowest(rig, then, ready(m, m, start, u64::from(number)));
            }
        }
    }
    // down to 6+G: 16-5-3
    for (low, then) in [(16, 8), (9, 8), (8, 8)] {
        let rig = of.at(&[144, 2], 16, low).writes(8, &[20, 20, 36, 1, 1]);
        lowest(rig, then, ready(8, 8, 82, 2));
    }
}

fn calls_that_fault(of: &mut Sexed) {
    of.t.says(r#"02, request 3: "A step that faults doesn't move it.": calls with 4, 8, 9, 2"#);
    for (call, _) in CALLS {
        for low in [15, 9] {
            of.at(&with_number(call, 2), 15, low).faults(4); // by one word
        }
        of.at(&with_number(call, 2), 8, 8).faults(4);
        for number in [0, 4, 255] {
            of.at(&with_number(call, number), 40, 40).faults(8);
        }
        of.at(&with_number(call, 4), 8, 8).faults(8);
        // routine 3 unlinked, its entry word 14
        let unlinked = of.at(&with_number(call, 3), 30, 30).with_segment_bytes(28, &[0, 0]);
        unlinked.noted(", 3 unlinked").faults(8);
    }
    for call in [&[146, 1][..], &[146, 2], &[239], &[240]] {
        of.at(&with_number(call, 2), 40, 40).with_word(20, 0).faults(9);
        of.at(&with_number(call, 2), 40, 35).with_word(20, 36).faults(9);
    }
    of.at(&[146, 128, 3], 40, 40).faults(2);
}

/// Each word of the rig's pool from 57 on, two NOPs, in either byte sex.
const NOPS: u16 = 0x9C9C;

fn constants(of: &mut Sexed) {
    of.t.says(r#"02, request 3, with request 2's constant load: SP falls by all its words in one step"#);
    for count in [0u8, 1, 2, 7] {
        let words = vec![NOPS; usize::from(count)];
        let sp = 30 - u64::from(count);
        for (low, then) in [(30, sp), (sp + 1, sp), (sp, sp), (sp - 1, sp - 1)] {
            if low > 30 {
                continue;
            }
            let rig = of.at(&[131, 2, 1, count], 30, low).writes(sp as usize, &words);
            lowest(rig, then, ready(sp, 20, 38, 1));
        }
        // down to 6+G
        let rig = of.at(&[131, 2, 1, count], 8 + u64::from(count), 8 + u64::from(count));
        lowest(rig.writes(8, &words), 8, ready(8, 20, 38, 1));
    }
}

fn constants_that_fault(of: &mut Sexed) {
    of.t.says(r#"02, request 3: "A step that faults doesn't move it.": the constant load with 4, by one word and more, and with 6"#);
    for count in [1u8, 2, 7] {
        let room = 8 + u64::from(count);
        for (sp, low) in [(room - 1, room - 1), (room - 1, 8), (8, 8)] {
            of.at(&[131, 2, 1, count], sp, low).faults(4);
        }
    }
    // beyond W by one word, and far beyond; with no pool, of no words too
    for code in [[131, 2, 1, 8], [131, 2, 7, 2], [131, 2, 8, 1], [131, 0, 127, 255]] {
        of.at(&code, 30, 30).faults(6);
        of.at(&code, 30, 20).faults(6);
    }
    for count in [0, 1, 7] {
        of.at(&[131, 2, 1, count], 30, 30).with_segment_bytes(14, &[0, 0]).noted(", no pool").faults(6);
    }
}

// -------------------------------------------------------------------- faults

fn full_stacks(of: &mut Sexed) {
    of.t.says(r#"02, request 3: "A step that faults doesn't move it."; "4 SP after the step would lie below 6+G""#);
    for (code, _) in PUSHES {
        of.at(code, 8, 8).faults(4);
    }
}

/// Code that faults on the rig, its stack, and the fault.
const FAULTS: [(&[u8], &[u16], Fault); 31] = [
    (&[64], &[], 2), (&[255], &[7], 2), (&[137, 128, 1], &[], 2), (&[166, 200, 1], &[7], 2),
    (&[104], &[], 3), (&[162], &[7], 3), (&[203], &[7, 8], 3), (&[226], &[], 3), (&[196], &[7], 3), (&[212, 0], &[], 3),
    (&[137, 3, 1], &[7], 9), (&[166, 3, 1], &[7], 9), (&[136, 127, 1], &[7], 9), // word 30 is no link
    (&[144, 0], &[7], 8), (&[145, 4], &[7], 8), (&[239, 0], &[7], 8),
    (&[141], &[0, 5], 5), (&[143], &[0, 5], 5),
    (&[47], &[7], 6), (&[133, 35], &[7], 6), (&[132, 16], &[7], 6), (&[104 + 7], &[7], 6), (&[120], &[0], 6),
    (&[196], &[7, 40], 6), (&[130, 8], &[7], 6),
    (&[138, 0xF1], &[7], 7), (&[212, 0x80], &[0], 7), (&[213, 0, 0x80], &[0], 7), (&[241, 0x80], &[1], 7),
    (&[203], &[9, 1, 10], 10), (&[203], &[1, 9, 5], 10),
];

fn every_fault(of: &mut Sexed) {
    of.t.says(r#"02, request 3: "A step that faults doesn't move it."; "Only the session's kind changes.""#);
    for (code, stack, fault) in FAULTS {
        let sp = 40 - stack.len() as u64;
        for low in [sp, 8] {
            let rig = of.on(code, stack, low);
            // SSTL8 leaves the region if M is 30
            let rig = if code == [111] { rig.with_m(30) } else { rig };
            rig.faults(fault);
        }
    }
    // 1: no byte at 2W, and operands cut off there
    for low in [40, 8] {
        of.on(&[], &[], low).with_counter(128).faults(1);
        for code in [&[128][..], &[129, 1], &[144], &[131, 2], &[150], &[137, 0]] {
            let rig = of.t.rig_at(128 - code.len(), code, &[]).in_sex(of.most_first).with_low(low);
            rig.noted(&format!(", lowest {low}")).runs_out();
        }
    }
}

// ------------------------------------------------------------------- returns

/// RPU with M at a place and a mark there that leads to M = 12, 40, routine 3.
fn returning<'a>(of: &'a mut Sexed, m: u64, b: u8, sp: u64, low: u64) -> Rig<'a> {
    let rig = of.at(&[150, b], sp, low).with_m(m).with_mark(m as usize, [0, 12, 40, 1, 3]);
    rig.noted(&format!(", M {m}"))
}

fn returns(of: &mut Sexed) {
    of.t.says(r#""SP becomes M+5+B"; 02, request 3: a return that raises SP does not raise the lowest"#);
    for (b, sp) in [(0, 25), (3, 28), (15, 40)] {
        for low in [15, 14, 8] {
            lowest(returning(of, 20, b, 15, low), low, ready(sp, 12, 40, 3));
        }
        // an SP that stands at M, as after a call
        lowest(returning(of, 20, b, 20, 20), 20, ready(sp, 12, 40, 3));
    }
    // SP stays
    for low in [25, 24] {
        lowest(returning(of, 20, 0, 25, low), low, ready(25, 12, 40, 3));
    }
    // fault 9: SP above L, and MSDYN of 0
    returning(of, 20, 16, 15, 15).faults(9);
    returning(of, 20, 0, 15, 15).with_word(21, 0).faults(9);
}

fn forged_returns(of: &mut Sexed) {
    of.t.says(r#"02, request 3: "the lowest stack pointer reached"; M and a mark's words can be forged, and a return then lowers SP"#);
    // M = 5: SP becomes 10
    for (low, then) in [(30, 10), (11, 10), (10, 10), (9, 9), (8, 8)] {
        lowest(returning(of, 5, 0, 30, low), then, ready(10, 12, 40, 3));
    }
    // by one word: SP 30 becomes 29
    for (low, then) in [(30, 29), (29, 29), (28, 28)] {
        lowest(returning(of, 20, 4, 30, low), then, ready(29, 12, 40, 3));
    }
    // down to 6+G = 8; one word lower is fault 9
    for (low, then) in [(40, 8), (8, 8)] {
        lowest(returning(of, 3, 0, 40, low), then, ready(8, 12, 40, 3));
        returning(of, 2, 0, 40, low).faults(9);
    }
    lowest(returning(of, 2, 1, 40, 40), 8, ready(8, 12, 40, 3));
    // a bad mark at a low M
    for (at, bad) in [(6, 0), (6, 36), (7, 21), (8, 2), (9, 4)] {
        returning(of, 5, 0, 30, 30).with_word(at, bad).noted(&format!(", word {at} {bad}")).faults(9);
    }
}

fn the_return_that_finishes(of: &mut Sexed) {
    of.t.says(r#""With M = 1 the session finishes, and all registers and memory stay"; 02, request 3: the mark among them"#);
    // 1+5+B below the mark, at it, between it and SP, at SP, above
    for b in [0, 3, 14, 15, 19, 24, 25, 127] {
        for low in [30, 20] {
            of.at(&[150, b], 30, low).with_m(1).finishes();
        }
    }
    of.at(&[150, 0], 8, 8).with_m(1).finishes();
    of.at(&[150, 0xFF, 0xFF], 40, 40).with_m(1).finishes();
}

// --------------------------------------------------------------------- turns

fn no_steps(of: &mut Sexed) {
    of.t.says(r#""k = 0 and a session not ready give 0."; 02, request 3: no step, no other mark"#);
    let bytes = of.report(&[5, 5, 5, 150, 0], 82, &[]);
    for (sp, low) in [(40, 40), (40, 12), (30, 30), (30, 8)] {
        for kind in [Kind::Ready, Kind::Finished, FULL] {
            let mut world = opened(&bytes, 40, 34);
            at_record(&mut world, 0).session = Session { kind, ..down_to(low, ready(sp, 1, 34, 1)) };
            let story = of.story(&format!("SP {sp}, lowest {low}, {kind:?}: no step"), world);
            let story = story.goes(Call::Turn { session: 0, k: 0 }, 0, |_| {});
            if kind == Kind::Ready {
                story.end();
            } else {
                story.goes(Call::Turn { session: 0, k: 65_535 }, 0, |_| {}).end();
            }
        }
    }
}

fn the_lowest_in_the_middle(of: &mut Sexed) {
    of.t.says(r#"02, request 3: "the lowest stack pointer reached since opening", also within a turn that ends higher"#);
    // three words, added up and stored: SP 40, 37, 40
    let sum = of.report(&[3, 4, 5, 162, 162, 165, 1], 82, &[]);
    let story = of.story("three words down and up in one turn", opened(&sum, 40, 34));
    let words: [(usize, &[u16]); 2] = [(37, &[5, 9, 12]), (6, &[12])];
    runs(story, 6, 6, down_to(37, ready(40, 1, 41, 1)), &words).sound(true).end();
    // SLDC5 CPL 2, there SLDL4 SRO 1 RPU 4: SP 40, 39, 31, 30, 31, 40
    let call = of.report(&[5, 144, 2], 82, &[35, 165, 1, 150, 4]);
    let story = of.story("a call and its return in one turn", opened(&call, 40, 34));
    let words: [(usize, &[u16]); 3] = [(39, &[5]), (30, &[5, 1, 1, 37, 1, 1]), (6, &[5])];
    runs(story, 5, 5, down_to(30, ready(40, 1, 37, 1)), &words).sound(true).end();
    // the same up to the return that finishes, SP = L
    let end = of.report(&[5, 144, 2, 150, 0], 82, &[35, 165, 1, 150, 4]);
    let story = of.story("a call, its return, and the end in one turn", opened(&end, 40, 34));
    let finished = Session { kind: Kind::Finished, ..down_to(30, ready(40, 1, 37, 1)) };
    runs(story, 100, 6, finished, &words).end();
    // and up to a fault: STL's address lies outside
    let fault = of.report(&[3, 4, 162, 164, 0xFF, 0xFF], 82, &[]);
    let story = of.story("down, up and a fault in one turn", opened(&fault, 40, 34));
    let stopped = Session { kind: Kind::Faulted { number: 6, place: 37 }, ..down_to(38, ready(39, 1, 37, 1)) };
    runs(story, 100, 4, stopped, &[(38, &[4, 7])]).end();
    constants_in_the_middle(of);
    below_what_was_before(of);
}

/// LDC of three words, then three stores: SP 40, 37, 40.
fn constants_in_the_middle(of: &mut Sexed) {
    let mut bytes = with_first(56, 0);
    set_bytes(&mut bytes, 34, &[131, 2, 1, 3, 165, 1, 165, 1, 165, 2]);
    if of.most_first {
        super::most_first(&mut bytes);
        bytes = swapped(&bytes, [56]);
    }
    let story = of.story("a constant load and three stores in one turn", opened(&bytes, 40, 34));
    let words: [(usize, &[u16]); 2] = [(37, &[NOPS, NOPS, NOPS]), (6, &[NOPS, NOPS])];
    runs(story, 4, 4, down_to(37, ready(40, 1, 44, 1)), &words).end();
}

/// A turn whose pushes stay above the mark, and one that goes below it.
fn below_what_was_before(of: &mut Sexed) {
    // SLDC1 SLDC2 ADI SLDC3 ADI SRO 1, then SLDC1 SLDC2 SLDC3
    let bytes = of.report(&[1, 2, 162, 3, 162, 165, 1, 1, 2, 3], 82, &[]);
    let mut world = opened(&bytes, 40, 34);
    at_record(&mut world, 0).session.low = 38;
    let story = of.story("pushes after pops, the mark at 38", world);
    let story = runs(story, 2, 2, down_to(38, ready(38, 1, 36, 1)), &[(38, &[2, 1])]);
    let story = runs(story, 1, 1, down_to(38, ready(39, 1, 37, 1)), &[(39, &[3])]);
    let story = runs(story, 1, 1, down_to(38, ready(38, 1, 38, 1)), &[(38, &[3])]);
    let story = runs(story, 2, 2, down_to(38, ready(40, 1, 41, 1)), &[(39, &[6]), (6, &[6])]);
    let story = runs(story, 2, 2, down_to(38, ready(38, 1, 43, 1)), &[(38, &[2, 1])]);
    runs(story, 1, 1, down_to(37, ready(37, 1, 44, 1)), &[(37, &[3])]).end();
}

fn split_turns(of: &mut Sexed) {
    of.t.says(r#""A turn of k steps"; 02, request 3: the mark is that of the steps, however they are split into turns"#);
    let bytes = of.report(&[5, 144, 2, 7, 165, 2], 82, &[35, 165, 1, 150, 4]);
    // the session and the lowest SP after each of seven steps, and what it wrote
    let steps: [(Session, u64, &[(usize, &[u16])]); 7] = [
        (ready(39, 1, 35, 1), 39, &[(39, &[5])]),
        (ready(31, 31, 82, 2), 31, &[(31, &[1, 1, 37, 1, 1])]),
        (ready(30, 31, 83, 2), 30, &[(30, &[5])]),
        (ready(31, 31, 85, 2), 30, &[(6, &[5])]),
        (ready(40, 1, 37, 1), 30, &[]),
        (ready(39, 1, 38, 1), 30, &[(39, &[7])]),
        (ready(40, 1, 40, 1), 30, &[(7, &[7])]),
    ];
    for split in [&[1, 1, 1, 1, 1, 1, 1][..], &[7], &[2, 5], &[3, 4], &[4, 3], &[1, 0, 6], &[5, 0, 2]] {
        let mut story = of.story(&format!("seven steps as {split:?}"), opened(&bytes, 40, 34));
        let mut done = 0;
        for k in split {
            let taken = &steps[done..done + k];
            done += k;
            let words: Vec<_> = taken.iter().flat_map(|(_, _, words)| words.iter().copied()).collect();
            story = match taken.last() {
                Some((session, low, _)) => {
                    runs(story, *k as u64, *k as u64, down_to(*low, *session), &words)
                }
                None => story.goes(Call::Turn { session: 0, k: 0 }, 0, |_| {}),
            };
        }
        story.end();
    }
}

/// Words 13 to 16 become a mark at 12 that leads to 60; routine 3 puts 12 for
/// its own MSDYN; the return after its own then lowers SP from 40 to 17.
fn a_report_that_forges_its_mark(of: &mut Sexed) {
    of.t.says(r#"02, request 3, and 01 "a report can overwrite its own mark": a run whose lowest SP is that of a return"#);
    let bytes = of.report(
        &[13, 1, 196, 14, 128, 60, 196, 15, 1, 196, 16, 1, 196, 144, 3, 150, 0],
        102,
        &[132, 0, 3, 163, 12, 196, 150, 0],
    );
    let called: (usize, &[u16]) = (35, &[1, 1, 49, 1, 1]);
    let story = of.story("a forged mark, turn by turn", opened(&bytes, 40, 34));
    let stored: [(usize, &[u16]); 2] = [(13, &[1, 60, 1, 1]), (38, &[1, 16])];
    let story = runs(story, 12, 12, down_to(38, ready(40, 1, 47, 1)), &stored);
    let story = runs(story, 1, 1, down_to(35, ready(35, 35, 102, 3)), &[called]);
    let forged: [(usize, &[u16]); 2] = [(33, &[12, 36]), (36, &[12])];
    let story = runs(story, 5, 5, down_to(33, ready(35, 35, 108, 3)), &forged);
    let story = runs(story, 1, 1, down_to(33, ready(40, 12, 49, 1)), &[]);
    let story = runs(story, 1, 1, down_to(17, ready(17, 1, 60, 1)), &[]);
    runs(story, 1, 1, down_to(17, ready(17, 1, 61, 1)), &[]).sound(true).end();
    let story = of.story("a forged mark in one turn", opened(&bytes, 40, 34));
    let all: [(usize, &[u16]); 4] = [stored[0], called, forged[0], forged[1]];
    runs(story, 21, 21, down_to(17, ready(17, 1, 61, 1)), &all).sound(true).end();
}

fn sessions_apart(t: &mut Table) {
    t.says(r#"02, request 3, "The session record shall keep": each its own; a turn moves no other's"#);
    let small = |world: &mut World, number: usize, base: usize, sp: u64, low: u64| {
        let length = world.bench.records[number].length;
        at_record(world, number).session = down_to(low, ready(sp, 1, 30 + length - sp, 1));
        let pushed: &[u16] = if length - sp == 1 { &[5] } else { &[7, 5] };
        fill_words(&mut world.memory, base + sp as usize, pushed);
    };
    let mut world = empty(2, 80);
    in_slot(&mut world, 0, 0, 32);
    for (number, base) in [(0, 2), (3, 22), (15, 42)] {
        open(&mut world, number, 0, base, 20, 30);
    }
    at_record(&mut world, 3).session.low = 8;
    let turn = |session, k| Call::Turn { session, k };
    t.story("three sessions on one segment, turn by turn", world)
        .goes(turn(15, 1), 1, |world| small(world, 15, 42, 19, 19))
        .goes(turn(3, 2), 2, |world| small(world, 3, 22, 18, 8))
        .goes(turn(0, 2), 2, |world| small(world, 0, 2, 18, 18))
        .goes(turn(15, 0), 0, |_| {})
        .goes(turn(15, 1), 1, |world| small(world, 15, 42, 18, 18))
        .goes(Call::Close { session: 3 }, 0, |world| close(world, 3))
        .goes(Call::Open { slot: 0, length: 17 }, 1, |world| open(world, 1, 0, 22, 17, 30))
        .goes(turn(1, 1), 1, |world| small(world, 1, 22, 16, 16))
        .sound(true)
        .end();
    // refusals move none
    t.story("refusals", marked(20, 9, Kind::Ready))
        .refuses(turn(1, 65_536), 16)
        .refuses(turn(7, 1), 12)
        .refuses(Call::Open { slot: 15, length: 15 }, 13)
        .refuses(Call::Open { slot: 15, length: 900 }, 15)
        .refuses(Call::Load { slot: 15, start: 0, length: 32 }, 12)
        .end();
}
