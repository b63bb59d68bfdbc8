//! A seeded generator of segments, sessions and benches near their limits.
//! Nothing here decides what is right; it only makes inputs, and lists which
//! outcomes document 01 makes possible (`possible_faults`,
//! `possible_refusals`) so that a missing one is seen.  `steps` makes single
//! steps of them, `set` the cases that are written.

use crate::bench::{self, Bench, Record, Slot};
use crate::cut::possible_cuts;
use crate::depth;
use crate::damage::{damage, DAMAGES, LARGE};
use crate::machine::{self, Form, Kind, Op, Session};
use crate::pool::{self, Pool};
use crate::segment::{Segment, Sex};
use crate::unlinked::{self, Entries};
use crate::window;
use crate::world::{ask, blank_bench, Call, World};

// ---------------------------------------------------------------- randomness

/// splitmix64: the same seed gives the same cases everywhere.
#[derive(Clone, Debug)]
pub struct Rng(pub u64);

impl Rng {
    pub fn next(&mut self) -> u64 {
        self.0 = self.0.wrapping_add(0x9E37_79B9_7F4A_7C15);
        let mut z = self.0;
        z = (z ^ (z >> 30)).wrapping_mul(0xBF58_476D_1CE4_E5B9);
        z = (z ^ (z >> 27)).wrapping_mul(0x94D0_49BB_1331_11EB);
        z ^ (z >> 31)
    }

    /// 0..=most
    pub fn up_to(&mut self, most: u64) -> u64 {
        match most.checked_add(1) {
            Some(count) => self.next() % count,
            None => self.next(),
        }
    }

    /// low..=high (low if the range is empty)
    pub fn between(&mut self, low: i64, high: i64) -> i64 {
        if high <= low {
            return low;
        }
        low + self.up_to((high - low) as u64) as i64
    }

    /// True `times` out of `of`.
    pub fn chance(&mut self, times: u64, of: u64) -> bool {
        self.up_to(of.saturating_sub(1)) < times
    }

    pub fn pick<T: Copy>(&mut self, from: &[T], otherwise: T) -> T {
        let index = self.up_to((from.len() as u64).saturating_sub(1)) as usize;
        from.get(index).copied().unwrap_or(otherwise)
    }

    /// One of the numbers that lie in low..=high, or a random one there.
    pub fn pick_in(&mut self, from: &[i64], low: i64, high: i64) -> i64 {
        let fit: Vec<i64> = from.iter().copied().filter(|x| (low..=high).contains(x)).collect();
        let random = self.between(low, high);
        if self.chance(1, 8) {
            return random;
        }
        self.pick(&fit, random)
    }
}

// -------------------------------------------------------------------- cases

/// A segment to judge and to turn into an output of some length.
#[derive(Clone, Debug, PartialEq, Eq)]
pub struct SegmentCase {
    pub bytes: Vec<u8>,
    pub output_length: usize,
}

/// A session on its region, to be run for k steps (1 for a single step); the
/// shared words are those of its window.
#[derive(Clone, Debug, PartialEq, Eq)]
pub struct RunCase {
    pub segment: Vec<u8>,
    pub shared: Vec<u16>,
    pub region: Vec<u16>,
    pub session: Session,
    pub k: u64,
}

/// Entries one after another on one bench.
#[derive(Clone, Debug, PartialEq, Eq)]
pub struct SequenceCase {
    pub start: World,
    pub calls: Vec<Call>,
}

// ----------------------------------------------------------------- segments

/// The small segment of document 01.
pub const SMALL: [u8; 32] = [
    0x0B, 0x00, 0x00, 0x00, 0x50, 0x4F, 0x4E, 0x44, 0x20, 0x20, 0x20, 0x20, 0x01, 0x00, 0x00, 0x00,
    0x02, 0x00, 0x00, 0x00, 0x00, 0x00, 0x01, 0x00, 0x0E, 0x00, 0x1E, 0x00, 0x00, 0x00, 0x05, 0x07,
];

/// Write a word in a sex; nothing outside the bytes.
pub fn put_word(bytes: &mut [u8], sex: Sex, number: i64, value: i64) {
    let pair = match sex {
        Sex::LeastFirst => (value as u16).to_le_bytes(),
        Sex::MostFirst => (value as u16).to_be_bytes(),
    };
    let Ok(at) = usize::try_from(2 * number) else { return };
    if let Some(place) = bytes.get_mut(at..at + 2) {
        place.copy_from_slice(&pair);
    }
}

/// What a drafted segment should be like.
#[derive(Clone, Copy, Debug)]
pub struct Wish {
    pub least_words: i64,
    pub most_words: i64,
    pub most_routines: i64,
    pub most_data: i64,
    /// Fill the code with instructions (else with bytes of no meaning, mostly
    /// all alike).
    pub program: bool,
    /// How often of 12 some routines are unlinked.
    pub unlinked: u64,
    /// How often of 12 there is a constant pool.
    pub pools: u64,
}

pub const ORDINARY: Wish = Wish {
    least_words: 16,
    most_words: 60,
    most_routines: 5,
    most_data: 9,
    program: true,
    unlinked: 5,
    pools: 6,
};

/// Room for statements, so that sessions do something.
pub const LIVELY: Wish =
    Wish { least_words: 34, most_words: 90, most_routines: 3, unlinked: 3, ..ORDINARY };

/// The words of a drafted segment: W, where its words but the pool's end, D,
/// and the routines' entries.
struct Plan {
    words: i64,
    pool: Pool,
    dictionary: i64,
    entries: Vec<i64>,
    /// Those that are no code.
    used: Vec<i64>,
}

fn plan(rng: &mut Rng, wish: Wish) -> Plan {
    let words = rng.pick_in(&[16, 17, 18, 24, 40, wish.most_words], wish.least_words, wish.most_words);
    let pool = pool::drafted(rng, wish.pools, words, wish.program);
    let rest = pool.rest(words);
    let most_routines = ((rest - 12) / 3).clamp(1, wish.most_routines);
    let count = rng.between(1, most_routines);
    let last_start = rest - 1 - count;
    let dictionary = rng.pick_in(&[11, 11, last_start], 11, last_start);
    let mut used: Vec<i64> = (dictionary..=dictionary + count).chain(rest..words).collect();
    let entries: Vec<i64> = unlinked::chosen(rng, wish.unlinked, count)
        .into_iter()
        .map(|unlinked| if unlinked { 0 } else { draft_entry(rng, words, &mut used) })
        .collect();
    Plan { words, pool, dictionary, entries, used }
}

/// A segment drafted to pass checks 1 to 8; it may miss.
fn draft(rng: &mut Rng, wish: Wish) -> Vec<u8> {
    let plan = plan(rng, wish);
    let Plan { words, pool, dictionary, entries, .. } = &plan;
    let count = entries.len() as i64;
    let sex = if rng.chance(1, 2) { Sex::LeastFirst } else { Sex::MostFirst };
    let alike = rng.next() as u8;
    let loose = wish.program || rng.chance(1, 8);
    let mut bytes: Vec<u8> =
        (0..2 * words).map(|_| if loose { rng.next() as u8 } else { alike }).collect();
    let data_sizes = draft_data_sizes(rng, wish, count);
    if wish.program {
        fill_with_program(rng, &mut bytes, &plan, &data_sizes);
    }
    if let Some(flag) = bytes.get_mut(12..14) {
        flag.copy_from_slice(if sex == Sex::LeastFirst { &[1, 0] } else { &[0, 1] });
    }
    pool.put(&mut bytes, sex);
    put_word(&mut bytes, sex, 0, *dictionary);
    put_word(&mut bytes, sex, 1, 0);
    put_word(&mut bytes, sex, 7, pool.at);
    for (entry, data_size) in entries.iter().zip(&data_sizes).filter(|(entry, _)| **entry != 0) {
        let exit_ic = rng.pick_in(&[22, 2 * words - 1], 22, 2 * words - 1);
        put_word(&mut bytes, sex, *entry, *data_size);
        put_word(&mut bytes, sex, *entry - 1, exit_ic);
    }
    put_word(&mut bytes, sex, *dictionary, count);
    for (entry, number) in entries.iter().zip(1..) {
        put_word(&mut bytes, sex, dictionary + number, *entry);
    }
    bytes
}

/// An entry whose words nothing else uses, if one is found, but for a few.
fn draft_entry(rng: &mut Rng, words: i64, used: &mut Vec<i64>) -> i64 {
    let careless = rng.chance(1, 12);
    let mut entry = rng.between(12, words - 2);
    for _ in 0..60 {
        if careless || !(used.contains(&entry) || used.contains(&(entry - 1))) {
            break;
        }
        entry = rng.between(12, words - 2);
    }
    used.extend([entry - 1, entry]);
    entry
}

/// Routine 1's DATASIZE is G; it is kept small, so that sessions open.
fn draft_data_sizes(rng: &mut Rng, wish: Wish, count: i64) -> Vec<i64> {
    (1..=count)
        .map(|number| match rng.up_to(19) {
            0 if number > 1 => 32_767,
            1 if number > 1 => rng.between(0, 32_767),
            _ => rng.between(0, wish.most_data),
        })
        .collect()
}

/// Each run of bytes that no word position uses gets code: either statements
/// that leave the stack as it was, ended by a jump back or a return, or a
/// loose stream of instructions.
fn fill_with_program(rng: &mut Rng, bytes: &mut [u8], plan: &Plan, data_sizes: &[i64]) {
    let Plan { pool, entries, used, .. } = plan;
    let count = entries.len() as i64;
    let globals = data_sizes.first().copied().unwrap_or(0);
    let steady = rng.chance(4, 5);
    let mut at = 22;
    while at < bytes.len() {
        let run = (at..bytes.len()).take_while(|byte| !used.contains(&(*byte as i64 / 2))).count();
        let routine = entries.iter().position(|entry| 2 * (entry + 1) == at as i64);
        let number = routine.map_or(count, |index| index as i64 + 1);
        let locals = routine.and_then(|index| data_sizes.get(index)).copied().unwrap_or(0);
        let writer = Writer { number, entries, globals, locals, pool };
        let code = if steady {
            writer.routine(rng, run)
        } else {
            let mut code = Vec::new();
            while code.len() < run {
                code.extend(ordinary_instruction(rng, count));
            }
            code
        };
        for (place, byte) in bytes.iter_mut().skip(at).take(run).zip(code) {
            *place = byte;
        }
        at += run.max(1);
    }
}

/// Writes statements for one routine.
struct Writer<'a> {
    number: i64,
    entries: &'a [i64],
    globals: i64,
    locals: i64,
    pool: &'a Pool,
}

impl Writer<'_> {
    /// Statements as long as they fit; then a jump back to the first (routine
    /// 1) or a return that drops the locals.
    fn routine(&self, rng: &mut Rng, room: usize) -> Vec<u8> {
        let mut code = Vec::new();
        let mut misfits = 0;
        while misfits < 4 {
            let statement = self.statement(rng, 2);
            if !statement.is_empty() && code.len() + statement.len() + 3 <= room {
                code.extend(statement);
            } else {
                misfits += 1;
            }
        }
        let back = -(code.len() as i64);
        if self.number > 1 || rng.chance(1, 8) {
            code.push(150);
            push_big(rng, &mut code, self.locals);
        } else if back >= -126 {
            code.extend([138, (back - 2) as i8 as u8]);
        } else {
            code.push(139);
            code.extend(((back - 3) as i16).to_le_bytes());
        }
        code
    }

    /// Code that leaves the stack as it was.
    fn statement(&self, rng: &mut Rng, depth: u64) -> Vec<u8> {
        let mut code = Vec::new();
        match rng.up_to(9) {
            0..=2 => {
                code.extend(self.expression(rng, depth));
                code.extend(self.store(rng));
            }
            3 => {
                // condition; jump over another statement
                code.extend(self.expression(rng, depth));
                let inner = self.statement(rng, depth / 2);
                match rng.up_to(2) {
                    0 => code.extend([212, inner.len() as u8]),
                    1 => code.extend([241, inner.len() as u8]),
                    _ => code.extend([213, inner.len() as u8, 0]),
                }
                code.extend(inner);
            }
            4 | 5 => code.extend(self.call(rng)),
            6 => {
                // store through an address
                let global = self.global(rng);
                code.push(134);
                push_big(rng, &mut code, global);
                code.extend(self.expression(rng, depth / 2));
                code.push(196);
            }
            7 => {
                code.extend(self.expression(rng, depth));
                code.push(226);
                code.extend(self.store(rng));
                code.extend(self.store(rng));
            }
            8 => {
                code.extend(self.expression(rng, depth / 2));
                code.extend(self.expression(rng, depth / 2));
                code.push(189);
                code.extend(self.store(rng));
                code.extend(self.store(rng));
            }
            9 if self.pool.at != 0 => code.extend(self.constants(rng)),
            _ => code.push(156),
        }
        code
    }

    /// Words of the pool, and a store for each.
    fn constants(&self, rng: &mut Rng) -> Vec<u8> {
        let count = rng.between(0, 3);
        let mut code = self.pool.load(rng, count);
        for _ in 0..count {
            code.extend(self.store(rng));
        }
        code
    }

    /// A word changed by a case of an index from 0 to 3, or of any.
    fn choice(&self, rng: &mut Rng, depth: u64) -> Vec<u8> {
        let mut code = self.expression(rng, depth);
        code.extend(self.expression(rng, depth));
        if rng.chance(3, 4) {
            code.extend([3, 161]);
        }
        code.extend(self.pool.choose());
        code
    }

    /// A call of a higher routine, so that calls end; seldom of an unlinked
    /// one, so that runs last.
    fn call(&self, rng: &mut Rng) -> Vec<u8> {
        let mut code = Vec::new();
        let count = self.entries.len() as i64;
        if self.number >= count {
            return code;
        }
        let called = rng.between(self.number + 1, count);
        let unlinked = self.entries.get(called as usize - 1) == Some(&0);
        let called = called as u8;
        match rng.up_to(3) {
            _ if unlinked && !rng.chance(1, 6) => code.push(156),
            0 => code.extend([144, called]),
            1 => code.extend([145, called]),
            2 => code.extend([146, 0, called]),
            _ if self.number > 1 => code.extend([239, called]),
            _ => code.push(156),
        }
        code
    }

    fn global(&self, rng: &mut Rng) -> i64 {
        rng.between(1, self.globals.max(1))
    }

    fn local(&self, rng: &mut Rng) -> i64 {
        rng.between(1, self.locals.clamp(1, 40))
    }

    fn store(&self, rng: &mut Rng) -> Vec<u8> {
        let mut code = Vec::new();
        let (global, local) = (self.global(rng), self.local(rng));
        match rng.up_to(4) {
            0 | 1 => {
                code.push(165);
                push_big(rng, &mut code, global);
            }
            2 if local <= 8 => code.push(103 + local as u8),
            3 => {
                code.extend([166, 0]);
                push_big(rng, &mut code, local);
            }
            _ => {
                code.push(164);
                push_big(rng, &mut code, local);
            }
        }
        code
    }

    /// Code that pushes one word.
    fn expression(&self, rng: &mut Rng, depth: u64) -> Vec<u8> {
        let mut code = Vec::new();
        let (global, local) = (self.global(rng), self.local(rng));
        if depth > 0 && rng.chance(3, 5) {
            match rng.up_to(7) {
                6 | 7 if self.pool.has_table() => code.extend(self.choice(rng, depth - 1)),
                0 => {
                    code.extend(self.expression(rng, depth - 1));
                    code.push(rng.pick(&[224, 225, 229, 237, 238], 229));
                }
                1 => {
                    // a division by a constant other than 0
                    code.extend(self.expression(rng, depth - 1));
                    code.push(rng.between(1, 31) as u8);
                    if rng.chance(1, 3) {
                        code.push(225);
                    }
                    code.push(rng.pick(&[141, 143], 141));
                }
                2 => {
                    code.extend([rng.between(4, 8) as u8, 4, 8, 203]);
                }
                _ => {
                    code.extend(self.expression(rng, depth - 1));
                    code.extend(self.expression(rng, depth - 1));
                    code.push(rng.pick(
                        &[140, 160, 161, 162, 163, 176, 177, 178, 179, 180, 181],
                        162,
                    ));
                }
            }
            return code;
        }
        match rng.up_to(15) {
            13 | 14 if self.pool.at != 0 => code.extend(self.pool.load(rng, 1)),
            0 => code.push(rng.up_to(31) as u8),
            1 => code.extend([128, rng.next() as u8]),
            2 => {
                code.push(129);
                code.extend((rng.next() as u16).to_le_bytes());
            }
            3 if self.pool.at != 0 => code.extend([130, 0]),
            4 => code.push(152),
            5 if global <= 16 => code.push(47 + global as u8),
            6 if local <= 16 => code.push(31 + local as u8),
            7 => {
                code.push(rng.pick(&[133, 134], 133));
                push_big(rng, &mut code, global);
            }
            8 => {
                code.push(rng.pick(&[132, 135], 132));
                push_big(rng, &mut code, local);
            }
            9 => {
                code.extend([rng.pick(&[136, 137], 136), rng.up_to(u64::from(self.number > 1)) as u8]);
                push_big(rng, &mut code, local);
            }
            10 if self.number > 1 => {
                code.push(if rng.chance(1, 8) { 174 } else { 173 });
                push_big(rng, &mut code, global);
            }
            11 => {
                code.push(134);
                push_big(rng, &mut code, global);
                code.push(rng.between(120, 123) as u8);
            }
            12 => {
                code.push(134);
                push_big(rng, &mut code, global);
                code.push(230);
                push_big(rng, &mut code, 1);
            }
            _ => code.push(if local <= 8 { 95 + local as u8 } else { 152 }),
        }
        code
    }
}

/// An instruction as a program might have it: mostly carried, with mild
/// operands, so that runs last.
fn ordinary_instruction(rng: &mut Rng, count: i64) -> Vec<u8> {
    let first = loop {
        let byte = match rng.up_to(9) {
            0..=2 => rng.up_to(63) as u8,
            3 => rng.between(96, 127) as u8,
            4 => rng.pick(&[144, 145, 146, 239, 240, 150, 150, 226, 226, 189], 156),
            5 => rng.pick(&[138, 212, 241, 139, 213], 156),
            6 => rng.pick(&[164, 165, 166, 133, 135, 137, 132, 134, 136, 173], 156),
            7 => rng.pick(&[160, 161, 162, 163, 140, 141, 143, 176, 178, 180], 156),
            _ => rng.next() as u8,
        };
        if machine::instruction(byte).is_some() || rng.chance(1, 40) {
            break byte;
        }
    };
    let mut bytes = vec![first];
    let Some(instruction) = machine::instruction(first) else { return bytes };
    let routine = rng.between(1, count) as u8;
    let offset = rng.between(0, 12);
    match (instruction.form, instruction.op) {
        (Form::Nothing, _) => {}
        (Form::Ub, Op::PushValue) => bytes.push(rng.next() as u8),
        (Form::Ub, _) => bytes.push(routine),
        (Form::Sb, _) => bytes.push(rng.between(-14, 10) as i8 as u8),
        (Form::W, Op::PushValue) => bytes.extend((rng.next() as u16).to_le_bytes()),
        (Form::W, _) => bytes.extend((rng.between(-20, 16) as i16).to_le_bytes()),
        (Form::B, Op::Return) => bytes.push(rng.pick(&[0, 0, 1, 2], 0)),
        (Form::B, _) => push_big(rng, &mut bytes, offset),
        (Form::DbB, _) => {
            bytes.push(rng.pick(&[0, 0, 1, 1, 2], 0));
            push_big(rng, &mut bytes, offset);
        }
        (Form::DbUb, _) => bytes.extend([rng.pick(&[0, 0, 1, 1, 2], 0), routine]),
        (Form::UbBUb, _) => bytes.extend([rng.pick(&[0, 2], 2), offset as u8, rng.up_to(3) as u8]),
    }
    bytes
}

/// A B operand, in one byte or in two.
fn push_big(rng: &mut Rng, bytes: &mut Vec<u8>, value: i64) {
    let value = value.clamp(0, 32_767) as u16;
    if value < 128 && !rng.chance(1, 6) {
        bytes.push(value as u8);
    } else {
        bytes.extend((value | 0x8000).to_be_bytes());
    }
}

/// A segment that passes checks 1 to 8.
pub fn valid_segment(rng: &mut Rng, wish: Wish) -> Vec<u8> {
    for _ in 0..200 {
        let bytes = draft(rng, wish);
        if Segment::judge(&bytes).is_ok() {
            return bytes;
        }
    }
    SMALL.to_vec()
}

/// A valid segment with one number put at or beside a limit of checks 1 to 8.
pub fn nearly_valid_segment(rng: &mut Rng) -> Vec<u8> {
    let wish = if rng.chance(1, 60) {
        Wish { most_words: 900, most_routines: 255, ..ORDINARY }
    } else {
        ORDINARY
    };
    let bytes = valid_segment(rng, wish);
    beside_a_limit(rng, bytes)
}

/// One number of a valid segment put at or beside a limit of checks 1 to 8.
pub fn beside_a_limit(rng: &mut Rng, mut bytes: Vec<u8>) -> Vec<u8> {
    let Ok(segment) = Segment::judge(&bytes) else { return bytes };
    let (sex, words) = (segment.sex, i64::from(segment.words));
    let dictionary = i64::from(segment.dictionary);
    let entries: Vec<i64> = segment.routines.iter().map(|r| i64::from(r.entry)).collect();
    match rng.up_to(13) {
        0 => length_beside_a_limit(rng, &mut bytes),
        1 => {
            let flag = rng.pick(&[[0, 0], [1, 1], [2, 0], [0, 2], [1, 0], [0, 1]], [255, 0]);
            if let Some(place) = bytes.get_mut(12..14) {
                place.copy_from_slice(&flag);
            }
        }
        2 => put_word(&mut bytes, sex, 1, rng.pick(&[0, 1, 256, 65_535], 1)),
        3 => {
            let pool = rng.pick(&[0, 1, 10, 11, words - 1, words, words + 1, 65_535], 0);
            put_word(&mut bytes, sex, 7, pool);
        }
        4 => {
            let at = rng.pick(&[0, 10, 11, words - 2, words - 1, words, 32_768, 65_535], 0);
            put_word(&mut bytes, sex, 0, at);
        }
        5 => {
            let room = words - 1 - dictionary;
            let n = rng.pick(&[0, 1, room, room + 1, 255, 256, 257, 65_535], 0);
            put_word(&mut bytes, sex, dictionary, n);
        }
        6 | 7 => pool::beside_a_limit(rng, &mut bytes, sex),
        _ => {
            let entries = Entries { sex, words, dictionary, entries: &entries };
            routine_beside_a_limit(rng, &mut bytes, &entries);
        }
    }
    bytes
}

fn length_beside_a_limit(rng: &mut Rng, bytes: &mut Vec<u8>) {
    match rng.up_to(5) {
        0 => drop(bytes.pop()),
        1 => bytes.push(0),
        2 => bytes.truncate(30),
        3 => bytes.truncate(31),
        4 => bytes.truncate(rng.up_to(40) as usize),
        _ => bytes.truncate(bytes.len().saturating_sub(2)),
    }
}

/// The entry, DATASIZE or EXITIC of one routine, or of two.
fn routine_beside_a_limit(rng: &mut Rng, bytes: &mut [u8], of: &Entries) {
    // an unlinked one has neither DATASIZE nor EXITIC
    let linked: Vec<i64> = of.entries.iter().copied().filter(|entry| *entry != 0).collect();
    let entry = rng.pick(&linked, 12);
    let number = of.some_number(rng);
    match rng.up_to(6) {
        0 | 1 => {
            let at = of.some_entry(rng);
            of.put(bytes, number, at);
        }
        2 => {
            let data = rng.pick(&[0, 32_767, 32_768, 32_769, 65_535], 32_768);
            put_word(bytes, of.sex, entry, data);
        }
        3 => {
            let limits = [0, 21, 22, 2 * of.words - 1, 2 * of.words, 65_535];
            put_word(bytes, of.sex, entry - 1, rng.pick(&limits, 0));
        }
        4 | 5 => of.zero_before(rng, bytes),
        _ => {
            // two routines damaged: the lower number is told
            for number in [number, of.some_number(rng)] {
                let entry = rng.pick(&linked, 12);
                match rng.up_to(2) {
                    0 => of.put(bytes, number, 11),
                    1 => put_word(bytes, of.sex, entry, 40_000),
                    _ => put_word(bytes, of.sex, entry - 1, 21),
                }
            }
        }
    }
}

/// A segment with random damage.
pub fn damaged_segment(rng: &mut Rng) -> Vec<u8> {
    let bytes = valid_segment(rng, ORDINARY);
    with_damage(rng, bytes)
}

/// Some bytes changed at random, sometimes cut off.
pub fn with_damage(rng: &mut Rng, mut bytes: Vec<u8>) -> Vec<u8> {
    for _ in 0..=rng.up_to(4) {
        let at = rng.up_to((bytes.len() as u64).saturating_sub(1)) as usize;
        let new = rng.next() as u8;
        if let Some(byte) = bytes.get_mut(at) {
            *byte = new;
        }
    }
    if rng.chance(1, 10) {
        bytes.truncate(rng.up_to(bytes.len() as u64) as usize);
    }
    bytes
}

/// Segments of all sorts, to judge and to turn.
pub fn segment_case(rng: &mut Rng) -> SegmentCase {
    let bytes = match rng.up_to(39) {
        0 => {
            // at the upper limit of W
            let words = rng.pick(&[32_766usize, 32_767, 32_768], 32_767);
            let mut bytes = SMALL.to_vec();
            bytes.resize(2 * words, 7);
            bytes
        }
        1..=14 => valid_segment(rng, ORDINARY),
        15..=31 => nearly_valid_segment(rng),
        32..=37 => damaged_segment(rng),
        _ => (0..rng.up_to(50)).map(|_| rng.next() as u8).collect(),
    };
    let length = bytes.len();
    let output_length = rng.pick(
        &[length, length, length + 1, length + 9, length.saturating_sub(1), length / 2, 0],
        length,
    );
    SegmentCase { bytes, output_length }
}

// ------------------------------------------------------- single instructions

/// Words at the limits of addresses, links and integers.
pub fn telling_word(rng: &mut Rng, length: i64, shared: i64) -> u16 {
    let limits = [
        0, 0, 1, 2, 5, 22, 32_767, 32_768, 32_769, 65_534, 65_535, 65_529, 300,
        length - 6, length - 5, length - 4, length - 1, length, length + 1,
        32_768 + shared - 1, 32_768 + shared, 32_768 + shared / 2,
    ];
    match rng.up_to(9) {
        0..=2 => rng.between(1, length - 5) as u16,
        3..=7 => rng.pick(&limits, 0) as u16,
        8 => rng.up_to(9) as u16,
        _ => rng.next() as u16,
    }
}

/// Integers at the limits of arithmetic; `beside` is another operand.
pub fn telling_integer(rng: &mut Rng, beside: u16) -> u16 {
    let limits: [u16; 14] = [
        0, 1, 2, 3, 300, 255, 256, 32_767, 32_768, 32_769, 65_529, 65_534, 65_535, 181,
    ];
    match rng.up_to(7) {
        0 => beside,
        1 => beside.wrapping_add(rng.pick(&[1, 65_535, 32_768], 1)),
        2 => rng.next() as u16,
        _ => rng.pick(&limits, 0),
    }
}

/// Factors at the limits of a bit, a byte and a word.
pub const FACTORS: [u16; 11] = [0, 1, 2, 127, 128, 255, 256, 257, 32_767, 32_768, 65_535];

/// A factor: one of these as often as any word at all.
pub fn telling_factor(rng: &mut Rng) -> u16 {
    if rng.chance(1, 2) { rng.pick(&FACTORS, 1) } else { rng.next() as u16 }
}

/// A length of region, mostly near the least that fits.
fn region_length(rng: &mut Rng, segment: &Segment) -> i64 {
    let floor = 6 + i64::from(segment.global_size());
    let lowest = floor.max(16);
    match rng.up_to(199) {
        // room for any LDC
        _ if segment.pool != 0 && segment.words > 280 => lowest + rng.between(230, 270),
        0 => 32_768,
        1 => rng.between(lowest, 32_768),
        2..=7 => rng.between(lowest, lowest + 700),
        _ => rng.pick_in(&[lowest, lowest, lowest + 1, 17, 18, 21, 22, 30, 45, 70], lowest, lowest + 90),
    }
}

/// The words of a region: many telling ones, the others alike.  A large region
/// has them at its ends.
fn region_words(rng: &mut Rng, length: i64, shared: i64) -> Vec<u16> {
    let alike = rng.pick(&[0, 0, 0, 1, 22], 0);
    (0..length)
        .map(|at| {
            let near = at < 30 || at >= length - 40;
            if near && rng.chance(1, 2) { telling_word(rng, length, shared) } else { alike }
        })
        .collect()
}

/// Sound registers, mostly at their limits.
pub fn registers(rng: &mut Rng, segment: &Segment, length: i64) -> Session {
    let floor = 6 + i64::from(segment.global_size());
    let m = rng.pick_in(&[1, 1, 2, length - 5, length - 5, length - 6], 1, length - 5);
    let sp = rng.pick_in(
        &[floor, floor, floor + 1, length, length - 1, length - 2, length - 3, length - 4],
        floor,
        length,
    );
    // as often at SP as below it, down to its limit
    let low = rng.pick_in(&[sp, sp, sp, sp, sp - 1, sp - 2, floor, floor + 1], floor, sp);
    Session {
        sp: sp as u64,
        m: m as u64,
        counter: rng.between(22, 2 * i64::from(segment.words)) as u64,
        routine: rng.between(1, i64::from(segment.count())) as u64,
        low: low as u64,
        kind: Kind::Ready,
    }
}

/// A mark: often a good one, sometimes with one word spoilt.
pub fn telling_mark(rng: &mut Rng, segment: &Segment, length: i64, m: i64) -> [u16; 5] {
    let words = i64::from(segment.words);
    let count = i64::from(segment.count());
    let mut mark = [
        rng.pick_in(&[1, m, length - 5], 1, length - 5),
        rng.pick_in(&[1, m, length - 5], 1, length - 5),
        rng.pick_in(&[22, 2 * words], 22, 2 * words),
        1,
        rng.pick_in(&[1, count], 1, count),
    ];
    if rng.chance(2, 5) {
        let (index, value) = match rng.up_to(4) {
            0 => (0, rng.pick(&[0, length - 4, 65_535], 0)),
            1 => (1, rng.pick(&[0, length - 4, 65_535], 0)),
            2 => (2, rng.pick(&[0, 21, 2 * words + 1, 65_535], 0)),
            3 => (3, rng.pick(&[0, 2, 257, 65_535], 0)),
            _ => (4, rng.pick(&[0, count + 1, count + 1, 256, 65_535], 0)),
        };
        if let Some(word) = mark.get_mut(index) {
            *word = value;
        }
    }
    mark.map(|word| word as u16)
}

/// A sound session in a region of telling words, for a segment.
fn sound_session(rng: &mut Rng, segment: &Segment, shared: i64) -> (Vec<u16>, Session) {
    let length = region_length(rng, segment);
    let mut region = region_words(rng, length, shared);
    let session = registers(rng, segment, length);
    if rng.chance(3, 4) {
        let mark = telling_mark(rng, segment, length, session.m as i64);
        for (place, word) in region.iter_mut().skip(session.m as usize).zip(mark) {
            *place = word;
        }
    }
    (region, session)
}

/// The shared words: as many as given, telling ones and others alike.
fn shared_words(rng: &mut Rng, count: i64) -> Vec<u16> {
    let alike = rng.up_to(300) as u16;
    (0..count)
        .map(|at| if at < 8 && rng.chance(1, 2) { rng.next() as u16 } else { alike })
        .collect()
}

/// A sound session of a segment without a program: a place for single steps.
pub fn session_case(rng: &mut Rng) -> RunCase {
    let bytes = match rng.up_to(39) {
        0 => unlinked::crowd(rng),
        1 => pool::long(rng),
        _ => valid_segment(rng, Wish { program: false, unlinked: 8, ..ORDINARY }),
    };
    let count = if rng.chance(1, 100) { 32_768 } else { rng.pick(&[0, 1, 2, 7, 40], 0) };
    let shared = shared_words(rng, count);
    let (region, session) = match Segment::judge(&bytes) {
        Ok(segment) => sound_session(rng, &segment, count),
        Err(_) => (vec![0; 16], Record::UNUSED.session),
    };
    RunCase { segment: bytes, shared, region, session, k: 1 }
}

/// Bytes of operands; a B gets one or two.
pub fn operand_size(first: u8, rng: &mut Rng) -> i64 {
    let big = rng.between(1, 2);
    match machine::instruction(first).map(|instruction| instruction.form) {
        None | Some(Form::Nothing) => 0,
        Some(Form::Ub | Form::Sb) => 1,
        Some(Form::W | Form::DbUb) => 2,
        Some(Form::B) => big,
        Some(Form::DbB) => 1 + big,
        Some(Form::UbBUb) => 2 + big,
    }
}

/// What the operands are chosen by.
pub struct View<'a> {
    pub segment: &'a Segment<'a>,
    pub region: &'a [u16],
    pub session: &'a Session,
    pub shared_length: i64,
}

impl View<'_> {
    fn word(&self, at: i64) -> i64 {
        usize::try_from(at).ok().and_then(|at| self.region.get(at)).map_or(0, |w| i64::from(*w))
    }
}

/// Operands at and beside the limits that this state sets.
pub fn telling_operands(
    rng: &mut Rng,
    instruction: &machine::Instruction,
    view: &View,
    next: i64,
    size: i64,
    code: &mut Vec<u8>,
) {
    let length = view.region.len() as i64;
    let words = i64::from(view.segment.words);
    let count = i64::from(view.segment.count());
    let floor = 6 + i64::from(view.segment.global_size());
    let m = view.session.m as i64;
    let mut links = i64::from(instruction.links);

    if matches!(instruction.form, Form::DbB | Form::DbUb) {
        links = rng.pick(&[0, 0, 1, 1, 1, 2, 2, 3, 126, 127, 128, 129, 255], 0);
        code.push(links as u8);
    }
    // The record the links lead to, as far as they do.
    let mut record = m;
    for _ in 0..links {
        record = view.word(record);
    }

    let around = |limit: i64| [limit - 1, limit, limit + 1];
    let mut limits: Vec<i64> = Vec::new();
    // LDC's count
    let mut taken = 0;
    match instruction.op {
        Op::LoadLocal | Op::AddressLocal | Op::StoreLocal => {
            limits.extend(around(length - (m + 4)));
            limits.extend([0, 1, 2]);
        }
        Op::LoadGlobal | Op::AddressGlobal | Op::StoreGlobal => {
            limits.extend(around(length - 5));
            limits.extend([0, 1, 2]);
        }
        Op::LoadIntermediate | Op::AddressIntermediate | Op::StoreIntermediate => {
            limits.extend(around(length - (record + 4)));
            limits.extend([0, 1, 2]);
        }
        Op::LoadIndexed => {
            let base = view.word(view.session.sp as i64);
            for target in [length, 32_768, 32_768 + view.shared_length, 65_536] {
                limits.extend(around(target - base));
            }
            limits.extend([0, 1]);
        }
        Op::PushPoolOffset => {
            limits.extend(around(words - i64::from(view.segment.pool)));
            limits.extend(around(i64::from(view.segment.real_start) - i64::from(view.segment.pool)));
            limits.extend([0, 1, 32_767]);
        }
        Op::PushPoolWords => {
            (limits, taken) = pool::telling_load(rng, view.segment, view.session);
            code.push(rng.pick(&[0, 1, 1, 2, 2, 2, 2, 3, 130, 255], 2));
        }
        Op::CaseJump => limits.extend(pool::telling_table(view.segment)),
        Op::Return => {
            limits.extend(around(length - (m + 5)));
            limits.extend(around(floor - (m + 5)));
            limits.push(0);
        }
        Op::CallLocal | Op::CallGlobal | Op::CallIntermediate => {
            limits.extend([0, 1, 1, 2, count, count, count + 1, 255]);
            let numbered = (1..).zip(&view.segment.routines);
            limits.extend(numbered.filter(|(_, r)| !r.is_linked()).map(|(number, _)| number).take(6));
        }
        Op::Jump | Op::FalseJump | Op::TrueJump => {
            limits.extend(around(22 - next));
            limits.extend(around(2 * words - next));
            limits.extend([0, -2, -size, 127, -128, 32_767, -32_768]);
        }
        _ => limits.extend([0, 1, 127, 128, 255, 256, -1, -32_768, 32_767]),
    }

    match instruction.form {
        Form::Nothing => {}
        Form::Ub | Form::DbUb => code.push(rng.pick_in(&limits, 0, 255) as u8),
        Form::Sb => code.push(rng.pick_in(&limits, -128, 127) as i8 as u8),
        Form::W => {
            code.extend((rng.pick_in(&limits, -32_768, 32_767) as i16).to_le_bytes());
        }
        Form::B | Form::DbB | Form::UbBUb => {
            // one byte or two, as the size was drawn
            let count = i64::from(instruction.form == Form::UbBUb);
            let left = size - code.len() as i64 - count;
            if left <= 1 {
                code.push(rng.pick_in(&limits, 0, 127) as u8);
            } else {
                let value = rng.pick_in(&limits, 0, 32_767) as u16;
                code.extend((value | 0x8000).to_be_bytes());
            }
            if count > 0 {
                code.push(taken as u8);
            }
        }
    }
}

/// Which faults document 01 lets each first byte give, in its order of checks.
/// (Written from 01, not from the interpreter.)
///
/// 1 needs operand bytes; 2 a byte not carried or a DB; 3 words taken; 9 a
/// static link or a return; 8 a call; 5 a division; 6 an address; 7 a jump; 10
/// CHK; 4 a step that ends with SP lower.  SLDO1 to SLDO10 name words 6 to 15,
/// which every region has (L is at least 16), so they have no 6.
pub fn possible_faults(first: u8) -> &'static [u32] {
    match first {
        0..=31 => &[4],                      // SLDC
        32..=47 => &[6, 4],                  // SLDL
        48..=57 => &[4],                     // SLDO1..10
        58..=63 => &[6, 4],                  // SLDO11..16
        96..=103 => &[6, 4],                 // SLLA
        104..=111 => &[3, 6],                // SSTL
        120..=127 => &[3, 6],                // SIND
        128 | 129 => &[1, 4],                // LDCB LDCI
        130 => &[1, 6, 4],                   // LCO
        131 => &[1, 6, 4],                   // LDC
        132..=135 => &[1, 6, 4],             // LLA LDO LAO LDL
        136 | 137 => &[1, 2, 9, 6, 4],       // LDA LOD
        138 | 139 => &[1, 7],                // UJP JPL
        140 => &[3],                         // MPI
        141 | 143 => &[3, 5],                // DVI MODI
        144 | 145 => &[1, 8, 4],             // CPL CPG
        146 => &[1, 2, 9, 8, 4],             // CPI
        150 => &[1, 9],                      // RPU
        152 => &[4],                         // LDCN
        156 => &[],                          // NOP
        160..=163 => &[3],                   // LOR LAND ADI SBI
        164 | 165 => &[1, 3, 6],             // STL SRO
        166 => &[1, 2, 3, 9, 6],             // STR
        173 | 174 => &[1, 9, 6, 4],          // SLOD1 SLOD2
        176..=181 => &[3],                   // EQUI NEQI LEQI GEQI LEUSW GEUSW
        189 => &[3],                         // SWAP
        196 => &[3, 6],                      // STO
        203 => &[3, 10],                     // CHK
        212 | 213 | 241 => &[1, 3, 7],       // FJP FJPL TJP
        214 => &[1, 3, 6, 7],                // XJP
        224 | 225 | 229 | 237 | 238 => &[3], // ABI NGI LNOT INCI DECI
        226 => &[3, 4],                      // DUP1
        230 => &[1, 3, 6],                   // IND
        239 | 240 => &[1, 9, 8, 4],          // SCPI1 SCPI2
        _ => &[2],
    }
}

/// Whether a step with this first byte can go well.
pub fn can_go_well(first: u8) -> bool {
    possible_faults(first) != [2]
}

/// What one step came to: a fault number, 0 for gone on, 11 for finished.  From
/// 16 on it is fault 1 of a cut instruction (`cut`), from 32 on what LDC and XJP
/// came to (`pool`), from 96 on what became of the lowest SP (`depth`), from 112
/// on where a read or a store meets the window (`window`).
pub const GONE_ON: u32 = 0;
pub const FINISHED: u32 = 11;
// Told apart from the faults 8 and 9 and from gone on, since unlinked routines
// give them too: 8 for a call of one, 8 where the stack is full besides, 9
// where the static link is bad besides, and a return that goes on in one.
pub const UNLINKED: u32 = 12;
pub const UNLINKED_WHEN_FULL: u32 = 13;
pub const LINK_BEFORE_UNLINKED: u32 = 14;
pub const BACK_TO_UNLINKED: u32 = 15;

/// The first byte (`None` beyond the end) and what the step came to.
pub type Outcome = (Option<u8>, u32);

/// Every outcome that document 01 makes possible.
pub fn possible_outcomes() -> Vec<Outcome> {
    let mut possible = vec![(None, 1)];
    for first in 0..=255u8 {
        possible.extend(depth::possible(first));
        possible.extend(window::possible(first));
        if matches!(first, 131 | 214) {
            possible.extend(pool::possible(first).into_iter().chain(possible_cuts(first)));
            continue;
        }
        if can_go_well(first) {
            possible.push((Some(first), GONE_ON));
        }
        if first == 150 {
            possible.extend([(Some(first), FINISHED), (Some(first), BACK_TO_UNLINKED)]);
        }
        let faults = possible_faults(first);
        // 1 by the bytes that are there
        possible.extend(faults.iter().filter(|fault| **fault != 1).map(|fault| (Some(first), *fault)));
        possible.extend(possible_cuts(first));
        if faults.contains(&8) {
            possible.extend([(Some(first), UNLINKED), (Some(first), UNLINKED_WHEN_FULL)]);
        }
        if faults.contains(&8) && faults.contains(&9) {
            possible.push((Some(first), LINK_BEFORE_UNLINKED));
        }
    }
    possible
}

// --------------------------------------------------------------------- runs

/// A run of some steps, from the starting state or from some sound one.
pub fn run_case(rng: &mut Rng) -> RunCase {
    let wish = match rng.up_to(9) {
        0 => Wish { most_words: 400, ..LIVELY },
        1 | 2 => ORDINARY,
        _ => Wish { most_words: 120, ..LIVELY },
    };
    let segment_bytes = valid_segment(rng, wish);
    let shared_length = rng.pick(&[0, 1, 7, 40], 0);
    let shared = shared_words(rng, shared_length);
    let (mut region, mut session) = match Segment::judge(&segment_bytes) {
        Ok(segment) => sound_session(rng, &segment, shared_length),
        Err(_) => (vec![0; 16], Record::UNUSED.session),
    };
    if rng.chance(2, 3) {
        if let Ok(segment) = Segment::judge(&segment_bytes) {
            let length = rng.between(i64::from(segment.global_size()) + 16, 150) as u64;
            session = machine::starting_state(&segment, length);
            region = vec![0; length as usize];
        }
    }
    let k = rng.pick(&[0, 9, 100, 400, 1_000, 1_000, 4_000, 65_535], 9);
    RunCase { segment: segment_bytes, shared, region, session, k }
}

// -------------------------------------------------------------------- benches

/// A sound bench with loaded slots and open sessions.
pub fn sound_bench(rng: &mut Rng) -> World {
    let mut memory = window::shared_words(rng);
    let shared = memory.len() as u64;
    let words = shared + rng.pick(&[0u64, 15, 16, 60, 100, 200, 200, 300, 400, 600], 100);
    let alike = rng.pick(&[0, 9, 65_535], 0);
    memory.extend((shared..words).map(|_| if rng.chance(1, 20) { rng.next() as u16 } else { alike }));
    let mut store = Vec::new();
    let mut ranges = Vec::new();
    for _ in 0..=rng.up_to(2) {
        for _ in 0..rng.pick(&[0, 0, 2, 6], 0) {
            store.push(rng.next() as u8);
        }
        let bytes = if rng.chance(1, 5) {
            nearly_valid_segment(rng)
        } else {
            valid_segment(rng, LIVELY)
        };
        if store.len() % 2 == 1 {
            store.push(0);
        }
        ranges.push((store.len() as u64, bytes.len() as u64));
        store.extend(bytes);
    }
    let Ok(bench) = bench::new_bench(shared, words) else {
        return World { store, ..World::blank() };
    };
    let mut case = World { bench, memory, store };
    for (start, length) in ranges {
        let slot = rng.up_to(15);
        let _ = ask(&mut case, Call::Load { slot, start, length });
    }
    let loaded = loaded_slots(&case.bench);
    let openings = rng.pick(&[0, 1, 2, 3, 3, 4, 5, 18], 2);
    for _ in 0..openings {
        let slot = rng.pick(&loaded, 0);
        let most = if openings > 16 { 20 } else { 60 };
        let length = rng.between(16, most) as u64;
        let opening = window::opening(rng, &case, slot, length);
        let _ = ask(&mut case, opening);
    }
    for _ in 0..rng.up_to(4) {
        let session = rng.up_to(15);
        let k = rng.up_to(30);
        let _ = ask(&mut case, Call::Turn { session, k });
        if rng.chance(1, 4) {
            let _ = ask(&mut case, Call::Close { session });
        }
    }
    depth::deepen(rng, &mut case);
    case
}

pub fn loaded_slots(bench: &Bench) -> Vec<u64> {
    (0..16).zip(bench.slots).filter(|(_, slot)| slot.loaded).map(|(number, _)| number).collect()
}

pub fn open_sessions(bench: &Bench) -> Vec<u64> {
    (0..16).zip(bench.records).filter(|(_, record)| record.open).map(|(number, _)| number).collect()
}

/// An entry to ask for, mostly a sensible one.
pub fn call(rng: &mut Rng, case: &World) -> Call {
    let odd_number = rng.pick(&[15, 16, 17, 256, 65_536, 4_000_000_000, u64::MAX], 16);
    let loaded = loaded_slots(&case.bench);
    let open = open_sessions(&case.bench);
    let any = rng.up_to(15);
    let number = |rng: &mut Rng, known: &[u64]| match rng.up_to(9) {
        0 => odd_number,
        1 | 2 => any,
        _ => rng.pick(known, any),
    };
    match rng.up_to(12) {
        0 => {
            let store = case.store.len() as u64;
            let start = match rng.up_to(5) {
                0 => rng.pick(&[1, 3, store, store + 1, store + 2, u64::MAX], 1),
                _ => rng.up_to(store / 2) * 2,
            };
            let length = match rng.up_to(3) {
                0 => rng.pick(&[0, 1, 30, 31, u64::MAX, store, store.saturating_sub(start)], 0),
                _ => rng.up_to(store / 2 + 1) * 2,
            };
            let slot = number(rng, &[any]);
            Call::Load { slot, start, length }
        }
        1 => {
            // reload a range that some slot has
            let known = case.bench.slots.get(rng.pick(&loaded, 0) as usize).copied();
            let known = known.unwrap_or(Slot::EMPTY);
            Call::Load { slot: number(rng, &[any]), start: known.start, length: known.length }
        }
        2..=4 => {
            let length = match rng.up_to(4) {
                0 => rng.pick(&[15, 16, 32_768, 32_769, 0, 6, u64::MAX], 16),
                _ => rng.between(16, 70) as u64,
            };
            let slot = number(rng, &loaded);
            if rng.chance(1, 2) { Call::Open { slot, length } } else { window::opening(rng, case, slot, length) }
        }
        5..=10 => {
            let k = rng.pick(&[0, 1, 2, 9, 30, 30, 200, 200, 1_000, 65_536, u64::MAX], 9);
            let k = if rng.chance(1, 60) { 65_535 } else { k };
            Call::Turn { session: number(rng, &open), k }
        }
        11 => Call::Close { session: number(rng, &open) },
        _ => match rng.up_to(9) {
            0 => Call::New {
                shared: rng.pick(&[0, 1, 32_768, 32_769, u64::MAX], 0),
                words: rng.pick(&[0, 1, 32_768, 1_048_576, 1_048_577, u64::MAX], 0),
            },
            _ => Call::Turn { session: number(rng, &open), k: 1 },
        },
    }
}

/// Entries from several sessions on one bench, which may be damaged.
pub fn sequence_case(rng: &mut Rng) -> SequenceCase {
    let mut start = sound_bench(rng);
    if rng.chance(1, 6) {
        let mut spoilt = start.clone();
        let kind = rng.pick(&DAMAGES, "M outside");
        // the million-word memories are left to the damage cases
        if kind != LARGE && damage(rng, &mut spoilt, kind).is_some() {
            start = spoilt;
        }
    }
    let mut now = start.clone();
    let mut calls = Vec::new();
    for _ in 0..rng.pick(&[3, 10, 30], 10) {
        let next = call(rng, &now);
        let _ = ask(&mut now, next);
        calls.push(next);
    }
    SequenceCase { start, calls }
}

// ------------------------------------------------------------------- refusals

/// Which refusals each entry can give; 0 is none.  "Order: loading 11, 12, 17,
/// then 1 to 8. Turning 1 to 10. Opening 11, 12, 13, 14, 15. Turn and closing
/// 11, 12, 16."  (16 is a turn's alone.)  Request 7 of 02 adds the archive's:
/// "refusal 23, after 11".
pub fn possible_refusals() -> [(&'static str, &'static [u32]); 10] {
    [
        ("turning", &[0, 1, 2, 3, 4, 5, 6, 7, 8, 9, 10]),
        ("new bench", &[0, 17]),
        ("loading", &[0, 11, 12, 17, 1, 2, 3, 4, 5, 6, 7, 8]),
        ("opening", &[0, 11, 12, 13, 14, 15]),
        ("opening with a window", &[0, 11, 12, 13, 14, 15]),
        ("opening for a farm", &[0, 11, 23, 12, 13, 14, 15]),
        ("archive", &[0, 11, 23]),
        ("a farm's range", &[0, 11, 23]),
        ("turn", &[0, 11, 12, 16]),
        ("closing", &[0, 11, 12]),
    ]
}

/// A loading of each sort of nearly valid segment, on an empty bench, so that
/// loading meets every refusal.
pub fn loading_case(rng: &mut Rng) -> SequenceCase {
    let bytes = match rng.up_to(2) {
        0 => valid_segment(rng, ORDINARY),
        1 => nearly_valid_segment(rng),
        _ => damaged_segment(rng),
    };
    let length = bytes.len() as u64;
    let lead = rng.pick(&[0u64, 2, 4, 1], 0);
    let mut store = vec![7; lead as usize];
    store.extend(bytes);
    store.extend(vec![7; rng.pick(&[0usize, 1, 8], 0)]);
    let length = length + rng.pick(&[0, 0, 0, 0, 2, 10], 0);
    let bench = bench::new_bench(0, 0).unwrap_or_else(|_| blank_bench());
    let start = World { bench, memory: Vec::new(), store };
    let slot = rng.pick(&[0, 3, 15, 15, 16], 0);
    let call = Call::Load { slot, start: lead, length };
    // the second asks for a loaded slot, if the first went well
    SequenceCase { start, calls: vec![call, call] }
}
