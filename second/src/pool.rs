//! Constant pools and case tables for the generator (request 2 of 02): how a
//! step of LDC or XJP is counted, pools of drafted segments, pools and tables
//! put at and beside their limits, and benches that run reports with a pool.

use crate::bench;
use crate::generate::{put_word, valid_segment, Outcome, Rng, Wish, GONE_ON, LIVELY};
use crate::machine::{self, Decoded, Op, Session};
use crate::segment::{Segment, Sex};
use crate::world::{blank_bench, Call, World};

// ---------------------------------------------------------- how it is counted

/// From here on an outcome is one of these, told apart from gone on and from
/// the faults 3, 4, 6 and 7 of LDC and XJP.
pub const POOL: u32 = 32;

// LDC goes on: with no words; with the stack just full; with the last word that
// may be read, below W or below the real pool; or by byte sex and mode.
pub const NO_WORDS: u32 = POOL;
pub const JUST_ROOM: u32 = POOL + 1;
pub const UP_TO_W: u32 = POOL + 2;
pub const UP_TO_REALS: u32 = POOL + 3;
pub const LEAST_FIRST: u32 = POOL + 4;
pub const LEAST_FIRST_MODE_2: u32 = POOL + 5;
pub const MOST_FIRST: u32 = POOL + 6;
pub const SWAPPED: u32 = POOL + 7;
// LDC's 4, where one word more would have had room.
pub const FULL_BY_ONE: u32 = POOL + 8;
// 6 with no pool, for LDC of no words apart.
pub const NO_POOL: u32 = POOL + 9;
pub const NO_POOL_NO_WORDS: u32 = POOL + 10;
// LDC's 6: its last word is W or above, W itself; it lies in the real pool, at
// its very start; and any of these where the stack has no room either.
pub const BEYOND_W: u32 = POOL + 11;
pub const AT_W: u32 = POOL + 12;
pub const IN_REALS: u32 = POOL + 13;
pub const AT_REALS: u32 = POOL + 14;
pub const BEYOND_WHEN_FULL: u32 = POOL + 15;
// XJP jumps, by where the index lies in the range.
pub const AT_BOTH: u32 = POOL + 16;
pub const AT_W1: u32 = POOL + 17;
pub const AT_W2: u32 = POOL + 18;
pub const BETWEEN_LEAST_FIRST: u32 = POOL + 19;
pub const BETWEEN_MOST_FIRST: u32 = POOL + 20;
// XJP goes on behind itself.
pub const BELOW_W1: u32 = POOL + 21;
pub const ABOVE_W2: u32 = POOL + 22;
pub const NEVER_IN_RANGE: u32 = POOL + 23;
// XJP's 3 where 6 would follow.
pub const STACK_BEFORE_POOL: u32 = POOL + 24;
// XJP's 6, by the word that cannot be read and the limit it breaks.
pub const W1_BY_W: u32 = POOL + 25;
pub const W1_BY_REALS: u32 = POOL + 26;
pub const W2_BY_W: u32 = POOL + 27;
pub const W2_BY_REALS: u32 = POOL + 28;
pub const W3_BY_W: u32 = POOL + 29;
pub const W3_BY_REALS: u32 = POOL + 30;
// XJP's 7.
pub const TARGET_BELOW_22: u32 = POOL + 31;
pub const TARGET_FROM_2W_ON: u32 = POOL + 32;

const NAMES: [&str; 33] = [
    "ok no words", "ok just room", "ok up to W", "ok up to the real pool", "ok least first",
    "ok least first mode 2", "ok most first", "ok swapped", "4 by one word", "6 no pool",
    "6 no pool no words", "6 beyond W", "6 at W", "6 in the real pool", "6 at the real pool",
    "6 and full", "ok at W1 and W2", "ok at W1", "ok at W2", "ok between", "ok between, most first",
    "ok below W1", "ok above W2", "ok W1 above W2", "3 before 6", "6 W1 by W", "6 W1 by the real pool",
    "6 W2 by W", "6 W2 by the real pool", "6 W3 by W", "6 W3 by the real pool", "7 below 22",
    "7 from 2W on",
];

/// An outcome from `POOL` on, in words.
pub fn name(end: u32) -> &'static str {
    NAMES.get((end - POOL) as usize).unwrap_or(&"-")
}

/// What LDC and XJP can come to, but for cuts.  (Written from 000's entries
/// and request 2, not from the interpreter.)
pub fn possible(first: u8) -> Vec<Outcome> {
    let ends: Vec<u32> = match first {
        131 => (NO_WORDS..=BEYOND_WHEN_FULL).chain([4]).collect(),
        214 => (AT_BOTH..=TARGET_FROM_2W_ON).chain([3, NO_POOL]).collect(),
        _ => Vec::new(),
    };
    ends.into_iter().map(|end| (Some(first), end)).collect()
}

/// What an LDC or XJP is counted as, by what it came to.
#[derive(Clone, Copy, Debug, PartialEq, Eq)]
pub struct Met([(u32, u32); 4]);

impl Met {
    /// `None` for other instructions and cut ones.
    pub fn meet(segment: &Segment, session: &Session, region: &[u16]) -> Option<Met> {
        let decoded = machine::decode(segment, session.counter).ok()?;
        let numbers = Numbers::of(segment, session);
        match decoded.instruction.op {
            Op::PushPoolWords => Some(numbers.load(&decoded)),
            Op::CaseJump => {
                let top = usize::try_from(session.sp).ok().and_then(|at| region.get(at));
                Some(numbers.case(segment, &decoded, i64::from(top.copied().unwrap_or(0) as i16)))
            }
            _ => None,
        }
    }

    pub fn counted(&self, end: u32) -> u32 {
        self.0.iter().find(|(plain, _)| *plain == end).map_or(end, |(_, counted)| *counted)
    }
}

/// The numbers that decide it.
struct Numbers {
    /// W, the pool pointer, the real pool's start
    words: i64,
    pool: i64,
    reals: i64,
    /// The words that the stack has room for.
    room: i64,
    most_first: bool,
}

impl Numbers {
    fn of(segment: &Segment, session: &Session) -> Numbers {
        Numbers {
            words: i64::from(segment.words),
            pool: i64::from(segment.pool),
            reals: i64::from(segment.real_start),
            room: session.sp as i64 - 6 - i64::from(segment.global_size()),
            most_first: segment.sex == Sex::MostFirst,
        }
    }

    fn load(&self, decoded: &Decoded) -> Met {
        let count = i64::from(decoded.count);
        let last = self.pool + decoded.value + count - 1;
        let gone_on = match (self.most_first, decoded.mode == 2) {
            _ if count == 0 => NO_WORDS,
            _ if self.room == count => JUST_ROOM,
            _ if last == self.words - 1 => UP_TO_W,
            _ if last == self.reals - 1 => UP_TO_REALS,
            (false, false) => LEAST_FIRST,
            (false, true) => LEAST_FIRST_MODE_2,
            (true, false) => MOST_FIRST,
            (true, true) => SWAPPED,
        };
        let six = match self.pool {
            0 if count == 0 => NO_POOL_NO_WORDS,
            0 => NO_POOL,
            _ if self.room < count => BEYOND_WHEN_FULL,
            _ if last == self.words => AT_W,
            _ if last > self.words => BEYOND_W,
            _ if last == self.reals => AT_REALS,
            _ => IN_REALS,
        };
        let four = if self.room == count - 1 { FULL_BY_ONE } else { 4 };
        Met([(GONE_ON, gone_on), (6, six), (4, four), (3, 3)])
    }

    fn case(&self, segment: &Segment, decoded: &Decoded, index: i64) -> Met {
        let table = self.pool + decoded.value;
        let word = |offset| segment.pool_word(offset).map_or(0, i64::from);
        let (least, most) = (word(decoded.value), word(decoded.value + 1));
        let third = decoded.value + 2 + index - least;
        let gone_on = match index {
            _ if least > most => NEVER_IN_RANGE,
            _ if index < least => BELOW_W1,
            _ if index > most => ABOVE_W2,
            _ if least == most => AT_BOTH,
            _ if index == least => AT_W1,
            _ if index == most => AT_W2,
            _ if self.most_first => BETWEEN_MOST_FIRST,
            _ => BETWEEN_LEAST_FIRST,
        };
        let six = match self.pool {
            0 => NO_POOL,
            _ if table >= self.words => W1_BY_W,
            _ if table >= self.reals => W1_BY_REALS,
            _ if table + 1 >= self.words => W2_BY_W,
            _ if table + 1 >= self.reals => W2_BY_REALS,
            _ if self.pool + third >= self.words => W3_BY_W,
            _ => W3_BY_REALS,
        };
        let three = if table + 1 >= self.reals { STACK_BEFORE_POOL } else { 3 };
        let target = decoded.next as i64 + word(third);
        let seven = if target < 22 { TARGET_BELOW_22 } else { TARGET_FROM_2W_ON };
        Met([(GONE_ON, gone_on), (6, six), (3, three), (7, seven)])
    }
}

// -------------------------------------------------------------------- drafts

/// The pool of a drafted segment.
pub struct Pool {
    /// Its pointer, 0 for none, and its first word.
    pub at: i64,
    pub first: i64,
    /// The words after the first, where it has the segment's end for itself.
    words: Vec<i64>,
    /// Words that may be read, the first included.
    readable: i64,
    /// The offset of a case table whose words are `LANDINGS` or less, or 0.
    table: i64,
}

/// How many bytes behind an XJP its tables of drafted pools may lead.
const LANDINGS: i64 = 4;

impl Pool {
    const NONE: Pool = Pool { at: 0, first: 0, words: Vec::new(), readable: 0, table: 0 };

    /// Where a program's other words end.
    pub fn rest(&self, words: i64) -> i64 {
        if self.words.is_empty() { words } else { self.at }
    }

    /// Its words in the segment.
    pub fn put(&self, bytes: &mut [u8], sex: Sex) {
        if self.at == 0 {
            return;
        }
        put_word(bytes, sex, self.at, self.first);
        for (at, word) in (self.at + 1..).zip(&self.words) {
            put_word(bytes, sex, at, *word);
        }
    }

    /// LDC of so many words, mostly readable ones.
    pub fn load(&self, rng: &mut Rng, count: i64) -> Vec<u8> {
        let offset = rng.between(0, self.readable - count).clamp(0, 127) as u8;
        vec![131, rng.pick(&[2, 2, 2, 0, 1, 3], 2), offset, count as u8]
    }

    /// XJP and `LANDINGS` bytes that change the word under the index, one after
    /// another: how many of them are jumped over shows.
    pub fn choose(&self) -> Vec<u8> {
        let mut code = vec![214, self.table as u8];
        code.extend([237, 225, 229, 238]); // INCI NGI LNOT DECI
        code
    }

    pub fn has_table(&self) -> bool {
        self.table != 0
    }
}

/// A pool for a segment of W words, `often` times of 12: anywhere, also over
/// other words, or, for a program, with words of its own at the segment's end.
pub fn drafted(rng: &mut Rng, often: u64, words: i64, program: bool) -> Pool {
    if !rng.chance(often, 12) {
        return Pool::NONE;
    }
    if program && words >= 30 && rng.chance(4, 5) {
        return with_words(rng, words);
    }
    let at = rng.pick_in(&[11, words - 1], 11, words - 1);
    let room = words - 1 - at;
    let first = if rng.chance(1, 2) { 0 } else { rng.pick_in(&[1, room], 1.min(room), room) };
    let readable = if first == 0 { words - at } else { first };
    Pool { at, first, readable, ..Pool::NONE }
}

/// A pool of its own, with a case table, half of them with a real pool.
fn with_words(rng: &mut Rng, words: i64) -> Pool {
    let size = rng.between(9, (words / 3).min(16));
    let reals = if rng.chance(1, 2) { 0 } else { rng.between(0, 3).min(size - 8) };
    let readable = size - reals;
    let first = if reals == 0 { 0 } else { readable };
    let mut own: Vec<i64> = (1..size).map(|_| rng.next() as i16 as i64).collect();
    // W1, W2 and a word each
    let cases = rng.between(1, (readable - 3).min(4));
    let table = rng.between(1, readable - 2 - cases);
    let least = rng.pick(&[0, 0, 1, -1, -2], 0);
    let mut case = vec![least, least + cases - 1];
    case.extend((0..cases).map(|_| rng.between(0, LANDINGS)));
    for (place, word) in own.iter_mut().skip(table as usize - 1).zip(case) {
        *place = word;
    }
    Pool { at: words - size, first, words: own, readable, table }
}

// ------------------------------------------------------- at and beside limits

/// A pool at or beside the limits of check 4: its pointer, mostly lawful, and
/// its first word.
pub fn beside_a_limit(rng: &mut Rng, bytes: &mut [u8], sex: Sex) {
    let words = bytes.len() as i64 / 2;
    let at = rng.pick_in(&[11, words - 1, words - 2, words / 2], 11, words - 1);
    let room = words - 1 - at;
    let first = match rng.up_to(9) {
        0 => 65_535,
        1 => 32_768,
        2 => rng.pick(&[256, 1], 1),
        // lawful if its bytes were the other way round
        3 => i64::from((room as u16).swap_bytes()),
        4 => 0,
        _ => rng.pick(&[room, room, room + 1, room + 1, room + 2, room - 1], room),
    };
    put_word(bytes, sex, 7, at);
    put_word(bytes, sex, at, first.max(0));
}

/// Whether an instruction looks at the pool.
pub fn looks_at_it(op: Op) -> bool {
    matches!(op, Op::PushPoolOffset | Op::PushPoolWords | Op::CaseJump)
}

/// Another pool for a single step, which may make the segment a bad one.
pub fn vary(rng: &mut Rng, bytes: &mut [u8], hoped: u32) {
    let Ok(segment) = Segment::judge(bytes) else { return };
    let (sex, words) = (segment.sex, i64::from(segment.words));
    let positions = segment.word_positions();
    let old = i64::from(segment.pool);
    if rng.chance(1, 3) {
        return;
    }
    let none = match hoped {
        NO_POOL | NO_POOL_NO_WORDS => true,
        POOL.. => false,
        _ => rng.chance(1, 10),
    };
    let lowest = if rng.chance(1, 2) { 11 } else { words / 2 };
    let at = rng.pick_in(&[lowest, old, words - 1, words - 2, words - 4, words - 9], 11, words - 1);
    let room = words - 1 - at;
    let first = match rng.up_to(2) {
        0 => 0,
        _ => rng.pick_in(&[1, 2, 3, 5, room, room - 1], 1.min(room), room),
    };
    put_word(bytes, sex, 7, if none { 0 } else { at });
    // over another number of the segment that number stays
    if !none && !positions.contains(&(at as u32)) {
        put_word(bytes, sex, at, first);
    }
}

/// LDC's offset and count: the last word at and beside the limits, the count at
/// and beside the room that the stack has.
pub fn telling_load(rng: &mut Rng, segment: &Segment, session: &Session) -> (Vec<i64>, i64) {
    let numbers = Numbers::of(segment, session);
    let room = numbers.room;
    let count = rng.pick_in(&[0, 1, 1, 2, 2, 3, 255, room - 1, room, room + 1], 0, 255);
    let mut offsets = vec![0, 1, 127, 128, 32_767];
    for limit in [numbers.words, numbers.reals, numbers.reals] {
        let to_it = limit - numbers.pool - count;
        offsets.extend([to_it - 1, to_it, to_it, to_it + 1, to_it + 2]);
    }
    (offsets, count)
}

/// XJP's offset: W1, W2 or W3 at and beside the limits.
pub fn telling_table(segment: &Segment) -> Vec<i64> {
    let mut offsets = vec![0, 1, 2, 3, 127, 128, 32_767];
    for limit in [segment.words, segment.real_start] {
        let to_it = i64::from(limit) - i64::from(segment.pool);
        offsets.extend((to_it - 4)..=(to_it + 1));
    }
    offsets
}

/// A case table where an XJP's offset leads: the index in it, beside it or far
/// away, its word at and beside the limits, and so the target.
pub fn lay_table(rng: &mut Rng, bytes: &mut [u8], offset: i64, next: i64, index: i64) {
    let Ok(segment) = Segment::judge(bytes) else { return };
    let (sex, words, reals) = (segment.sex, i64::from(segment.words), i64::from(segment.real_start));
    let table = i64::from(segment.pool) + offset;
    if segment.pool == 0 {
        return;
    }
    let beyond = reals - table - 2;
    let back = rng.pick(&[0, 0, 1, 1, 2, beyond - 1, beyond, beyond + 1, words - table - 2], 0);
    let least = match rng.up_to(9) {
        0 => index + 1,
        1 => -32_768,
        2 => rng.next() as i16 as i64,
        _ => index - back,
    };
    let least = least.clamp(-32_768, 32_767);
    let most = match rng.up_to(9) {
        0 => least - 1,
        1 => 32_767,
        2 => index - 1,
        3 => rng.next() as i16 as i64,
        4 | 5 => index,
        _ => index + rng.between(1, 3),
    };
    put_word(bytes, sex, table, least);
    put_word(bytes, sex, table + 1, most.clamp(-32_768, 32_767));
    let target = rng.pick(&[21, 22, 22, 2 * words - 1, 2 * words, next, 0, 2 * words + 9], next);
    // below W1 the first of the table's words, which is not looked at
    put_word(bytes, sex, table + 2 + (index - least).max(0), target - next);
}

/// A long segment, all bytes alike but for one routine and a pool: room for LDC
/// of as many words as a byte can say.
pub fn long(rng: &mut Rng) -> Vec<u8> {
    let words = rng.between(290, 420);
    let sex = if rng.chance(1, 2) { Sex::LeastFirst } else { Sex::MostFirst };
    let mut bytes = vec![rng.next() as u8; 2 * words as usize];
    let pool = rng.between(16, 40);
    let first = rng.pick(&[0, 0, 255, 256, words - 1 - pool], 0);
    let numbers = [(0, 11), (1, 0), (6, 1), (7, pool), (11, 1), (12, 14), (13, 22), (14, rng.between(0, 5))];
    for (at, word) in numbers.into_iter().chain([(pool, first)]) {
        put_word(&mut bytes, sex, at, word);
    }
    // some words of the pool that are not alike
    for _ in 0..8 {
        put_word(&mut bytes, sex, rng.between(pool + 1, words - 1), rng.next() as i64);
    }
    bytes
}

// -------------------------------------------------------------------- benches

/// A new bench, a segment with a pool in its store, and entries that load it,
/// open sessions, run them and close them.
pub fn bench_case(rng: &mut Rng) -> (World, Vec<Call>) {
    let bytes = valid_segment(rng, Wish { pools: 12, unlinked: 1, ..LIVELY });
    let lead = rng.pick(&[0usize, 0, 2, 6], 0);
    let mut store = vec![7; lead];
    store.extend(&bytes);
    let (shared, words) = (rng.pick(&[0u64, 0, 3], 0), 150);
    let bench = bench::new_bench(shared, words).unwrap_or_else(|_| blank_bench());
    let start = World { bench, memory: vec![rng.pick(&[0, 9], 0); words as usize], store };
    let slot = rng.up_to(15);
    let open = |rng: &mut Rng| Call::Open { slot, length: rng.between(20, 70) as u64 };
    let turn = |rng: &mut Rng, session| Call::Turn { session, k: rng.pick(&[1, 3, 9, 40, 200, 200], 1) };
    let calls = vec![
        Call::Load { slot, start: lead as u64, length: bytes.len() as u64 },
        open(rng),
        turn(rng, 0),
        open(rng),
        turn(rng, 1),
        turn(rng, 0),
        Call::Close { session: rng.up_to(1) },
        open(rng),
        turn(rng, 1),
        turn(rng, 0),
    ];
    (start, calls)
}
