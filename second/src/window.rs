//! Windows and archives (request 7 of 02) for the generator: windows of all
//! sorts, archives accepted and nearly so, benches that open sessions on them;
//! and what an indexed read comes to at the window's ends, counted by first byte
//! apart from what the step comes to.

use crate::archive::RECORD_WORDS;
use crate::bench::{self, Window};
use crate::generate::{loaded_slots, open_sessions, put_word, Outcome, Rng, SMALL};
use crate::machine::{Decoded, Kind, Op, Session};
use crate::segment::Sex;
use crate::world::{ask, blank_bench, Call, Request, World};

// --------------------------------------------------------------------- pairs

/// From here on a pair says where an indexed read, or a store, meets the window;
/// a step can count for such a pair besides its own.
pub const WINDOW: u32 = 112;
/// A read of the first word of a window that does not begin at word 0.
pub const FIRST: u32 = WINDOW;
/// A read of the last word of a window that does not end at S.
pub const LAST: u32 = WINDOW + 1;
/// One past the window, and S has a word there: 6.
pub const PAST_IN_S: u32 = WINDOW + 2;
/// One past a window that ends at S: 6.
pub const PAST_S: u32 = WINDOW + 3;
/// Further past the window, and S has a word there: 6.
pub const BEYOND_IN_S: u32 = WINDOW + 4;
/// Address 32,768 with an empty window, though S has words: 6.
pub const EMPTY: u32 = WINDOW + 5;
/// Address 32,767, where S has a word before the window: 6.
pub const BELOW: u32 = WINDOW + 6;
/// A sum above 65,535: 6.
pub const SUM: u32 = WINDOW + 7;
/// A store to a word of the window, and to one of S outside it: 6.
pub const STORED: u32 = WINDOW + 8;
pub const STORED_OUTSIDE: u32 = WINDOW + 9;

const NAMES: [&str; 10] = [
    "window's first word", "window's last word", "6 past the window, in S", "6 past the window, at S",
    "6 beyond the window, in S", "6 in an empty window", "6 below the window", "6 by the sum",
    "6 store into the window", "6 store beside the window",
];

/// A pair from `WINDOW` on, in words.
pub fn name(end: u32) -> &'static str {
    NAMES.get((end - WINDOW) as usize).unwrap_or(&"-")
}

/// Which first bytes read by an index, and which store through an address.
/// (Written from 000's entries and 01's list, not from the interpreter.)
pub fn possible(first: u8) -> Vec<Outcome> {
    let ends = match first {
        // with index 0 no sum is above 65,535
        120 => FIRST..=BELOW,
        121..=127 | 230 => FIRST..=SUM,
        196 => STORED..=STORED_OUTSIDE,
        _ => return Vec::new(),
    };
    ends.map(|end| (Some(first), end)).collect()
}

/// What a read or a store meets.
#[derive(Clone, Copy, Debug, PartialEq, Eq)]
pub struct Met {
    first: u8,
    end: u32,
}

impl Met {
    /// `None` where it is of no account; `all` is S.
    pub fn meet(
        first: Option<u8>,
        decoded: Option<&Decoded>,
        session: &Session,
        region: &[u16],
        window: Window,
        all: u64,
    ) -> Option<Met> {
        let on_stack =
            |at: u64| region.get(usize::try_from(session.sp.checked_add(at)?).ok()?).copied();
        let sees = Sees { window, all, region: region.len() as u64 };
        let decoded = decoded?;
        let end = match decoded.instruction.op {
            Op::LoadIndexed => sees.read(u64::from(on_stack(0).filter(|base| *base != 0)?) + decoded.value as u64),
            Op::StoreIndirect => sees.store(u64::from(on_stack(1)?)),
            _ => None,
        };
        Some(Met { first: first?, end: end? })
    }

    /// The pair that the step counts for, if any.
    pub fn counted(&self, after: &Session) -> Option<Outcome> {
        let came = match after.kind {
            Kind::Ready => matches!(self.end, FIRST | LAST),
            Kind::Faulted { number, .. } => number == 6 && !matches!(self.end, FIRST | LAST),
            Kind::Finished => false,
        };
        came.then_some((Some(self.first), self.end))
    }
}

/// What a session sees: its window of the S words, and its region's length.
struct Sees {
    window: Window,
    all: u64,
    region: u64,
}

impl Sees {
    fn read(&self, sum: u64) -> Option<u32> {
        let Window { first, count } = self.window;
        if sum > 65_535 {
            return Some(SUM);
        }
        if sum == 32_767 && first > 0 && self.region < 32_768 {
            return Some(BELOW);
        }
        let at = sum.checked_sub(32_768)?;
        let in_s = first.saturating_add(at) < self.all;
        match at {
            0 if count == 0 => (self.all > 0).then_some(EMPTY),
            0 if first > 0 => Some(FIRST),
            _ if at + 1 == count => (first.saturating_add(count) < self.all).then_some(LAST),
            _ if at == count => Some(if in_s { PAST_IN_S } else { PAST_S }),
            _ => (at > count && in_s).then_some(BEYOND_IN_S),
        }
    }

    fn store(&self, address: u64) -> Option<u32> {
        let at = address.checked_sub(32_768)?;
        match at {
            _ if at < self.window.count => Some(STORED),
            _ => (self.window.first.saturating_add(at) < self.all).then_some(STORED_OUTSIDE),
        }
    }
}

/// A window that lets a pair be met, or the one that is there.
pub fn wished(rng: &mut Rng, hoped: u32, now: Window, all: u64) -> Window {
    if hoped < WINDOW || all == 0 || rng.chance(1, 3) {
        return now;
    }
    let first = rng.pick(&[0, 1, all / 2, all - 1, all], 0).min(all);
    let rest = all - first;
    let count = rng.pick(&[0, 1, rest / 2, rest.saturating_sub(1), rest], rest).min(rest);
    match hoped {
        EMPTY => Window { first, count: 0 },
        PAST_S => Window { first, count: rest },
        _ => Window { first, count },
    }
}

/// A base that lets the pair be met: with SIND's own index, or with one that IND
/// may have.
pub fn wished_base(rng: &mut Rng, hoped: Outcome, window: Window) -> Option<u16> {
    let index = match hoped.0? {
        first @ 120..=127 => i64::from(first) - 120,
        230 => rng.pick(&[0, 1, 5], 0),
        _ => 0,
    };
    let count = window.count as i64;
    let address = match hoped.1 {
        FIRST | EMPTY => 32_768,
        LAST => 32_768 + count - 1,
        PAST_IN_S | PAST_S => 32_768 + count,
        BEYOND_IN_S => 32_768 + count + rng.between(1, 4),
        BELOW => 32_767,
        SUM => 65_536 + rng.between(0, (index - 1).max(0)),
        STORED => 32_768 + rng.pick_in(&[0, count - 1], 0, (count - 1).max(0)),
        STORED_OUTSIDE => 32_768 + count + rng.between(0, 2),
        _ => return None,
    };
    Some((address - index).clamp(1, 65_535) as u16)
}

// ------------------------------------------------------------------- windows

/// A window inside the S words: all of them, none, or some.
pub fn some_window(rng: &mut Rng, all: u64) -> Window {
    let first = match rng.up_to(4) {
        0 => 0,
        1 => all,
        _ => rng.up_to(all),
    };
    let rest = all - first;
    let count = match rng.up_to(4) {
        0 => 0,
        1 => rest,
        _ => rng.up_to(rest),
    };
    if rng.chance(1, 4) { Window::all(all) } else { Window { first, count } }
}

/// A window as an opening may name it: mostly inside, else beside a limit or far
/// beyond.
pub fn named_window(rng: &mut Rng, all: u64) -> Window {
    let Window { first, count } = some_window(rng, all);
    match rng.up_to(9) {
        0 => Window { first, count: all - first + 1 },
        1 => Window { first: all + 1, count: 0 },
        2 => far(rng, first, count),
        _ => Window { first, count },
    }
}

/// A window whose numbers, or whose sum, are cut by 32 or 64 bits.
pub fn far(rng: &mut Rng, first: u64, count: u64) -> Window {
    let wide = 1 << 32;
    // two words at least, so that the number after `wraps` is not 0
    let some = count.max(2);
    let wraps = 0u64.wrapping_sub(some);
    let (first, count) = rng.pick(
        &[
            (wide + first, count), (first, wide + count), (wide, 0), (wide - 1, 1), (0, wide), (first, wide - first),
            (wraps, some), (wraps + 1, some), (u64::MAX, 1), (1, u64::MAX), (u64::MAX, 0),
            (0, u64::MAX), (1 << 63, 1 << 63), (u64::MAX, u64::MAX), (2, u64::MAX - 1),
        ],
        (u64::MAX, 1),
    );
    Window { first, count }
}

// ------------------------------------------------------------------ archives

const FARMS: [u16; 8] = [0, 1, 7, 255, 32_767, 32_768, 65_534, 65_535];

/// Farm numbers that never fall.
fn farms(rng: &mut Rng, records: usize) -> Vec<u16> {
    let mut farms: Vec<u16> = (0..records)
        .map(|_| if rng.chance(2, 3) { rng.pick(&FARMS, 0) } else { rng.up_to(9) as u16 })
        .collect();
    farms.sort_unstable();
    farms
}

/// An archive that is accepted; the other words of its records are any.
fn accepted(rng: &mut Rng) -> Vec<u16> {
    let records = rng.pick(&[0, 1, 2, 3, 4, 5, 7, 9], 3);
    let alike = rng.next() as u16;
    let mut words = Vec::new();
    for farm in farms(rng, records) {
        words.push(farm);
        words.extend((1..RECORD_WORDS).map(|_| if rng.chance(1, 2) { rng.next() as u16 } else { alike }));
    }
    words
}

/// One thing changed: a farm number at or beside its neighbours', two records
/// exchanged, a word more or less; it may be accepted still.
fn nearly_accepted(rng: &mut Rng) -> Vec<u16> {
    let mut words = accepted(rng);
    let records = words.len() / RECORD_WORDS;
    let any = rng.up_to(9) as usize % records.max(1);
    let at = rng.pick(&[0, 1, records.saturating_sub(1), any], 0);
    let beside = words.get(RECORD_WORDS * at.saturating_sub(1)).copied().unwrap_or(0);
    match rng.up_to(6) {
        0 => words.extend(vec![9; rng.between(1, 3) as usize]),
        1 => words.truncate(words.len().saturating_sub(rng.between(1, 3) as usize)),
        2 if records > 1 => {
            let last = RECORD_WORDS * (records - 1);
            words.swap(0, last);
        }
        _ => {
            let near = [beside, beside.wrapping_sub(1), beside.wrapping_add(1), beside ^ 0x8000, beside.swap_bytes()];
            if let Some(farm) = words.get_mut(RECORD_WORDS * at) {
                *farm = rng.pick(&near, 0);
            }
        }
    }
    words
}

/// The S words of a bench.
pub fn shared_words(rng: &mut Rng) -> Vec<u16> {
    match rng.up_to(7) {
        0 => Vec::new(),
        1 => (0..rng.pick(&[1, 2, 5, 6, 40], 1)).map(|_| rng.next() as u16).collect(),
        2 | 3 => nearly_accepted(rng),
        _ => accepted(rng),
    }
}

/// A farm: one that the archive has, one beside it, or any; seldom more than a
/// word.
pub fn some_farm(rng: &mut Rng, world: &World) -> u64 {
    let shared = world.memory.get(..world.bench.shared.min(64) as usize).unwrap_or(&[]);
    let farms: Vec<u16> = shared.iter().step_by(RECORD_WORDS).copied().collect();
    let farm = rng.pick(&farms, 3);
    let farm = match rng.up_to(9) {
        0 => farm.wrapping_add(1),
        1 => farm.wrapping_sub(1),
        2 => rng.pick(&FARMS, 0),
        3 => rng.pick(shared, 0),
        _ => farm,
    };
    u64::from(farm) + rng.pick(&[0, 0, 0, 0, 0, 0, 0, 0, 65_536, 1 << 32], 0)
}

/// An opening of one of the three sorts.
pub fn opening(rng: &mut Rng, world: &World, slot: u64, length: u64) -> Call {
    match rng.up_to(4) {
        0 | 1 => Call::OpenFor { slot, length, farm: some_farm(rng, world) },
        2 | 3 => Call::OpenOn { slot, length, window: named_window(rng, world.bench.shared.min(32_768)) },
        _ => Call::Open { slot, length },
    }
}

/// A question to the archive.
pub fn question(rng: &mut Rng, world: &World) -> Request {
    if rng.chance(1, 3) { Request::Archive } else { Request::Farm(some_farm(rng, world)) }
}

// -------------------------------------------------------------------- benches

/// A report of one global that holds an address: it reads the word there, keeps
/// it in another, and goes one word on, without end.  SIND or IND reads it.
fn reads_on(rng: &mut Rng) -> Vec<u8> {
    let from = 32_768 + rng.pick(&[0u16, 0, 0, 1, 4, 32_767], 0);
    let index = rng.pick(&[0u16, 0, 1, 7], 0);
    let [low, high] = from.wrapping_sub(index).to_le_bytes();
    let mut code = vec![129, low, high, 165, 1]; // LDCI, SRO 1
    let begin = code.len();
    code.push(48); // SLDO1
    match rng.up_to(1) {
        0 => code.push(120 + index as u8),
        _ => code.extend([230, index as u8]),
    }
    code.extend([50, 162, 165, 3, 48, 237, 165, 1]); // SLDO3 ADI SRO 3, SLDO1 INCI SRO 1
    let back = begin as i64 - (code.len() as i64 + 2);
    code.extend([138, back as i8 as u8]);
    if code.len() % 2 == 1 {
        code.push(156);
    }
    let mut bytes = SMALL[..30].to_vec();
    let sex = if rng.chance(1, 2) { Sex::LeastFirst } else { Sex::MostFirst };
    for (word, value) in [(0, 11), (6, 1), (8, 2), (11, 1), (12, 14), (13, 30), (14, 3)] {
        put_word(&mut bytes, sex, word, value);
    }
    bytes.extend(code);
    bytes
}

/// A bench with an archive, such a report loaded, sessions opened in several
/// ways, and questions, turns and closings.
pub fn bench_case(rng: &mut Rng) -> (World, Vec<Request>) {
    let mut memory = if rng.chance(1, 3) { nearly_accepted(rng) } else { accepted(rng) };
    let shared = memory.len() as u64;
    memory.resize(memory.len() + rng.between(30, 120) as usize, 9);
    let store = reads_on(rng);
    let length = store.len() as u64;
    let bench = bench::new_bench(shared, memory.len() as u64).unwrap_or_else(|_| blank_bench());
    let mut start = World { bench, memory, store };
    let slot = rng.up_to(15);
    let _ = ask(&mut start, Call::Load { slot, start: 0, length });
    let mut now = start.clone();
    let mut requests = vec![Request::Archive];
    for _ in 0..rng.between(4, 9) {
        let next = some_request(rng, &now);
        if let Request::Entry(call) = next {
            let _ = ask(&mut now, call);
        }
        requests.push(next);
    }
    (start, requests)
}

/// A question, an opening, a turn or a closing.
pub fn some_request(rng: &mut Rng, now: &World) -> Request {
    let slot = rng.pick(&loaded_slots(&now.bench), 0);
    let open = open_sessions(&now.bench);
    let session = rng.pick(&open, 0);
    match rng.up_to(9) {
        0..=2 => question(rng, now),
        3..=5 => {
            let length = rng.between(16, 24) as u64;
            let slot = if rng.chance(1, 9) { rng.up_to(17) } else { slot };
            let length = if rng.chance(1, 9) { rng.pick(&[15, 900, 32_769], 15) } else { length };
            Request::Entry(opening(rng, now, slot, length))
        }
        6..=8 => Request::Entry(Call::Turn { session, k: rng.pick(&[1, 9, 60, 300, 300], 60) }),
        _ => Request::Entry(Call::Close { session }),
    }
}

/// Other shared words beneath the sessions of a bench: what they read is what is
/// there now.
pub fn other_words(rng: &mut Rng, world: &mut World) {
    let shared = world.bench.shared.min(world.memory.len() as u64);
    for _ in 0..rng.between(1, 3) {
        let at = rng.up_to(shared.saturating_sub(1)) as usize;
        let new = rng.next() as u16;
        if let (true, Some(word)) = (shared > 0, world.memory.get_mut(at)) {
            *word = new;
        }
    }
}
