//! The bench: 16 segment slots and 16 session records, its soundness and its
//! entries.  The caller lends the code store (bytes) and the memory (16-bit
//! words).  Numbers at an entry are u64 so that too large ones can be asked
//! for (open question 30).

use crate::machine::{self, Kind, Session};
use crate::segment::{refusal, Refusal, Segment};

/// "N at most 1,048,576".
pub const MOST_WORDS: u64 = 1_048_576;
/// "S at most 32,768 and at most N".
pub const MOST_SHARED: u64 = 32_768;

/// A slot and the range of the store it names.
#[derive(Clone, Copy, Debug, PartialEq, Eq)]
pub struct Slot {
    pub loaded: bool,
    /// First byte in the store.
    pub start: u64,
    /// Bytes.
    pub length: u64,
}

impl Slot {
    pub const EMPTY: Slot = Slot { loaded: false, start: 0, length: 0 };
}

/// The shared words that a session sees.  Request 7 of 02: "The runner's session
/// record gains the window; older openings have all S words."
#[derive(Clone, Copy, Debug, PartialEq, Eq)]
pub struct Window {
    /// Its first word among the shared words.
    pub first: u64,
    /// How many words it has.
    pub count: u64,
}

impl Window {
    /// That of an unused record, and of a farm without records: "empty at word 0".
    pub const NONE: Window = Window { first: 0, count: 0 };

    /// All S words.
    pub fn all(shared: u64) -> Window {
        Window { first: 0, count: shared }
    }

    /// Whether it is inside the S words; a sum beyond 64 bits is not.
    pub fn is_inside(&self, shared: u64) -> bool {
        self.first.checked_add(self.count).is_some_and(|end| end <= shared)
    }

    /// Its words among the shared ones, if it is inside them.
    pub fn words<'a>(&self, shared: &'a [u16]) -> Option<&'a [u16]> {
        let end = self.first.checked_add(self.count)?;
        shared.get(usize::try_from(self.first).ok()?..usize::try_from(end).ok()?)
    }
}

/// A session record: the slot it names, its region, its window and its session.
#[derive(Clone, Copy, Debug, PartialEq, Eq)]
pub struct Record {
    pub open: bool,
    pub slot: u64,
    /// First word of the region in memory.
    pub base: u64,
    /// L
    pub length: u64,
    pub window: Window,
    pub session: Session,
}

impl Record {
    /// An unused record holds zeroes (open question 29).
    pub const UNUSED: Record = Record {
        open: false,
        slot: 0,
        base: 0,
        length: 0,
        window: Window::NONE,
        session: Session { sp: 0, m: 0, counter: 0, routine: 0, low: 0, kind: Kind::Ready },
    };

    /// The word after the region, if such a number can be.
    fn end(&self) -> Option<u64> {
        self.base.checked_add(self.length)
    }

    /// Whether the region ends at or below a word.
    fn ends_by(&self, word: u64) -> bool {
        self.end().is_some_and(|end| end <= word)
    }
}

/// "A bench has 16 segment slots and 16 session records, both numbered 0 to
/// 15."
#[derive(Clone, Debug, PartialEq, Eq)]
pub struct Bench {
    /// S
    pub shared: u64,
    /// N
    pub words: u64,
    pub slots: [Slot; 16],
    pub records: [Record; 16],
}

/// S and N keep their limits: "N at most 1,048,576", "S at most 32,768 and at
/// most N".
fn sizes_keep_limits(shared: u64, words: u64) -> bool {
    words <= MOST_WORDS && shared <= MOST_SHARED && shared <= words
}

/// The bytes of start..start+length, if they lie in the store.
fn range(store: &[u8], start: u64, length: u64) -> Option<&[u8]> {
    let end = start.checked_add(length)?;
    store.get(usize::try_from(start).ok()?..usize::try_from(end).ok()?)
}

/// The slot with a number, if there is one and it is loaded.
fn loaded_slot(bench: &Bench, number: u64) -> Option<Slot> {
    let slot = bench.slots.get(usize::try_from(number).ok()?)?;
    slot.loaded.then_some(*slot)
}

/// The record with a number, if there is one and it is open.
fn open_record(bench: &Bench, number: u64) -> Option<Record> {
    let record = bench.records.get(usize::try_from(number).ok()?)?;
    record.open.then_some(*record)
}

/// The judged segment of a loaded slot.
fn segment_of<'a>(store: &'a [u8], slot: &Slot) -> Option<Segment<'a>> {
    Segment::judge(range(store, slot.start, slot.length)?).ok()
}

/// "A bench is sound when S and N keep their limits; memory has N words; every
/// loaded slot's range lies in the store and passes checks 1 to 8; every open
/// region lies from word S up and inside memory; no two regions overlap
/// (touching is allowed); and every open session names a loaded slot [...]"
pub fn is_sound(bench: &Bench, memory: &[u16], store: &[u8]) -> bool {
    sizes_keep_limits(bench.shared, bench.words)
        && memory.len() as u64 == bench.words
        && loaded_slots_are_good(bench, store)
        && regions_lie_well(bench)
        && regions_are_apart(bench)
        && windows_lie_well(bench)
        && open_records(bench).all(|record| session_is_good(bench, store, &record))
}

fn open_records(bench: &Bench) -> impl Iterator<Item = Record> + '_ {
    bench.records.iter().filter(|record| record.open).copied()
}

/// "every loaded slot's range lies in the store and passes checks 1 to 8"
fn loaded_slots_are_good(bench: &Bench, store: &[u8]) -> bool {
    bench.slots.iter().filter(|slot| slot.loaded).all(|slot| segment_of(store, slot).is_some())
}

/// "every open region lies from word S up and inside memory"
fn regions_lie_well(bench: &Bench) -> bool {
    open_records(bench)
        .all(|record| record.base >= bench.shared && record.ends_by(bench.words))
}

/// "no two regions overlap (touching is allowed)"
fn regions_are_apart(bench: &Bench) -> bool {
    let open: Vec<Record> = open_records(bench).collect();
    open.iter().enumerate().all(|(index, one)| {
        open.iter()
            .skip(index + 1)
            .all(|other| one.ends_by(other.base) || other.ends_by(one.base))
    })
}

/// Request 7 of 02: "A window not inside the S words gets 13, in soundness 11."
fn windows_lie_well(bench: &Bench) -> bool {
    open_records(bench).all(|record| record.window.is_inside(bench.shared))
}

/// "every open session names a loaded slot, has L in 16..32,768, 6+G at most
/// L, stack pointer in 6+G..L, record pointer in 1..L-5, counter in 22..2W,
/// routine number in 1..n and, if faulted, fault in 1..10 and place in 22..2W.
/// G is DATASIZE of its routine 1."  Request 3 of 02: "A sound bench now also
/// has this mark in 6+G..SP", the lowest SP reached.
fn session_is_good(bench: &Bench, store: &[u8], record: &Record) -> bool {
    let Some(slot) = loaded_slot(bench, record.slot) else {
        return false;
    };
    let Some(segment) = segment_of(store, &slot) else {
        return false;
    };
    let length = record.length;
    let floor = 6 + u64::from(segment.global_size());
    let bytes = 2 * u64::from(segment.words);
    let session = record.session;
    (16..=32_768).contains(&length)
        && floor <= length
        && (floor..=length).contains(&session.sp)
        && (floor..=session.sp).contains(&session.low)
        && (1..=length - 5).contains(&session.m)
        && (22..=bytes).contains(&session.counter)
        && (1..=u64::from(segment.count())).contains(&session.routine)
        && match session.kind {
            Kind::Ready | Kind::Finished => true,
            Kind::Faulted { number, place } => {
                (1..=10).contains(&number) && (22..=bytes).contains(&place)
            }
        }
}

/// "11 bench not sound for the lent memory and store", first in every order.
pub fn check_11(bench: &Bench, memory: &[u16], store: &[u8]) -> Result<(), Refusal> {
    if is_sound(bench, memory, store) {
        Ok(())
    } else {
        Err(refusal(11))
    }
}

/// "A new bench has no slot loaded and no record used, and touches no word."
/// "17 [...] new bench: S or N beyond its limit".
pub fn new_bench(shared: u64, words: u64) -> Result<Bench, Refusal> {
    if !sizes_keep_limits(shared, words) {
        return Err(refusal(17));
    }
    Ok(Bench {
        shared,
        words,
        slots: [Slot::EMPTY; 16],
        records: [Record::UNUSED; 16],
    })
}

/// "loading 11, 12, 17, then 1 to 8"
pub fn load(
    bench: &mut Bench,
    memory: &[u16],
    store: &[u8],
    slot: u64,
    start: u64,
    length: u64,
) -> Result<(), Refusal> {
    check_11(bench, memory, store)?;
    // "slot [...] number above 15; [...] (loading: already loaded)"
    let free = usize::try_from(slot)
        .ok()
        .and_then(|number| bench.slots.get_mut(number))
        .filter(|slot| !slot.loaded)
        .ok_or(refusal(12))?;
    // "start odd, or start plus length beyond the store"
    let bytes = range(store, start, length).filter(|_| start % 2 == 0).ok_or(refusal(17))?;
    Segment::judge(bytes)?;
    *free = Slot { loaded: true, start, length };
    Ok(())
}

/// The older opening: it has "all S words".
pub fn open(
    bench: &mut Bench,
    memory: &mut [u16],
    store: &[u8],
    slot: u64,
    length: u64,
) -> Result<u64, Refusal> {
    let window = Window::all(bench.shared);
    open_on(bench, memory, store, slot, length, window)
}

/// "Opening 11, 12, 13, 14, 15."  "Opening gives the lowest gap that fits,
/// from word S up, and the lowest unused record, sets every word of the region
/// to zero, and starts routine 1."  Gives the session number.
pub fn open_on(
    bench: &mut Bench,
    memory: &mut [u16],
    store: &[u8],
    slot: u64,
    length: u64,
    window: Window,
) -> Result<u64, Refusal> {
    check_11(bench, memory, store)?;
    // "slot [...] number above 15; slot not loaded".  A loaded slot of a sound
    // bench has a judged segment.
    let segment =
        loaded_slot(bench, slot).and_then(|slot| segment_of(store, &slot)).ok_or(refusal(12))?;
    // "L outside 16..32,768, or L below 6+G"; request 7 of 02: "A window not
    // inside the S words gets 13"
    let least = 16.max(6 + u64::from(segment.global_size()));
    if !(least..=32_768).contains(&length) || !window.is_inside(bench.shared) {
        return Err(refusal(13));
    }
    // "no record unused"
    let number = bench.records.iter().position(|record| !record.open).ok_or(refusal(14))?;
    // "no gap of L free words"
    let base = lowest_gap(bench, length).ok_or(refusal(15))?;

    for word in memory.iter_mut().skip(base as usize).take(length as usize) {
        *word = 0;
    }
    if let Some(record) = bench.records.get_mut(number) {
        *record = Record {
            open: true,
            slot,
            base,
            length,
            window,
            session: machine::starting_state(&segment, length),
        };
    }
    Ok(number as u64)
}

/// "the lowest gap that fits, from word S up".  The lowest one begins at S or
/// at the end of an open region, since else the word before it is free too.
fn lowest_gap(bench: &Bench, length: u64) -> Option<u64> {
    let mut begins = vec![bench.shared];
    begins.extend(open_records(bench).filter_map(|record| record.end()));
    begins.sort_unstable();
    begins.into_iter().find(|&begin| {
        let end = begin + length;
        end <= bench.words
            && open_records(bench).all(|record| end <= record.base || record.ends_by(begin))
    })
}

/// How a turn is run: `machine::turn` or `fast::turn`.  The shared words that it
/// is handed are those of the session's window.
pub type Runner = fn(&Segment, &[u16], &mut [u16], &mut Session, u64) -> u64;

/// "Turn and closing 11, 12, 16."  Gives the steps done.
pub fn turn(
    bench: &mut Bench,
    memory: &mut [u16],
    store: &[u8],
    session: u64,
    k: u64,
) -> Result<u64, Refusal> {
    turn_by(machine::turn, bench, memory, store, session, k)
}

/// A turn by a named runner.
pub fn turn_by(
    runner: Runner,
    bench: &mut Bench,
    memory: &mut [u16],
    store: &[u8],
    session: u64,
    k: u64,
) -> Result<u64, Refusal> {
    check_11(bench, memory, store)?;
    // "session number above 15; [...] session not open"
    let record = open_record(bench, session).ok_or(refusal(12))?;
    // "a turn of more than 65,535 steps"
    if k > 65_535 {
        return Err(refusal(16));
    }
    let segment = loaded_slot(bench, record.slot)
        .and_then(|slot| segment_of(store, &slot))
        .ok_or(refusal(11))?;
    // "The first S words are shared"; the region lies from S up.
    let (shared, others) =
        memory.split_at_mut_checked(bench.shared as usize).ok_or(refusal(11))?;
    let begin = record.base.checked_sub(bench.shared).ok_or(refusal(11))? as usize;
    let region =
        others.get_mut(begin..begin + record.length as usize).ok_or(refusal(11))?;
    // Request 7 of 02: "a session that sees only that range, at 32,768 onward"
    let seen = record.window.words(shared).ok_or(refusal(11))?;

    let mut state = record.session;
    let done = runner(&segment, seen, region, &mut state, k);
    if let Some(record) = bench.records.get_mut(session as usize) {
        record.session = state;
    }
    Ok(done)
}

/// "Closing zeroes the region and frees region and record. Freed words can be
/// given again."
pub fn close(
    bench: &mut Bench,
    memory: &mut [u16],
    store: &[u8],
    session: u64,
) -> Result<(), Refusal> {
    check_11(bench, memory, store)?;
    let record = open_record(bench, session).ok_or(refusal(12))?;
    for word in memory.iter_mut().skip(record.base as usize).take(record.length as usize) {
        *word = 0;
    }
    if let Some(record) = bench.records.get_mut(session as usize) {
        *record = Record::UNUSED;
    }
    Ok(())
}
