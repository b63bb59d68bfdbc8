//! A world: a bench with the memory and the store lent to it; the requests
//! that can be put to it, and the interpreter's answers.  The generator and
//! the table of hand-worked cases make worlds, `cases` writes them as lines.

use crate::archive;
use crate::bench::{self, Bench, Record, Slot, Window};
use crate::segment::{self, Refusal, Segment};

/// A bench with what is lent.
#[derive(Clone, Debug, PartialEq, Eq)]
pub struct World {
    pub bench: Bench,
    pub memory: Vec<u16>,
    pub store: Vec<u8>,
}

/// A bench of no words with nothing loaded and nothing open.
pub fn blank_bench() -> Bench {
    Bench { shared: 0, words: 0, slots: [Slot::EMPTY; 16], records: [Record::UNUSED; 16] }
}

impl World {
    /// The world as a reader of cases has it at the start.
    pub fn blank() -> World {
        World { bench: blank_bench(), memory: Vec::new(), store: Vec::new() }
    }

    pub fn is_sound(&self) -> bool {
        bench::is_sound(&self.bench, &self.memory, &self.store)
    }

    /// The bytes of a slot's range, if they lie in the store.
    pub fn segment_bytes(&self, slot: u64) -> Option<&[u8]> {
        let slot = self.bench.slots.get(usize::try_from(slot).ok()?)?;
        let end = slot.start.checked_add(slot.length)?;
        self.store.get(usize::try_from(slot.start).ok()?..usize::try_from(end).ok()?)
    }

    /// The words of an open session's region.
    pub fn region(&self, session: usize) -> Option<&[u16]> {
        let record = self.bench.records.get(session)?;
        let end = record.base.checked_add(record.length)?;
        self.memory.get(usize::try_from(record.base).ok()?..usize::try_from(end).ok()?)
    }

    /// The shared words that an open session sees.
    pub fn window(&self, session: usize) -> Option<&[u16]> {
        let shared = self.memory.get(..usize::try_from(self.bench.shared).ok()?)?;
        self.bench.records.get(session)?.window.words(shared)
    }
}

/// An entry asked for.
#[derive(Clone, Copy, Debug, PartialEq, Eq)]
pub enum Call {
    New { shared: u64, words: u64 },
    Load { slot: u64, start: u64, length: u64 },
    Open { slot: u64, length: u64 },
    /// An opening that names its window.
    OpenOn { slot: u64, length: u64, window: Window },
    /// An opening for a farm of the archive; modulo 65,536.
    OpenFor { slot: u64, length: u64, farm: u64 },
    Turn { session: u64, k: u64 },
    Close { session: u64 },
}

/// Ask for one entry.  The number answered is the session opened, the steps
/// done, or 0.  A `New` puts a new bench in the place of the old one.
pub fn ask(world: &mut World, call: Call) -> Result<u64, Refusal> {
    let World { bench, memory, store } = world;
    match call {
        Call::New { shared, words } => {
            *bench = bench::new_bench(shared, words)?;
            Ok(0)
        }
        Call::Load { slot, start, length } => {
            bench::load(bench, memory, store, slot, start, length).map(|()| 0)
        }
        Call::Open { slot, length } => bench::open(bench, memory, store, slot, length),
        Call::OpenOn { slot, length, window } => {
            bench::open_on(bench, memory, store, slot, length, window)
        }
        Call::OpenFor { slot, length, farm } => {
            archive::open_for(bench, memory, store, slot, length, farm as u16)
        }
        Call::Turn { session, k } => bench::turn(bench, memory, store, session, k),
        Call::Close { session } => bench::close(bench, memory, store, session).map(|()| 0),
    }
}

/// Everything that can be asked of a world.
#[derive(Clone, Copy, Debug, PartialEq, Eq)]
pub enum Request {
    /// Judge the store as a segment.
    Judge,
    /// Turn the store into an output of so many bytes, each `UNWRITTEN`.
    TurnOver(u64),
    /// Whether the bench is sound.
    Sound,
    /// Judge the shared words as an archive.
    Archive,
    /// Where a farm's records are; modulo 65,536.
    Farm(u64),
    Entry(Call),
}

/// What an output holds before turning.
pub const UNWRITTEN: u8 = 0xAA;

/// The numbers of a judged segment that are told.
#[derive(Clone, Debug, PartialEq, Eq)]
pub struct Judged {
    pub words: u32,
    pub least_first: bool,
    pub dictionary: u32,
    pub relocation: u32,
    pub pool: u32,
    /// The real pool's start: W for no real pool, 0 for no pool.
    pub real_start: u32,
    pub real_size: u32,
    pub routines: Vec<segment::Routine>,
}

#[derive(Clone, Debug, PartialEq, Eq)]
pub enum Answer {
    Judged(Judged),
    /// The output, and the refusal if there was one.
    TurnedOver(Vec<u8>, Option<Refusal>),
    Sound(bool),
    Accepted,
    Range(Window),
    Done(u64),
    Refused(Refusal),
}

/// Put a request to the interpreter.
pub fn request(world: &mut World, request: Request) -> Answer {
    match request {
        Request::Judge => match Segment::judge(&world.store) {
            Ok(segment) => Answer::Judged(told(&segment)),
            Err(refusal) => Answer::Refused(refusal),
        },
        Request::TurnOver(count) => {
            let mut output = vec![UNWRITTEN; usize::try_from(count).unwrap_or(0)];
            let refusal = segment::turn_over(&world.store, &mut output).err();
            Answer::TurnedOver(output, refusal)
        }
        Request::Sound => Answer::Sound(world.is_sound()),
        Request::Archive => match archive::judge(&world.bench, &world.memory, &world.store) {
            Ok(_) => Answer::Accepted,
            Err(refusal) => Answer::Refused(refusal),
        },
        Request::Farm(farm) => {
            match archive::range(&world.bench, &world.memory, &world.store, farm as u16) {
                Ok(window) => Answer::Range(window),
                Err(refusal) => Answer::Refused(refusal),
            }
        }
        Request::Entry(call) => match ask(world, call) {
            Ok(value) => Answer::Done(value),
            Err(refusal) => Answer::Refused(refusal),
        },
    }
}

fn told(segment: &Segment) -> Judged {
    Judged {
        words: segment.words,
        least_first: segment.sex == segment::Sex::LeastFirst,
        dictionary: segment.dictionary,
        relocation: segment.relocation,
        pool: segment.pool,
        real_start: segment.real_start,
        real_size: segment.real_size,
        routines: segment.routines.clone(),
    }
}
