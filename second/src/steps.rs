//! Single steps: a session with its neighbours on a bench, and next worlds
//! drawn from the one that is there, in which that session meets a given first
//! byte near a limit of its own.

use crate::bench::{Record, Slot, Window};
use crate::coverage::{AboutTo, Came};
use crate::cut;
use crate::generate::{
    operand_size, put_word, registers, session_case, telling_factor, telling_integer, telling_mark,
    telling_operands, telling_word, Outcome, Rng, RunCase, View,
};
use crate::machine::{self, Instruction, Kind, Op, Session};
use crate::pool;
use crate::segment::Segment;
use crate::window;
use crate::world::{blank_bench, World};

/// A world and the number of the session that is looked at.
pub struct Place {
    pub world: World,
    pub session: usize,
}

/// A place for single steps, mostly one whose last bytes may be code; not both
/// shared words and a region without end, which few lines cannot tell.
pub fn base(rng: &mut Rng) -> Place {
    let mut case = session_case(rng);
    while case.shared.len() + case.region.len() > 40_000
        || last_word_is_a_number(&case.segment) && rng.chance(3, 4)
    {
        case = session_case(rng);
    }
    placed(rng, &case)
}

fn last_word_is_a_number(bytes: &[u8]) -> bool {
    let segment = Segment::judge(bytes);
    segment.is_ok_and(|segment| segment.word_positions().contains(&(segment.words - 1)))
}

/// Shared words that the session does not see.
fn unseen(rng: &mut Rng, case: &RunCase) -> Vec<u16> {
    let most = if case.shared.len() > 32_000 { 0 } else { rng.pick(&[0, 0, 1, 4, 7], 0) };
    (0..most).map(|_| rng.next() as u16).collect()
}

/// The session's shared words, often with others on both sides, and its window.
fn shared_words(rng: &mut Rng, case: &RunCase) -> (Vec<u16>, Window) {
    let mut words = unseen(rng, case);
    let window = Window { first: words.len() as u64, count: case.shared.len() as u64 };
    words.extend(&case.shared);
    words.extend(unseen(rng, case));
    (words, window)
}

/// Put a session with its segment on a bench, often between neighbours that
/// run the same segment; its region touches theirs or the shared words, or
/// stands apart.
pub fn placed(rng: &mut Rng, case: &RunCase) -> Place {
    let mut bench = blank_bench();
    let mut store = vec![rng.next() as u8; rng.pick(&[0, 0, 0, 2, 6, 1], 0)];
    let (slot, session) = (rng.up_to(15), rng.up_to(15) as usize);
    let loaded =
        Slot { loaded: true, start: store.len() as u64, length: case.segment.len() as u64 };
    // sometimes a second slot has the same bytes
    let other = if rng.chance(1, 3) { rng.up_to(15) } else { slot };
    for number in [slot, other] {
        if let Some(place) = bench.slots.get_mut(number as usize) {
            *place = loaded;
        }
    }
    store.extend(&case.segment);
    store.extend(vec![0; rng.pick(&[0, 0, 0, 2, 5], 0)]);

    let (mut memory, window) = shared_words(rng, case);
    bench.shared = memory.len() as u64;
    let mut neighbours = Neighbours { slot, number: session, shared: bench.shared };
    neighbours.add(rng, case, &mut bench.records, &mut memory);
    let record = Record {
        open: true,
        slot,
        base: memory.len() as u64,
        length: case.region.len() as u64,
        window,
        session: case.session,
    };
    if let Some(place) = bench.records.get_mut(session) {
        *place = record;
    }
    memory.extend(&case.region);
    neighbours.add(rng, case, &mut bench.records, &mut memory);
    if rng.chance(1, 400) {
        memory.resize(1_048_576, 0);
    }
    bench.words = memory.len() as u64;
    Place { world: World { bench, memory, store }, session }
}

struct Neighbours {
    slot: u64,
    /// The last record used.
    number: usize,
    /// S
    shared: u64,
}

impl Neighbours {
    /// Free words and another session, or neither.
    fn add(&mut self, rng: &mut Rng, case: &RunCase, records: &mut [Record; 16], memory: &mut Vec<u16>) {
        let free = rng.pick(&[0, 0, 0, 1, 5], 0);
        memory.resize(memory.len() + free, 0);
        let Ok(segment) = Segment::judge(&case.segment) else { return };
        let length = u64::from(segment.global_size() + 6).max(16);
        if length > 60 || rng.chance(1, 2) {
            return;
        }
        self.number = (self.number + 1 + rng.up_to(4) as usize) % 16;
        let mut session = registers(rng, &segment, length as i64);
        session.kind = match rng.up_to(3) {
            0 => Kind::Finished,
            1 => Kind::Faulted { number: rng.between(1, 10) as u8, place: session.counter },
            _ => Kind::Ready,
        };
        let base = memory.len() as u64;
        let window = window::some_window(rng, self.shared);
        if let Some(record) = records.get_mut(self.number) {
            *record = Record { open: true, slot: self.slot, base, length, window, session };
        }
        memory.resize((base + length) as usize, rng.pick(&[0, 0, 7], 0));
    }
}

/// What one step of a session would come to, by the plain machine.
pub fn came(world: &World, number: usize) -> Option<Came> {
    let record = world.bench.records.get(number)?;
    let bytes = world.segment_bytes(record.slot)?;
    let segment = Segment::judge(bytes).ok()?;
    let seen = world.window(number)?;
    let mut region = world.region(number)?.to_vec();
    let mut session = record.session;
    let met = AboutTo::meet(&segment, record, &region, world.bench.shared);
    machine::step(&segment, seen, &mut region, &mut session);
    Some(met.came(&segment, &session))
}

/// The world changed so that its session meets a first byte (or, for `None`,
/// the end of the segment), with what the step will come to, which may be other
/// than hoped.  `None` if the draw gave nothing sound.
pub fn draw(rng: &mut Rng, place: &Place, world: &World, hoped: Outcome) -> Option<(World, Came)> {
    let (first, hoped_end) = hoped;
    let mut record = *world.bench.records.get(place.session)?;
    record.window = window::wished(rng, hoped_end, record.window, world.bench.shared);
    let seen = record.window.count as i64;
    let mut bytes = world.segment_bytes(record.slot)?.to_vec();
    let instruction = first.and_then(machine::instruction);
    if instruction.is_some_and(|row| pool::looks_at_it(row.op)) {
        pool::vary(rng, &mut bytes, hoped_end);
    }
    let segment = Segment::judge(&bytes).ok()?;
    let mut session = registers(rng, &segment, record.length as i64);
    let mut region = world.region(place.session)?.to_vec();
    if let Some(row) = &instruction {
        set_words(rng, row, &segment, &session, seen, &mut region);
    }
    set_base(rng, hoped, &record, &session, &mut region);

    let end = segment.bytes.len() as i64;
    session.counter = end as u64;
    let mut laid = bytes.clone();
    if let Some(first) = first {
        // Where it stands: somewhere, at the very end, or cut off by the end.
        let size = 1 + operand_size(first, rng);
        let at = match (cut::bytes_there(hoped_end), rng.up_to(4)) {
            (Some(there), _) => end - i64::from(there),
            (None, 0) => end - size,
            (None, 1) => end - rng.between(1, size),
            _ => rng.between(22, end - size),
        };
        session.counter = u64::try_from(at).ok().filter(|at| *at >= 22)?;
        let view = View { segment: &segment, region: &region, session: &session, shared_length: seen };
        lay_code(rng, first, &view, size, &mut laid);
    }
    record.session = session;
    let next = changed(world, place.session, record, &region, &laid)?;
    let came = came(&next, place.session)?;
    Some((next, came))
}

/// Where the window's ends are hoped for, the address on the stack that leads to
/// them.
fn set_base(rng: &mut Rng, hoped: Outcome, record: &Record, session: &Session, region: &mut [u16]) {
    let Some(base) = window::wished_base(rng, hoped, record.window) else { return };
    let below_the_top = usize::from(hoped.1 >= window::STORED);
    if let Some(word) = region.get_mut(session.sp as usize + below_the_top) {
        *word = base;
    }
}

/// An instruction at the counter, as far as there is room, and the case table
/// that it leads to.
fn lay_code(rng: &mut Rng, first: u8, view: &View, size: i64, laid: &mut [u8]) {
    let counter = view.session.counter as usize;
    let next = counter as i64 + size;
    let mut code = vec![first];
    let row = machine::instruction(first);
    if let Some(row) = &row {
        telling_operands(rng, row, view, next, size, &mut code);
    }
    if row.is_some_and(|row| row.op == Op::CaseJump) {
        let offset = match code.as_slice() {
            [_, high @ 128..=255, low] => i64::from(high - 128) * 256 + i64::from(*low),
            [_, byte, ..] => i64::from(*byte),
            _ => 0,
        };
        let index = view.region.get(view.session.sp as usize).copied().unwrap_or(0);
        pool::lay_table(rng, laid, offset, next, i64::from(index as i16));
    }
    for (place, byte) in laid.iter_mut().skip(counter).zip(code) {
        *place = byte;
    }
    // laid over the pool's first word: mostly there is no pool then
    if Segment::judge(laid).is_err_and(|refusal| refusal.number == 4) {
        put_word(laid, view.segment.sex, i64::from(Segment::POOL_WORD), 0);
    }
}

/// The words that matter to an instruction: what it takes, and the mark or
/// link it looks at.
fn set_words(
    rng: &mut Rng,
    row: &Instruction,
    segment: &Segment,
    session: &Session,
    shared: i64,
    region: &mut [u16],
) {
    let length = region.len() as i64;
    if rng.chance(3, 4) {
        let mut last = 0;
        for word in region.iter_mut().skip(session.sp as usize).take(row.taken as usize) {
            *word = match row.op {
                Op::LoadIndexed | Op::StoreIndirect => telling_word(rng, length, shared),
                Op::Multiply => telling_factor(rng),
                _ => telling_integer(rng, last),
            };
            last = *word;
        }
    }
    let linked = matches!(
        row.op,
        Op::LoadIntermediate | Op::AddressIntermediate | Op::StoreIntermediate | Op::CallIntermediate
    );
    let looked_at = match row.op {
        Op::Return => 5,
        _ if linked => 1,
        _ => 0,
    };
    if looked_at > 0 && rng.chance(if row.op == Op::Return { 9 } else { 6 }, 10) {
        let m = session.m as i64;
        let mark = telling_mark(rng, segment, length, m);
        for (place, word) in region.iter_mut().skip(m as usize).take(looked_at).zip(mark) {
            *place = word;
        }
        // where the link leads, a second one
        if let (true, Some(place)) = (linked && rng.chance(1, 2), mark.first().copied()) {
            if let Some(word) = region.get_mut(usize::from(place)) {
                *word = rng.pick(&[1, place, (length - 5) as u16], 1);
            }
        }
    }
}

/// The world with a new record, words and segment; only if it is sound.  Code
/// may have been laid over the segment's own words.
fn changed(
    world: &World,
    number: usize,
    record: Record,
    region: &[u16],
    segment: &[u8],
) -> Option<World> {
    let mut next = world.clone();
    *next.bench.records.get_mut(number)? = record;
    let base = record.base as usize;
    let start = next.bench.slots.get(record.slot as usize)?.start as usize;
    next.memory.get_mut(base..base + region.len())?.copy_from_slice(region);
    next.store.get_mut(start..start + segment.len())?.copy_from_slice(segment);
    next.is_sound().then_some(next)
}
