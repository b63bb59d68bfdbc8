//! The lowest SP in single steps (request 3 of 02): what becomes of it, counted
//! by first byte apart from what the step comes to, and sessions of a bench that
//! were deeper before.

use crate::generate::{open_sessions, Outcome, Rng};
use crate::machine::{Decoded, Kind, Op, Session};
use crate::segment::Segment;
use crate::world::World;

/// From here on a pair says what became of the lowest SP; a step can count for
/// such a pair besides its own.
pub const DEPTH: u32 = 96;
/// SP fell, and the lowest SP with it.
pub const LOWERED: u32 = DEPTH;
/// SP fell, but not below the lowest.
pub const NOT_LOWERED: u32 = DEPTH + 1;
/// SP rose from the lowest, which stays.
pub const NOT_RAISED: u32 = DEPTH + 2;
/// A fault where SP was the lowest: going on would have lowered it.
pub const LEFT_BY_FAULT: u32 = DEPTH + 3;
/// The return that finishes, where M+5+B lies below the lowest.
pub const LEFT_BY_FINISH: u32 = DEPTH + 4;

const NAMES: [&str; 5] = [
    "lowest SP lowered", "lowest SP not lowered", "lowest SP not raised", "lowest SP left by a fault",
    "lowest SP left by the finish",
];

/// A pair from `DEPTH` on, in words.
pub fn name(end: u32) -> &'static str {
    NAMES.get((end - DEPTH) as usize).unwrap_or(&"-")
}

/// Which first bytes can end a step with SP lower, and which with SP higher.
/// (Written from 000's entries and 01's list, not from the interpreter.)
pub fn possible(first: u8) -> Vec<Outcome> {
    let ends: &[u32] = match first {
        0..=63 | 96..=103 | 128..=137 | 152 | 173 | 174 | 226 => &[LOWERED, NOT_LOWERED, LEFT_BY_FAULT],
        144..=146 | 239 | 240 => &[LOWERED, NOT_LOWERED, LEFT_BY_FAULT],
        150 => &[LOWERED, NOT_LOWERED, NOT_RAISED, LEFT_BY_FAULT, LEFT_BY_FINISH],
        104..=111 | 164..=166 | 196 | 203 => &[NOT_RAISED],
        140 | 141 | 143 | 160..=163 | 176..=181 => &[NOT_RAISED],
        212..=214 | 241 => &[NOT_RAISED],
        _ => &[],
    };
    ends.iter().map(|end| (Some(first), *end)).collect()
}

/// What the lowest SP is counted by after the step.
#[derive(Clone, Copy, Debug, PartialEq, Eq)]
pub struct Met {
    first: u8,
    before: Session,
    /// The return that finishes would have lowered it.
    finish_is_lower: bool,
}

impl Met {
    /// `None` beyond the end.
    pub fn meet(segment: &Segment, session: &Session, decoded: Option<&Decoded>) -> Option<Met> {
        let at = usize::try_from(session.counter).ok()?;
        let dropped = decoded.filter(|decoded| decoded.instruction.op == Op::Return);
        Some(Met {
            first: *segment.bytes.get(at)?,
            before: *session,
            finish_is_lower: dropped.is_some_and(|of| of.value + 6 < session.low as i64),
        })
    }

    /// The pair that the step counts for, if any.
    pub fn counted(&self, after: &Session) -> Option<Outcome> {
        let before = &self.before;
        let at_its_lowest = before.low == before.sp;
        let end = match after.kind {
            Kind::Ready if after.low < before.low => LOWERED,
            Kind::Ready if after.sp < before.sp => NOT_LOWERED,
            Kind::Ready if after.sp > before.sp && at_its_lowest => NOT_RAISED,
            Kind::Faulted { .. } if at_its_lowest && can_lower(self.first) => LEFT_BY_FAULT,
            Kind::Finished if self.finish_is_lower => LEFT_BY_FINISH,
            _ => return None,
        };
        Some((Some(self.first), end))
    }
}

fn can_lower(first: u8) -> bool {
    possible(first).contains(&(Some(first), LOWERED))
}

/// Some sessions of a sound bench get a lowest SP further down: they were deeper
/// before.
pub fn deepen(rng: &mut Rng, world: &mut World) {
    for number in open_sessions(&world.bench) {
        let Some(record) = world.bench.records.get(number as usize) else { continue };
        let bytes = world.segment_bytes(record.slot);
        let Some(Ok(segment)) = bytes.map(Segment::judge) else { continue };
        let floor = 6 + i64::from(segment.global_size());
        let low = record.session.low as i64;
        let new = rng.pick_in(&[low, low, low, low - 1, floor], floor, low);
        if let Some(record) = world.bench.records.get_mut(number as usize) {
            record.session.low = new as u64;
        }
    }
}
