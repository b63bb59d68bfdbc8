//! What the cases written came to: steps by first byte and outcome, refusals
//! by entry, damages; and what is missing of what document 01 makes possible.

use crate::bench::Record;
use crate::cut;
use crate::depth;
use crate::generate::{
    can_go_well, possible_outcomes, possible_refusals, Outcome, BACK_TO_UNLINKED, FINISHED, GONE_ON,
    LINK_BEFORE_UNLINKED, UNLINKED, UNLINKED_WHEN_FULL,
};
use crate::machine::{self, Kind, Op, Session};
use crate::pool;
use crate::segment::Segment;
use crate::window;
use crate::world::{Answer, Call, Request, World};
use std::collections::BTreeMap;

/// Counts kept by the writer of cases.
#[derive(Clone, Debug, Default)]
pub struct Coverage {
    pub cases: u64,
    pub requests: u64,
    pub steps_done: u64,
    /// Turns of one step, by first byte and what the step came to; and, from
    /// `depth::DEPTH` on, what became of the lowest SP, and from
    /// `window::WINDOW` on, where it met the window.
    pub steps: BTreeMap<Outcome, usize>,
    /// Turns of one step in a routine that is unlinked.
    pub in_unlinked: usize,
    /// Requests by name and refusal (0 none).
    pub refusals: BTreeMap<(&'static str, u32), usize>,
    /// Damages by name and whether the bench is sound after it.
    pub damages: BTreeMap<(&'static str, bool), usize>,
    /// Turns of more than one step, by how they ended.
    pub run_ends: BTreeMap<u32, usize>,
    /// What went wrong in making the cases.
    pub complaints: Vec<String>,
}

/// What a step will meet.
#[derive(Clone, Copy, Debug, PartialEq, Eq)]
pub struct AboutTo {
    /// The first byte; `None` beyond the end.
    pub first: Option<u8>,
    /// A call of an unlinked routine,
    calls_unlinked: bool,
    /// and a stack that has no room for a mark.
    full: bool,
    /// The routine number is that of an unlinked one.
    in_unlinked: bool,
    /// What it is counted as if its bytes run out.
    cut: u32,
    /// An LDC or XJP.
    pool: Option<pool::Met>,
    depth: Option<depth::Met>,
    /// An indexed read or a store.
    window: Option<window::Met>,
}

/// The pairs that a step counts for.
#[derive(Clone, Copy, Debug, PartialEq, Eq)]
pub struct Came {
    pub outcome: Outcome,
    pub depth: Option<Outcome>,
    pub window: Option<Outcome>,
}

impl Came {
    pub fn counts_for(&self, outcome: Outcome) -> bool {
        self.all().any(|came| came == outcome)
    }

    pub fn all(&self) -> impl Iterator<Item = Outcome> {
        [Some(self.outcome), self.depth, self.window].into_iter().flatten()
    }
}

/// Whether a number is that of an unlinked routine.
fn is_unlinked(segment: &Segment, number: u64) -> bool {
    segment.routine(number).is_some_and(|routine| !routine.is_linked())
}

impl AboutTo {
    /// What the session of a record will meet in its region; `shared` is S.
    pub fn meet(segment: &Segment, record: &Record, region: &[u16], shared: u64) -> AboutTo {
        let session = &record.session;
        let counter = usize::try_from(session.counter).unwrap_or(usize::MAX);
        let decoded = machine::decode(segment, session.counter).ok();
        let called = decoded.filter(|decoded| {
            matches!(
                decoded.instruction.op,
                Op::CallLocal | Op::CallGlobal | Op::CallIntermediate
            )
        });
        let first = segment.bytes.get(counter).copied();
        AboutTo {
            first,
            calls_unlinked: called.is_some_and(|call| is_unlinked(segment, call.value as u64)),
            full: session.sp < 6 + u64::from(segment.global_size()) + 5,
            in_unlinked: is_unlinked(segment, session.routine),
            cut: cut::counted(segment, session.counter),
            pool: pool::Met::meet(segment, session, region),
            depth: depth::Met::meet(segment, session, decoded.as_ref()),
            window: window::Met::meet(first, decoded.as_ref(), session, region, record.window, shared),
        }
    }

    /// What the step came to, by the session after it.
    pub fn came(&self, segment: &Segment, session: &Session) -> Came {
        let end = match came_to(session.kind) {
            1 => self.cut,
            8 if self.calls_unlinked && self.full => UNLINKED_WHEN_FULL,
            8 if self.calls_unlinked => UNLINKED,
            9 if self.calls_unlinked => LINK_BEFORE_UNLINKED,
            GONE_ON if self.first == Some(150) && is_unlinked(segment, session.routine) => {
                BACK_TO_UNLINKED
            }
            end => self.pool.map_or(end, |met| met.counted(end)),
        };
        let depth = self.depth.and_then(|met| met.counted(session));
        let window = self.window.and_then(|met| met.counted(session));
        Came { outcome: (self.first, end), depth, window }
    }
}

fn entry_name(request: Request) -> &'static str {
    match request {
        Request::Judge => "judging",
        Request::TurnOver(_) => "turning",
        Request::Sound => "soundness",
        Request::Entry(Call::New { .. }) => "new bench",
        Request::Entry(Call::Load { .. }) => "loading",
        Request::Archive => "archive",
        Request::Farm(_) => "a farm's range",
        Request::Entry(Call::Open { .. }) => "opening",
        Request::Entry(Call::OpenOn { .. }) => "opening with a window",
        Request::Entry(Call::OpenFor { .. }) => "opening for a farm",
        Request::Entry(Call::Turn { .. }) => "turn",
        Request::Entry(Call::Close { .. }) => "closing",
    }
}

/// What a turn came to: a fault number, `GONE_ON` or `FINISHED`.
pub fn came_to(kind: Kind) -> u32 {
    match kind {
        Kind::Ready => GONE_ON,
        Kind::Finished => FINISHED,
        Kind::Faulted { number, .. } => u32::from(number),
    }
}

impl Coverage {
    /// To be asked before a request is put; for a turn of one step what it
    /// will meet.
    pub fn before(&self, request: Request, world: &World) -> Option<AboutTo> {
        let Request::Entry(Call::Turn { session, k: 1 }) = request else { return None };
        let record = world.bench.records.get(usize::try_from(session).ok()?)?;
        let segment = Segment::judge(world.segment_bytes(record.slot)?).ok()?;
        let region = usize::try_from(session).ok().and_then(|number| world.region(number));
        Some(AboutTo::meet(&segment, record, region.unwrap_or(&[]), world.bench.shared))
    }

    /// To be told after a request was put.
    pub fn after(&mut self, about_to: Option<AboutTo>, request: Request, answer: &Answer, world: &World) {
        self.requests += 1;
        let refusal = match answer {
            Answer::Refused(refusal) | Answer::TurnedOver(_, Some(refusal)) => refusal.number,
            _ => 0,
        };
        *self.refusals.entry((entry_name(request), refusal)).or_default() += 1;
        let Request::Entry(Call::Turn { session, .. }) = request else { return };
        let Answer::Done(done @ 1..) = *answer else { return };
        self.steps_done += done;
        let record = usize::try_from(session).ok().and_then(|at| world.bench.records.get(at));
        let Some(record) = record else { return };
        let segment = world.segment_bytes(record.slot).and_then(|bytes| Segment::judge(bytes).ok());
        match (about_to, segment) {
            (Some(met), Some(segment)) => {
                for outcome in met.came(&segment, &record.session).all() {
                    *self.steps.entry(outcome).or_default() += 1;
                }
                self.in_unlinked += usize::from(met.in_unlinked);
            }
            _ => *self.run_ends.entry(came_to(record.session.kind)).or_default() += 1,
        }
    }

    pub fn seen(&self, outcome: Outcome) -> usize {
        self.steps.get(&outcome).copied().unwrap_or(0)
    }

    /// What is possible and was seen fewer than `wanted` times, and what was
    /// seen and is not possible.
    pub fn missing_steps(&self, wanted: usize) -> Vec<String> {
        let possible = possible_outcomes();
        let few = possible.iter().filter(|outcome| self.seen(**outcome) < wanted);
        let mut missing: Vec<String> =
            few.map(|outcome| format!("step {} seen {} times", show(*outcome), self.seen(*outcome))).collect();
        for outcome in self.steps.keys().filter(|outcome| !possible.contains(outcome)) {
            missing.push(format!("step {} seen, but not possible", show(*outcome)));
        }
        if self.in_unlinked < wanted {
            missing.push(format!("steps in an unlinked routine seen {} times", self.in_unlinked));
        }
        missing
    }

    /// Refusals possible and not seen, or seen and not possible.
    pub fn missing_refusals(&self) -> Vec<String> {
        let mut missing = Vec::new();
        for (entry, numbers) in possible_refusals() {
            for number in numbers.iter().filter(|number| !self.refusals.contains_key(&(entry, **number))) {
                missing.push(format!("{entry} never gave {number}"));
            }
            for (_, number) in self.refusals.keys().filter(|(name, _)| *name == entry) {
                if !numbers.contains(number) {
                    missing.push(format!("{entry} gave {number}, which is not possible"));
                }
            }
        }
        missing
    }

    /// The lines for people: how much there is, and whether the steps are all
    /// there.
    pub fn summary(&self, wanted: usize) -> String {
        let possible = possible_outcomes();
        let enough = possible.iter().filter(|outcome| self.seen(**outcome) >= wanted).count();
        let mut text = format!(
            "{} cases, {} requests, {} steps\n",
            self.cases, self.requests, self.steps_done
        );
        text += &format!(
            "{enough} of {} possible step outcomes, each at least {wanted} times\n",
            possible.len()
        );
        let missing = self.missing_steps(wanted);
        for line in missing.iter().take(20) {
            text += &format!("  missing: {line}\n");
        }
        if missing.len() > 20 {
            text += &format!("  and {} more\n", missing.len() - 20);
        }
        text
    }

    /// The whole table.
    pub fn report(&self) -> String {
        let mut text = String::from("first byte: what a step came to, and how often\n");
        for first in std::iter::once(None).chain((0..=255).map(Some)) {
            let name = match first {
                None => "end".to_string(),
                Some(byte) => {
                    let name = machine::instruction(byte).map_or("-", |row| row.name);
                    format!("{byte:3} {name}")
                }
            };
            text += &format!("  {name:10}");
            for ((_, end), count) in self.steps.iter().filter(|((byte, _), _)| *byte == first) {
                text += &format!("  {}:{count}", end_name(*end));
            }
            text.push('\n');
        }
        text += "request, refusal (0 none): how often\n";
        for ((entry, number), count) in &self.refusals {
            text += &format!("  {entry:21} {number:2}: {count}\n");
        }
        text += "damage, whether sound after it: how often\n";
        for ((kind, sound), count) in &self.damages {
            text += &format!("  {kind:30} {sound:5}: {count}\n");
        }
        text += &format!("steps in an unlinked routine: {}\n", self.in_unlinked);
        text + &format!("longer turns, by end (0 steps used up, 11 finished): {:?}\n", self.run_ends)
    }
}

/// What a step came to, in words.
fn end_name(end: u32) -> String {
    match end {
        GONE_ON => "ok".to_string(),
        FINISHED => "finished".to_string(),
        UNLINKED => "8 unlinked".to_string(),
        UNLINKED_WHEN_FULL => "8 unlinked and full".to_string(),
        LINK_BEFORE_UNLINKED => "9 before unlinked".to_string(),
        BACK_TO_UNLINKED => "ok back to unlinked".to_string(),
        cut::CUT..=cut::LAST_CUT => cut::name(end),
        window::WINDOW.. => window::name(end).to_string(),
        depth::DEPTH.. => depth::name(end).to_string(),
        pool::POOL.. => pool::name(end).to_string(),
        fault => format!("{fault}"),
    }
}

fn show((first, end): Outcome) -> String {
    let carried = first.is_some_and(can_go_well);
    let first = first.map_or("end".to_string(), |byte| byte.to_string());
    match end {
        GONE_ON if !carried => format!("({first}, ok, though not carried)"),
        end => format!("({first}, {})", end_name(end)),
    }
}
