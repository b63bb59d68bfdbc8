//! The set sees mistakes in the lowest SP (request 3 of 02): steps, turns,
//! openings, closings and soundness of the set are answered once more by a
//! reading of the rule in which one thing is wrong.  With nothing wrong the
//! reading answers as the interpreter does.

mod requests;

use second::machine::{self, decode, Decoded, Kind, Op, Session};
use second::segment::{Segment, Sex};
use second::world::{ask, Call, Request, World};
use std::sync::OnceLock;

// ------------------------------------------------------------------- the set

/// A step of the set: what it meets, and the session before and after.
struct Step {
    /// `None` for what is not carried or cut.
    decoded: Option<Decoded>,
    /// DATASIZE of the routine called, if there is one.
    size: i64,
    sex: Sex,
    /// 6+G and L
    floor: u64,
    length: u64,
    before: Session,
    after: Session,
}

/// A turn of several steps: the SP after each that went on, and how it ended.
struct Turn {
    before: Session,
    sps: Vec<u64>,
    k: u64,
    end: Session,
}

/// What soundness looks at, of one open session.
#[derive(Clone, Copy)]
struct Mark {
    floor: u64,
    length: u64,
    session: Session,
}

/// An opening or a closing: the record's numbers before and after.
struct Change {
    base: u64,
    length: u64,
    floor: u64,
    before: Session,
    after: Session,
}

/// The lowest SPs of the other records, before and after a turn.
struct Others {
    number: usize,
    own: Session,
    all: Vec<(usize, bool, Session, Session)>,
}

#[derive(Default)]
struct Asked {
    steps: Vec<Step>,
    turns: Vec<Turn>,
    /// Benches that are sound but for their marks, perhaps, and whether they are.
    marks: Vec<(Vec<Mark>, bool)>,
    openings: Vec<Change>,
    closings: Vec<Change>,
    others: Vec<Others>,
}

fn asked() -> &'static Asked {
    static ASKED: OnceLock<Asked> = OnceLock::new();
    requests::picked(&ASKED, note)
}

fn note(asked: &mut Asked, world: &World, request: Request) {
    let sound = world.is_sound();
    asked.marks.extend(marks(world).map(|marks| (marks, sound)));
    let (Request::Entry(call), true) = (request, sound) else { return };
    let mut after = world.clone();
    let Ok(value) = ask(&mut after, call) else { return };
    match call {
        Call::Turn { session, k } => {
            asked.others.push(others(world, &after, session as usize));
            match k {
                1 => asked.steps.extend(step(world, &after, session as usize)),
                _ => asked.turns.extend(turn(world, session as usize, k)),
            }
        }
        Call::Open { .. } => asked.openings.extend(change(world, &after, value as usize)),
        Call::Close { session } => asked.closings.extend(change(world, &after, session as usize)),
        _ => {}
    }
}

fn segment_of(world: &World, number: usize) -> Option<Segment<'_>> {
    Segment::judge(world.segment_bytes(world.bench.records[number].slot)?).ok()
}

fn floor_of(segment: &Segment) -> u64 {
    6 + u64::from(segment.global_size())
}

fn step(world: &World, after: &World, number: usize) -> Option<Step> {
    let (record, segment) = (world.bench.records[number], segment_of(world, number)?);
    if record.session.kind != Kind::Ready {
        return None;
    }
    let decoded = decode(&segment, record.session.counter).ok();
    let called = decoded.filter(|decoded| is_call(decoded.instruction.op));
    let called = called.and_then(|decoded| segment.routine(decoded.value as u64));
    Some(Step {
        decoded,
        size: called.map_or(0, |routine| i64::from(routine.data_size)),
        sex: segment.sex,
        floor: floor_of(&segment),
        length: record.length,
        before: record.session,
        after: after.bench.records[number].session,
    })
}

fn turn(world: &World, number: usize, k: u64) -> Option<Turn> {
    let (record, segment) = (world.bench.records[number], segment_of(world, number)?);
    let (mut region, mut session) = (world.region(number)?.to_vec(), record.session);
    let shared = world.window(number)?;
    let mut sps = Vec::new();
    for _ in 0..k {
        if session.kind == Kind::Ready {
            machine::step(&segment, shared, &mut region, &mut session);
        }
        if session.kind != Kind::Ready {
            break;
        }
        sps.push(session.sp);
    }
    Some(Turn { before: record.session, sps, k, end: session })
}

fn others(world: &World, after: &World, number: usize) -> Others {
    let pairs = world.bench.records.iter().zip(&after.bench.records).enumerate();
    let all = pairs
        .filter(|(at, _)| *at != number)
        .map(|(at, (old, new))| (at, old.open, old.session, new.session))
        .collect();
    Others { number, own: after.bench.records[number].session, all }
}

/// The record that is used after an opening or before a closing, and the
/// session on both sides.
fn change(world: &World, after: &World, number: usize) -> Option<Change> {
    let (old, new) = (world.bench.records[number], after.bench.records[number]);
    let used = if new.open { new } else { old };
    let segment = segment_of(if new.open { after } else { world }, number)?;
    Some(Change {
        base: used.base,
        length: used.length,
        floor: floor_of(&segment),
        before: old.session,
        after: new.session,
    })
}

/// The marks of a bench that is sound with other ones.
fn marks(world: &World) -> Option<Vec<Mark>> {
    let mut others = world.clone();
    for record in others.bench.records.iter_mut() {
        record.session.low = record.session.sp;
    }
    if !others.is_sound() {
        return None;
    }
    let open = world.bench.records.iter().enumerate().filter(|(_, record)| record.open);
    open.map(|(number, record)| {
        let floor = floor_of(&segment_of(world, number)?);
        Some(Mark { floor, length: record.length, session: record.session })
    })
    .collect()
}

/// Every mistake is to be seen so often.
fn all_seen(mistakes: &[(String, usize)], least: usize) {
    for (name, count) in mistakes {
        assert!(*count >= least, "{name}: {count}");
    }
}

fn is_call(op: Op) -> bool {
    matches!(op, Op::CallLocal | Op::CallGlobal | Op::CallIntermediate)
}

// -------------------------------------------------------------------- steps

impl Step {
    fn op(&self) -> Option<Op> {
        self.decoded.map(|decoded| decoded.instruction.op)
    }

    fn is(&self, op: Op) -> bool {
        self.op() == Some(op)
    }

    fn calls(&self) -> bool {
        self.op().is_some_and(is_call)
    }

    fn goes_on(&self) -> bool {
        self.after.kind == Kind::Ready
    }

    fn finishes(&self) -> bool {
        self.after.kind == Kind::Finished
    }

    fn fault(&self) -> u8 {
        match self.after.kind {
            Kind::Faulted { number, .. } => number,
            _ => 0,
        }
    }

    /// The SP that the step would have reached, were it not for its checks.
    fn would_be(&self) -> i64 {
        let sp = self.before.sp as i64;
        let Some(decoded) = self.decoded else { return sp - 1 };
        match decoded.instruction.op {
            op if is_call(op) => sp - 5 - self.size,
            Op::PushPoolWords => sp - i64::from(decoded.count),
            Op::Return => self.before.m as i64 + 5 + decoded.value,
            _ => sp + i64::from(decoded.instruction.taken) - i64::from(decoded.instruction.given),
        }
    }

    /// The mark if an SP counts.
    fn with(&self, sp: i64) -> u64 {
        (self.before.low as i64).min(sp) as u64
    }

    fn sp(&self) -> i64 {
        self.before.sp as i64
    }
}

/// "the lowest stack pointer reached since opening"; "A step that faults
/// doesn't move it", nor the return that finishes.
fn right(step: &Step) -> u64 {
    if step.goes_on() { step.before.low.min(step.after.sp) } else { step.before.low }
}

fn seen(wrong: impl Fn(&Step) -> u64) -> usize {
    asked().steps.iter().filter(|step| wrong(step) != step.after.low).count()
}

/// A wrong mark for the steps of one sort; the others are right.
fn seen_where(sort: impl Fn(&Step) -> bool, wrong: impl Fn(&Step) -> u64) -> usize {
    seen(|step| if sort(step) { wrong(step) } else { right(step) })
}

#[test]
fn the_reading_with_nothing_wrong_is_the_interpreters() {
    for step in &asked().steps {
        assert_eq!(right(step), step.after.low);
        assert!(!step.goes_on() || step.would_be() as u64 == step.after.sp);
        assert!((step.floor..=step.after.sp).contains(&step.after.low));
        assert!(step.after.low <= step.before.low && step.before.low <= step.length);
    }
    let lowered = asked().steps.iter().filter(|step| step.after.low < step.before.low).count();
    assert!(lowered > 2_000, "{lowered}");
    assert_eq!(seen(right), 0);
}

#[test]
fn a_mark_that_is_not_the_least_is_seen() {
    let goes_on = |wrong: fn(&Step) -> u64| seen_where(Step::goes_on, wrong);
    let named = |name: &str, count| (name.to_string(), count);
    all_seen(
        &[
            named("SP itself", goes_on(|step| step.after.sp)),
            named("the greater", goes_on(|step| step.before.low.max(step.after.sp))),
            named("never moved", goes_on(|step| step.before.low)),
            named("one too low", goes_on(|step| step.with(step.after.sp as i64 - 1))),
            named("one too high", goes_on(|step| step.with(step.after.sp as i64 + 1))),
            named("SP before the step", goes_on(|step| step.with(step.sp()))),
            named("lowered only from SP", goes_on(|step| if step.before.low == step.before.sp { right(step) } else { step.before.low })),
            named("lowered by one at most", goes_on(|step| right(step).max(step.before.low - 1))),
            named("not lowered to 6+G", goes_on(|step| right(step).max((step.floor + 1).min(step.before.low)))),
            named("M", goes_on(|step| step.with(step.after.m as i64))),
            named("words on the stack", goes_on(|step| step.length - right(step))),
            named("0", goes_on(|_| 0)),
            named("L", goes_on(|step| step.length)),
            named("6+G", goes_on(|step| step.floor)),
            named("8 bits", goes_on(|step| right(step) % 256)),
            named("raised where SP rises", seen_where(|step| step.goes_on() && step.after.sp > step.before.sp, |step| step.after.sp)),
            named("raised where SP stays", seen_where(|step| step.goes_on() && step.after.sp == step.before.sp, |step| step.after.sp)),
            named("raised where SP falls", seen_where(|step| step.goes_on() && step.after.sp < step.before.sp, |step| step.after.sp)),
            named("raised to L by an empty stack", seen_where(|step| step.goes_on() && step.after.sp == step.length, |step| step.length)),
        ],
        5,
    );
}

/// What can lower SP, each alone, in both byte sexes and in each.
const LOWERING: [Op; 14] = [
    Op::PushValue, Op::PushPoolOffset, Op::PushPoolWords, Op::LoadLocal, Op::AddressLocal, Op::LoadGlobal,
    Op::AddressGlobal, Op::LoadIntermediate, Op::AddressIntermediate, Op::Duplicate, Op::CallLocal,
    Op::CallGlobal, Op::CallIntermediate, Op::Return,
];

#[test]
fn an_instruction_that_misses_the_mark_is_seen() {
    let mut mistakes = Vec::new();
    for op in LOWERING {
        let missed = |sex: Option<Sex>| {
            let sort = move |step: &Step| step.goes_on() && step.is(op) && sex.is_none_or(|sex| sex == step.sex);
            seen_where(sort, |step| step.before.low)
        };
        mistakes.push((format!("{op:?} missed"), missed(None)));
        mistakes.push((format!("{op:?} missed, least byte first"), missed(Some(Sex::LeastFirst))));
        mistakes.push((format!("{op:?} missed, most byte first"), missed(Some(Sex::MostFirst))));
    }
    all_seen(&mistakes, 3);
}

#[test]
fn an_instruction_that_raises_the_mark_is_seen() {
    let raising = [
        Op::StoreLocal, Op::StoreGlobal, Op::StoreIntermediate, Op::StoreIndirect, Op::Add, Op::Subtract, Op::Multiply,
        Op::Divide, Op::Modulo, Op::Equal, Op::NotEqual, Op::LessOrEqual, Op::GreaterOrEqual,
        Op::LessOrEqualUnsigned, Op::GreaterOrEqualUnsigned, Op::And, Op::Or, Op::CheckSubrange, Op::FalseJump,
        Op::TrueJump, Op::CaseJump, Op::Return,
    ];
    let mut mistakes = Vec::new();
    for op in raising {
        let raised = seen_where(move |step| step.goes_on() && step.is(op), |step| step.after.sp);
        mistakes.push((format!("{op:?} raises it"), raised));
    }
    all_seen(&mistakes, 10);
}

/// "What lies between a step's pops and pushes": each instruction that takes
/// and gives, its words pushed before they are popped.
#[test]
fn what_lies_within_a_step_is_seen() {
    let replacing = [
        Op::LoadIndexed, Op::Negate, Op::Absolute, Op::Increment, Op::Decrement, Op::Not, Op::Swap, Op::Add,
        Op::Multiply, Op::Divide, Op::Equal, Op::LessOrEqualUnsigned, Op::CheckSubrange,
    ];
    let mut mistakes = Vec::new();
    for op in replacing {
        let within = |step: &Step| {
            let given = step.decoded.map_or(0, |decoded| i64::from(decoded.instruction.given));
            step.with(step.sp() - given)
        };
        mistakes.push((format!("{op:?} counts on the way"), seen_where(move |step| step.goes_on() && step.is(op), within)));
    }
    all_seen(&mistakes, 10);
}

#[test]
fn a_wrong_depth_of_calls_and_constants_is_seen() {
    let call = |wrong: fn(&Step) -> i64| seen_where(|step| step.goes_on() && step.calls(), |step| step.with(wrong(step)));
    let load = |wrong: fn(&Step, i64) -> i64| {
        seen_where(
            |step| step.goes_on() && step.is(Op::PushPoolWords),
            |step| step.with(wrong(step, step.decoded.map_or(0, |decoded| i64::from(decoded.count)))),
        )
    };
    let back = |wrong: fn(&Step) -> i64| {
        seen_where(|step| step.goes_on() && step.is(Op::Return), |step| step.with(wrong(step)))
    };
    let named = |name: &str, count| (name.to_string(), count);
    all_seen(
        &[
            named("a call's five words only", call(|step| step.sp() - 5)),
            named("a call's DATASIZE only", call(|step| step.sp() - step.size)),
            named("a call's five words twice", call(|step| step.sp() - 10 - step.size)),
            named("a call's mark above the new SP", call(|step| step.after.sp as i64 + 5)),
            named("a call's old SP", call(Step::sp)),
            named("one word of a load", load(|step, count| step.sp() - count.min(1))),
            named("all but the last word of a load", load(|step, count| step.sp() - (count - 1).max(0))),
            named("one word more than a load has", load(|step, count| step.sp() - count - 1)),
            named("a load's old SP", load(|step, _| step.sp())),
            named("a load of one word missed", load(|step, count| if count == 1 { step.sp() } else { step.sp() - count })),
            named("a return's M", back(|step| step.before.m as i64)),
            named("a return's M and the mark", back(|step| step.before.m as i64 + 5)),
            named("a return's new M", back(|step| step.after.m as i64)),
            named("a return that is never lower", back(Step::sp)),
        ],
        5,
    );
}

// -------------------------------------------------------- faults, the finish

#[test]
fn a_fault_that_moves_the_mark_is_seen() {
    let mut mistakes = Vec::new();
    for fault in 1..=10 {
        let moved = |wrong: fn(&Step) -> u64| seen_where(|step| step.fault() == fault, wrong);
        mistakes.push((format!("{fault} lowers it by one"), moved(|step| step.before.low - 1)));
        mistakes.push((format!("{fault} raises it to SP"), moved(|step| step.before.sp)));
        mistakes.push((format!("{fault} sets it to 0"), moved(|_| 0)));
        mistakes.push((format!("{fault} sets it to 6+G"), moved(|step| step.floor)));
    }
    // where the SP that would have been lies below
    for fault in [4, 6, 8, 9] {
        let moved = |step: &Step| step.with(step.would_be());
        mistakes.push((format!("{fault} after SP has moved"), seen_where(|step| step.fault() == fault, moved)));
    }
    for op in LOWERING {
        let moved = |step: &Step| step.with(step.would_be().max(0));
        mistakes.push((format!("{op:?} before its checks"), seen_where(move |step| step.fault() != 0 && step.is(op), moved)));
        let full = |step: &Step| step.fault() == 4;
        let at_least = |step: &Step| step.floor - 1;
        if op != Op::Return {
            mistakes.push((format!("{op:?} with 4, to 5+G"), seen_where(move |step| full(step) && step.is(op), at_least)));
        }
    }
    all_seen(&mistakes, 5);
}

#[test]
fn a_finish_that_moves_the_mark_is_seen() {
    let finish = |wrong: fn(&Step) -> u64| seen_where(Step::finishes, wrong);
    let named = |name: &str, count| (name.to_string(), count);
    all_seen(
        &[
            named("to M+5+B", finish(|step| step.with(step.would_be()))),
            named("to M+5+B if that is lawful", finish(|step| {
                if step.would_be() >= step.floor as i64 { step.with(step.would_be()) } else { step.before.low }
            })),
            named("to SP", finish(|step| step.before.sp)),
            named("to L", finish(|step| step.length)),
            named("to 0", finish(|_| 0)),
            named("to 6+G", finish(|step| step.floor)),
        ],
        5,
    );
}

// --------------------------------------------------------------------- turns

fn right_turn(turn: &Turn) -> u64 {
    turn.sps.iter().copied().fold(turn.before.low, u64::min)
}

fn seen_in_turns(wrong: impl Fn(&Turn) -> u64) -> usize {
    asked().turns.iter().filter(|turn| wrong(turn) != turn.end.low).count()
}

#[test]
fn a_mark_not_kept_within_the_turn_is_seen() {
    assert_eq!(seen_in_turns(right_turn), 0);
    let of = |turn: &Turn, sp: Option<&u64>| sp.map_or(turn.before.low, |sp| turn.before.low.min(*sp));
    let named = |name: &str, count| (name.to_string(), count);
    all_seen(
        &[
            named("at the turn's end only", seen_in_turns(|turn| of(turn, turn.sps.last()))),
            named("after the first step only", seen_in_turns(|turn| of(turn, turn.sps.first()))),
            named("all but the last step", seen_in_turns(|turn| {
                let most = turn.sps.len().saturating_sub(1);
                of(turn, turn.sps.iter().take(most).min())
            })),
            named("all but the first step", seen_in_turns(|turn| of(turn, turn.sps.iter().skip(1).min()))),
            named("every other step", seen_in_turns(|turn| of(turn, turn.sps.iter().step_by(2).min()))),
            named("of this turn alone", seen_in_turns(|turn| turn.sps.iter().copied().min().unwrap_or(turn.before.low))),
            named("SP at the end", seen_in_turns(|turn| turn.end.sp)),
            named("lost where it faults", seen_in_turns(|turn| match turn.end.kind {
                Kind::Faulted { .. } => turn.before.low,
                _ => right_turn(turn),
            })),
            named("lost where it finishes", seen_in_turns(|turn| match turn.end.kind {
                Kind::Finished => turn.before.low,
                _ => right_turn(turn),
            })),
            named("lost where all steps are done", seen_in_turns(|turn| match turn.end.kind {
                Kind::Ready => turn.before.low,
                _ => right_turn(turn),
            })),
            named("k = 0 sets it to SP", seen_in_turns(|turn| if turn.k == 0 { turn.end.sp } else { right_turn(turn) })),
            named("not ready sets it to SP", seen_in_turns(|turn| match turn.before.kind {
                Kind::Ready => right_turn(turn),
                _ => turn.before.sp,
            })),
            named("SP before the turn counts anew", seen_in_turns(|turn| {
                turn.sps.iter().copied().fold(turn.before.sp, u64::min)
            })),
        ],
        3,
    );
}

#[test]
fn a_turn_that_moves_another_mark_is_seen() {
    let seen = |wrong: fn(&Others, usize, bool, &Session) -> u64| {
        let of = |turn: &&Others| {
            turn.all.iter().any(|(at, open, before, after)| wrong(turn, *at, *open, before) != after.low)
        };
        asked().others.iter().filter(of).count()
    };
    assert_eq!(seen(|_, _, _, before| before.low), 0);
    let named = |name: &str, count| (name.to_string(), count);
    all_seen(
        &[
            named("all others lowered", seen(|turn, _, open, before| if open { before.low.min(turn.own.low) } else { before.low })),
            named("all others set", seen(|turn, _, open, before| if open { turn.own.low } else { before.low })),
            named("the next one", seen(|turn, at, _, before| if at == turn.number + 1 { turn.own.low } else { before.low })),
            named("the one before", seen(|turn, at, _, before| if at + 1 == turn.number { turn.own.low } else { before.low })),
            named("record 0", seen(|turn, at, _, before| if at == 0 { turn.own.low } else { before.low })),
            named("others' SP", seen(|_, _, open, before| if open { before.sp } else { before.low })),
            named("unused records too", seen(|turn, _, open, before| if open { before.low } else { turn.own.low })),
        ],
        20,
    );
}

// ------------------------------------------------------ opening and closing

#[test]
fn a_wrong_mark_of_an_opening_is_seen() {
    let seen = |wrong: fn(&Change) -> u64| {
        asked().openings.iter().filter(|opened| wrong(opened) != opened.after.low).count()
    };
    assert_eq!(seen(|opened| opened.length), 0);
    let named = |name: &str, count| (name.to_string(), count);
    all_seen(
        &[
            named("0", seen(|_| 0)),
            named("L-1", seen(|opened| opened.length - 1)),
            named("L+1", seen(|opened| opened.length + 1)),
            named("6+G", seen(|opened| opened.floor)),
            named("the old record's SP", seen(|opened| opened.before.sp)),
            named("the old record's", seen(|opened| opened.before.low)),
            named("the old record's, unless 0", seen(|opened| if opened.before.low == 0 { opened.length } else { opened.before.low })),
            named("32,768", seen(|_| 32_768)),
            named("16 bits, signed", seen(|opened| opened.length % 32_768)),
            named("the region's end", seen(|opened| opened.base + opened.length)),
        ],
        2,
    );
}

#[test]
fn a_mark_left_by_a_closing_is_seen() {
    let seen = |wrong: fn(&Change) -> u64| {
        asked().closings.iter().filter(|closed| wrong(closed) != closed.after.low).count()
    };
    assert_eq!(seen(|_| 0), 0);
    let named = |name: &str, count| (name.to_string(), count);
    all_seen(
        &[
            named("left", seen(|closed| closed.before.low)),
            named("L", seen(|closed| closed.length)),
            named("SP", seen(|closed| closed.before.sp)),
            named("left if it is below SP", seen(|closed| if closed.before.low < closed.before.sp { closed.before.low } else { 0 })),
        ],
        10,
    );
}

// ------------------------------------------------------------------ soundness

fn good(mark: &Mark) -> bool {
    (mark.floor..=mark.session.sp).contains(&mark.session.low)
}

fn seen_by_soundness(wrong: impl Fn(&Mark) -> bool) -> usize {
    asked().marks.iter().filter(|(marks, sound)| marks.iter().all(&wrong) != *sound).count()
}

#[test]
fn the_soundness_with_nothing_wrong_is_the_interpreters() {
    let bad = asked().marks.iter().filter(|(_, sound)| !sound).count();
    assert!(bad > 200, "{bad}");
    assert_eq!(seen_by_soundness(good), 0);
}

#[test]
fn a_wrong_soundness_is_seen() {
    let low = |wrong: fn(&Mark, u64) -> bool| seen_by_soundness(|mark| wrong(mark, mark.session.low));
    let kind = |sort: fn(Kind) -> bool| seen_by_soundness(|mark| !sort(mark.session.kind) || good(mark));
    let named = |name: &str, count| (name.to_string(), count);
    let faulted = |kind: Kind| matches!(kind, Kind::Faulted { .. });
    all_seen(
        &[
            named("from 5+G", low(|mark, low| (mark.floor - 1..=mark.session.sp).contains(&low))),
            named("from 7+G", low(|mark, low| (mark.floor + 1..=mark.session.sp).contains(&low))),
            named("from 6", low(|mark, low| (6..=mark.session.sp).contains(&low))),
            named("from 1", low(|mark, low| (1..=mark.session.sp).contains(&low))),
            named("no lower limit", low(|mark, low| low <= mark.session.sp)),
            named("up to SP+1", low(|mark, low| (mark.floor..=mark.session.sp + 1).contains(&low))),
            named("up to SP-1", low(|mark, low| (mark.floor..mark.session.sp).contains(&low))),
            named("up to L", low(|mark, low| (mark.floor..=mark.length).contains(&low))),
            named("no upper limit", low(|mark, low| low >= mark.floor)),
            named("not judged", low(|_, _| true)),
            named("0 allowed", low(|mark, low| low == 0 || good(mark))),
            named("L allowed", low(|mark, low| low == mark.length || good(mark))),
            named("32 bits", low(|mark, low| (mark.floor..=mark.session.sp).contains(&(low % (1 << 32))))),
            named("16 bits", low(|mark, low| (mark.floor..=mark.session.sp).contains(&(low % (1 << 16))))),
            named("signed", low(|mark, low| low >> 63 == 1 || good(mark))),
            named("SP has to be it", low(|mark, low| low == mark.session.sp)),
            named("ready sessions only", kind(|kind| kind == Kind::Ready)),
            named("all but ready ones", kind(|kind| kind != Kind::Ready)),
            named("all but finished ones", kind(|kind| kind != Kind::Finished)),
            named("all but faulted ones", seen_by_soundness(|mark| faulted(mark.session.kind) || good(mark))),
        ],
        3,
    );
    let first_alone = asked().marks.iter().filter(|(marks, sound)| marks.iter().take(1).all(good) != *sound);
    assert!(first_alone.count() > 20);
}
