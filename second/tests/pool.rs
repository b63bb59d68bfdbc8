//! The set sees mistakes in the rules for the constant pool (request 2 of 02):
//! check 4, LDC and XJP are answered once more by a reading in which one thing is
//! wrong, and held against the set.  With nothing wrong the reading answers as
//! the interpreter does.

mod requests;

use second::generate::put_word;
use second::machine::{self, Decoded, Kind, Op, Session};
use second::segment::{turn_over, Segment, Sex};
use second::world::{ask, Call, Request, World};
use std::sync::OnceLock;

// ------------------------------------------------------------------- the set

/// What the set asks, as far as a pool can matter to it.
#[derive(Default)]
struct Asked {
    judged: Vec<Vec<u8>>,
    turned: Vec<(Vec<u8>, u64)>,
    loads: Vec<Step>,
    cases: Vec<Step>,
    /// Worlds whose soundness is asked.
    sound: Vec<World>,
    /// LDC and XJP in turns of more steps than one.
    in_runs: [usize; 2],
}

fn asked() -> &'static Asked {
    static ASKED: OnceLock<Asked> = OnceLock::new();
    requests::picked(&ASKED, note)
}

fn note(asked: &mut Asked, world: &World, request: Request) {
    match request {
        Request::Judge => asked.judged.push(world.store.clone()),
        Request::TurnOver(output) => asked.turned.push((world.store.clone(), output)),
        Request::Sound if world.memory.len() < 100_000 => asked.sound.push(world.clone()),
        Request::Entry(Call::Turn { session, k: 1 }) => {
            let Some(step) = step(world, session) else { return };
            match step.decoded.instruction.op {
                Op::PushPoolWords => asked.loads.push(step),
                Op::CaseJump => asked.cases.push(step),
                _ => {}
            }
        }
        Request::Entry(Call::Turn { session, k: k @ 2..=5_000 }) => {
            let mut world = world.clone();
            for _ in 0..k.min(400) {
                let Some(step) = step(&world, session) else { return };
                match step.decoded.instruction.op {
                    Op::PushPoolWords => asked.in_runs[0] += 1,
                    Op::CaseJump => asked.in_runs[1] += 1,
                    _ => {}
                }
                world = step.after;
            }
        }
        _ => {}
    }
}

/// A step of the set: its numbers as the segment's bytes have them, and the
/// world after it.
struct Step {
    bytes: Vec<u8>,
    decoded: Decoded,
    /// W, the pool pointer and its first word
    words: i64,
    pool: i64,
    first: i64,
    most_first: bool,
    /// 6+G and L
    floor: i64,
    length: i64,
    before: Session,
    region: Vec<u16>,
    number: usize,
    after: World,
}

fn step(world: &World, session: u64) -> Option<Step> {
    let number = usize::try_from(session).ok()?;
    let record = world.bench.records.get(number)?;
    if !record.open || record.session.kind != Kind::Ready || !world.is_sound() {
        return None;
    }
    let bytes = world.segment_bytes(record.slot)?.to_vec();
    let segment = Segment::judge(&bytes).ok()?;
    let decoded = machine::decode(&segment, record.session.counter).ok()?;
    let most_first = bytes[12] == 0;
    let pool = word(&bytes, most_first, 7);
    let mut after = world.clone();
    ask(&mut after, Call::Turn { session, k: 1 }).ok()?;
    Some(Step {
        decoded,
        words: bytes.len() as i64 / 2,
        pool,
        first: if pool == 0 { 0 } else { word(&bytes, most_first, pool) },
        most_first,
        floor: 6 + i64::from(segment.global_size()),
        length: record.length as i64,
        before: record.session,
        region: world.region(number)?.to_vec(),
        number,
        after,
        bytes: bytes.clone(),
    })
}

/// A word of a segment, unsigned; 0 where there is none.
fn word(bytes: &[u8], most_first: bool, number: i64) -> i64 {
    let at = usize::try_from(2 * number).unwrap_or(usize::MAX / 2);
    let pair = bytes.get(at..at + 2).map_or([0, 0], |pair| [pair[0], pair[1]]);
    i64::from(if most_first { u16::from_be_bytes(pair) } else { u16::from_le_bytes(pair) })
}

/// A word as a signed number.
fn signed(word: i64) -> i64 {
    i64::from(word as u16 as i16)
}

impl Step {
    fn word(&self, number: i64) -> i64 {
        word(&self.bytes, self.most_first, number)
    }

    fn session_after(&self) -> Session {
        self.after.bench.records[self.number].session
    }

    fn fault(&self) -> Option<u8> {
        match self.session_after().kind {
            Kind::Faulted { number, .. } => Some(number),
            _ => None,
        }
    }

    /// B, as the number of the word in the segment.
    fn at(&self) -> i64 {
        self.pool + self.decoded.value
    }

    fn count(&self) -> i64 {
        i64::from(self.decoded.count)
    }

    fn reals(&self) -> i64 {
        if self.first == 0 { self.words } else { self.pool + self.first }
    }

    fn next(&self) -> i64 {
        self.decoded.next as i64
    }

    /// TOS, if there is one.
    fn index(&self) -> Option<i64> {
        self.region.get(self.before.sp as usize).map(|word| i64::from(*word))
    }
}

/// Every mistake is to be seen so often.
fn all_seen(mistakes: &[(&str, usize)], least: usize) {
    for (name, count) in mistakes {
        assert!(*count >= least, "{name}: {count}");
    }
}

// ------------------------------------------------------------------- check 4

/// Check 4 in parts that can be wrong.
#[derive(Clone, Copy)]
struct Check {
    /// The real pool's start, given W, the pool pointer and its first word.
    start: fn(i64, i64, i64) -> Option<i64>,
    /// The first word, given whether the segment is most byte first.
    first: fn(&[u8], bool, i64) -> i64,
    pointer: fn(i64, i64) -> bool,
    /// Whether it comes before 3, and whether after 8.
    before_3: bool,
    after_8: bool,
}

const RIGHT: Check = Check {
    start: |words, pool, first| match first {
        0 => Some(words),
        _ => Some(pool + first).filter(|start| *start < words),
    },
    first: word,
    pointer: |words, pool| (11..words).contains(&pool),
    before_3: false,
    after_8: false,
};

/// Judged by such a check: the real pool's start or the refusal's number.
/// `None` where checks 1 and 2 refuse.
fn judged(check: &Check, bytes: &[u8]) -> Option<Result<i64, u32>> {
    if Segment::judge(bytes).is_err_and(|refusal| refusal.number < 3) {
        return None;
    }
    let (words, most_first) = (bytes.len() as i64 / 2, bytes[12] == 0);
    let pool = word(bytes, most_first, 7);
    let four = match pool {
        0 => Ok(0),
        _ if !(check.pointer)(words, pool) => Err(4),
        _ => (check.start)(words, pool, (check.first)(bytes, most_first, pool)).ok_or(4),
    };
    let three = if word(bytes, most_first, 1) == 0 { Ok(0) } else { Err(3) };
    // the others, with no pool
    let mut rest = bytes.to_vec();
    rest[14..16].fill(0);
    put_word(&mut rest, if most_first { Sex::MostFirst } else { Sex::LeastFirst }, 1, 0);
    let rest = Segment::judge(&rest).map_or_else(|refusal| Err(refusal.number), |_| Ok(0));
    let order = match (check.before_3, check.after_8) {
        (true, _) => [four, three, rest],
        (_, true) => [three, rest, four],
        _ => [three, four, rest],
    };
    let refused = order.into_iter().find_map(Result::err);
    Some(refused.map_or(four, Err))
}

/// How many segments of the set a wrong check answers otherwise.
fn seen_by_judging(check: &Check) -> usize {
    asked().judged.iter().filter(|bytes| judged(check, bytes) != judged(&RIGHT, bytes)).count()
}

#[test]
fn the_check_with_nothing_wrong_is_the_interpreters() {
    let (mut with_reals, mut refused) = (0, 0);
    for bytes in &asked().judged {
        let Some(answer) = judged(&RIGHT, bytes) else { continue };
        let told = Segment::judge(bytes);
        let told = told.map(|segment| i64::from(segment.real_start)).map_err(|refusal| refusal.number);
        assert_eq!(answer, told);
        with_reals += usize::from(answer.is_ok_and(|start| start != 0 && start < bytes.len() as i64 / 2));
        refused += usize::from(answer == Err(4));
    }
    assert!(with_reals > 50 && refused > 100, "{with_reals} {refused}");
}

#[test]
fn mistakes_in_check_4_are_seen() {
    let start = |start| seen_by_judging(&Check { start, ..RIGHT });
    let first = |first| seen_by_judging(&Check { first, ..RIGHT });
    let pointer = |pointer| seen_by_judging(&Check { pointer, ..RIGHT });
    fn inside(words: i64, start: i64) -> Option<i64> {
        Some(start).filter(|start| *start < words)
    }
    all_seen(
        &[
            ("any first word", start(|w, p, f| if f == 0 { Some(w) } else { Some((p + f).min(w)) })),
            ("W itself", start(|w, p, f| if f == 0 { Some(w) } else { inside(w + 1, p + f) })),
            ("not W-1", start(|w, p, f| if f == 0 { Some(w) } else { inside(w - 1, p + f) })),
            ("0 refused", start(|w, p, f| if f == 0 { None } else { inside(w, p + f) })),
            ("1 refused", start(|w, p, f| if f == 0 { Some(w) } else { inside(w, p + f).filter(|_| f > 1) })),
            ("from the segment's start", start(|w, _, f| if f == 0 { Some(w) } else { inside(w, f) })),
            ("from the segment's start, behind the pool", start(|w, p, f| if f == 0 { Some(w) } else { inside(w, f).filter(|s| *s > p) })),
            ("wraps at 16 bits", start(|w, p, f| if f == 0 { Some(w) } else { inside(w, (p + f) % 65_536) })),
            ("no real pool told as 0", start(|w, p, f| if f == 0 { Some(0) } else { inside(w, p + f) })),
            ("no real pool told as the pool", start(|w, p, f| if f == 0 { Some(p) } else { inside(w, p + f) })),
            ("the first word told", start(|w, p, f| if f == 0 { Some(w) } else { inside(w, p + f).map(|_| f) })),
            ("signed", start(|w, p, f| if f == 0 { Some(w) } else { inside(w, p + signed(f)) })),
            ("the first word least byte first", first(|bytes, _, at| word(bytes, false, at))),
            ("the first word most byte first", first(|bytes, _, at| word(bytes, true, at))),
            ("the first word's low byte", first(|bytes, sex, at| word(bytes, sex, at) % 256)),
            ("the word behind it", first(|bytes, sex, at| word(bytes, sex, at + 1))),
            ("the word before it", first(|bytes, sex, at| word(bytes, sex, at - 1))),
            ("pointer 10", pointer(|w, p| (10..w).contains(&p))),
            ("pointer 11 refused", pointer(|w, p| (12..w).contains(&p))),
            ("pointer W-1 refused", pointer(|w, p| (11..w - 1).contains(&p))),
            ("pointer W", pointer(|w, p| (11..=w).contains(&p))),
            ("4 before 3", seen_by_judging(&Check { before_3: true, ..RIGHT })),
            ("4 after 8", seen_by_judging(&Check { after_8: true, ..RIGHT })),
        ],
        3,
    );
    assert_eq!(seen_by_judging(&RIGHT), 0);
}

/// 4 comes before 9 and 9 before 10, whatever the output.
#[test]
fn turning_refuses_4_before_9() {
    let (mut nines, mut fours) = (0, 0);
    for (bytes, output) in &asked().turned {
        let Some(answer) = judged(&RIGHT, bytes) else { continue };
        let mut output = vec![0; *output as usize];
        let told = turn_over(bytes, &mut output).map_err(|refusal| refusal.number);
        match answer {
            Err(number) => assert_eq!(told, Err(number)),
            Ok(0) => assert!(matches!(told, Ok(()) | Err(10))),
            Ok(_) => assert_eq!(told, Err(9)),
        }
        nines += usize::from(told == Err(9));
        let lawful = Check { start: |words, _, _| Some(words), ..RIGHT };
        fours += usize::from(told == Err(4) && judged(&lawful, bytes).is_some_and(|answer| answer.is_ok()));
    }
    assert!(nines > 50 && fours > 50, "{nines} {fours}");
}

// ----------------------------------------------------------------------- LDC

/// LDC in parts that can be wrong.
#[derive(Clone, Copy)]
struct Load {
    /// The first word that may not be read.
    limit: fn(&Step) -> i64,
    no_pool: fn(&Step) -> bool,
    swaps: fn(&Step) -> bool,
    /// How many words, and which is the i-th, counted from B.
    count: fn(&Step) -> i64,
    which: fn(&Step, i64) -> i64,
    /// Whether so many words leave the stack too full.
    full: fn(&Step, i64) -> bool,
    full_first: bool,
}

const RIGHT_LOAD: Load = Load {
    limit: Step::reals,
    no_pool: |step| step.pool == 0,
    swaps: |step| step.decoded.mode == 2 && step.most_first,
    count: Step::count,
    which: |_, index| index,
    full: |step, count| (step.before.sp as i64) - count < step.floor,
    full_first: false,
};

/// The words pushed, top first, or the fault.
fn load(rule: &Load, step: &Step) -> Result<Vec<u16>, u8> {
    let count = (rule.count)(step);
    let last = step.at() + count - 1;
    let six = (rule.no_pool)(step) || count > 0 && last >= (rule.limit)(step);
    let four = (rule.full)(step, count);
    match (six, four) {
        (true, true) if rule.full_first => Err(4),
        (true, _) => Err(6),
        (_, true) => Err(4),
        _ => {
            let pushed = |index| word(&step.bytes, (rule.swaps)(step), step.at() + (rule.which)(step, index));
            Ok((0..count).rev().map(|index| pushed(index) as u16).collect())
        }
    }
}

fn loaded(step: &Step) -> Result<Vec<u16>, u8> {
    if let Some(number) = step.fault() {
        return Err(number);
    }
    let (sp, region) = (step.session_after().sp as usize, step.after.region(step.number).unwrap());
    Ok(region[sp..step.before.sp as usize].to_vec())
}

fn seen_by_loads(rule: Load) -> usize {
    asked().loads.iter().filter(|step| load(&rule, step) != loaded(step)).count()
}

#[test]
fn an_ldc_with_nothing_wrong_is_the_interpreters() {
    for step in &asked().loads {
        let pushed = loaded(step);
        assert_eq!(load(&RIGHT_LOAD, step), pushed);
        // nothing else is changed
        let mut region = step.region.clone();
        let mut session = step.before;
        if let Ok(pushed) = pushed {
            session.sp -= pushed.len() as u64;
            session.low = session.low.min(session.sp);
            session.counter = step.decoded.next;
            region[session.sp as usize..step.before.sp as usize].copy_from_slice(&pushed);
        } else {
            session.kind = step.session_after().kind;
        }
        assert_eq!(session, step.session_after());
        assert_eq!(region, step.after.region(step.number).unwrap());
    }
    assert!(asked().loads.len() > 500, "{}", asked().loads.len());
}

#[test]
fn mistakes_in_what_ldc_reads_are_seen() {
    let limit = |limit| seen_by_loads(Load { limit, ..RIGHT_LOAD });
    let swaps = |swaps| seen_by_loads(Load { swaps, ..RIGHT_LOAD });
    all_seen(
        &[
            ("limit W", limit(|step| step.words)),
            ("one word more", limit(|step| step.reals() + 1)),
            ("one word less", limit(|step| step.reals() - 1)),
            ("the real pool's first word", limit(|step| (step.reals() + 1).min(step.words))),
            ("no pool goes on for no words", seen_by_loads(Load { no_pool: |step| step.pool == 0 && step.count() > 0, ..RIGHT_LOAD })),
            ("no words judged", seen_by_loads(Load { no_pool: |step| step.pool == 0 || step.at() >= step.reals(), ..RIGHT_LOAD })),
            ("swapped by sex", swaps(|step| step.most_first)),
            ("swapped by mode", swaps(|step| step.decoded.mode == 2)),
            ("swapped where least first", swaps(|step| step.decoded.mode == 2 && !step.most_first)),
            ("never swapped", swaps(|_| false)),
            ("mode 1 too", swaps(|step| step.most_first && matches!(step.decoded.mode, 1 | 2))),
            ("mode 3 too", swaps(|step| step.most_first && matches!(step.decoded.mode, 2 | 3))),
            ("modes from 2 on", swaps(|step| step.most_first && step.decoded.mode >= 2)),
            ("modes but 0", swaps(|step| step.most_first && step.decoded.mode != 0)),
            ("mode 0", swaps(|step| step.most_first && step.decoded.mode == 0)),
        ],
        5,
    );
    assert_eq!(seen_by_loads(RIGHT_LOAD), 0);
}

#[test]
fn mistakes_in_what_ldc_pushes_are_seen() {
    let count = |count| seen_by_loads(Load { count, ..RIGHT_LOAD });
    let which = |which| seen_by_loads(Load { which, ..RIGHT_LOAD });
    let full = |full| seen_by_loads(Load { full, ..RIGHT_LOAD });
    all_seen(
        &[
            ("n-1 words", count(|step| (step.count() - 1).max(0))),
            ("n+1 words", count(|step| step.count() + 1)),
            ("0 for 256", count(|step| if step.count() == 0 { 256 } else { step.count() })),
            ("n as SB", count(|step| i64::from(step.decoded.count as u8 as i8).max(0))),
            ("the first word on top", which(|step, index| step.count() - 1 - index)),
            ("one word again and again", which(|_, _| 0)),
            ("one word further", which(|_, index| index + 1)),
            ("every second word", which(|_, index| 2 * index)),
            ("room for one word more", full(|step, count| (step.before.sp as i64) - count + 1 < step.floor)),
            ("room for one word less", full(|step, count| (step.before.sp as i64) - count - 1 < step.floor && count > 0)),
            ("room for one word", full(|step, count| (step.before.sp as i64) - 1 < step.floor && count > 0)),
            ("G forgotten", full(|step, count| (step.before.sp as i64) - count < 6)),
            ("4 before 6", seen_by_loads(Load { full_first: true, ..RIGHT_LOAD })),
        ],
        10,
    );
}

// ----------------------------------------------------------------------- XJP

/// XJP in parts that can be wrong.
#[derive(Clone, Copy)]
struct Case {
    limit: fn(&Step) -> i64,
    /// A word of the table as a number, and the index.
    number: fn(&Step, i64) -> i64,
    index: fn(i64) -> i64,
    in_range: fn(i64, i64, i64) -> bool,
    /// The word that has the target, given W1 and the index.
    which: fn(&Step, i64, i64) -> i64,
    /// Where the offset leads.
    target: fn(&Step, i64) -> i64,
    outside: fn(&Step, i64) -> bool,
    /// Words read besides W1, and the word that has the target where the index
    /// is in range.
    reads: fn(&Step) -> Vec<i64>,
    /// Whether 6 comes before 3, and whether a jump not taken is judged.
    pool_first: bool,
    always: bool,
}

const RIGHT_CASE: Case = Case {
    limit: |step| if step.pool == 0 { 0 } else { step.reals() },
    number: |step, at| signed(step.word(at)),
    index: signed,
    in_range: |least, most, index| least <= index && index <= most,
    which: |step, least, index| step.at() + 2 + (index - least),
    target: |step, by| step.next() + by,
    outside: |step, target| !(22..2 * step.words).contains(&target),
    reads: |step| vec![step.at() + 1],
    pool_first: false,
    always: false,
};

/// Where it goes on, or the fault.
fn case(rule: &Case, step: &Step) -> Result<i64, u8> {
    let limit = (rule.limit)(step);
    let unreadable = |at: i64| at >= limit;
    let beyond = unreadable(step.at()) || (rule.reads)(step).into_iter().any(unreadable);
    if rule.pool_first && beyond {
        return Err(6);
    }
    let index = (rule.index)(step.index().ok_or(3)?);
    if beyond {
        return Err(6);
    }
    let (least, most) = ((rule.number)(step, step.at()), (rule.number)(step, step.at() + 1));
    let taken = (rule.in_range)(least, most, index);
    if !taken && !rule.always {
        return Ok(step.next());
    }
    let at = if taken { (rule.which)(step, least, index) } else { step.at() + 2 };
    if unreadable(at) {
        return Err(6);
    }
    let target = (rule.target)(step, (rule.number)(step, at));
    match ((rule.outside)(step, target), taken) {
        (true, _) => Err(7),
        (_, true) => Ok(target),
        _ => Ok(step.next()),
    }
}

fn chosen(step: &Step) -> Result<i64, u8> {
    step.fault().map_or(Ok(step.session_after().counter as i64), Err)
}

fn seen_by_cases(rule: Case) -> usize {
    asked().cases.iter().filter(|step| case(&rule, step) != chosen(step)).count()
}

#[test]
fn an_xjp_with_nothing_wrong_is_the_interpreters() {
    for step in &asked().cases {
        assert_eq!(case(&RIGHT_CASE, step), chosen(step));
        // the index is popped, and no word is changed
        let session = step.session_after();
        let popped = u64::from(step.fault().is_none());
        assert_eq!(session.sp, step.before.sp + popped);
        assert_eq!((session.m, session.routine), (step.before.m, step.before.routine));
        assert_eq!(step.region, step.after.region(step.number).unwrap());
        assert!(session.sp as i64 <= step.length);
    }
    assert!(asked().cases.len() > 500, "{}", asked().cases.len());
}

#[test]
fn mistakes_in_the_range_are_seen() {
    let in_range = |in_range| seen_by_cases(Case { in_range, ..RIGHT_CASE });
    let which = |which| seen_by_cases(Case { which, ..RIGHT_CASE });
    all_seen(
        &[
            ("all unsigned", seen_by_cases(Case {
                number: |step, at| if at < step.at() + 2 { step.word(at) } else { signed(step.word(at)) },
                index: |index| index,
                ..RIGHT_CASE
            })),
            ("the index unsigned", seen_by_cases(Case { index: |index| index, ..RIGHT_CASE })),
            ("W1 unsigned", seen_by_cases(Case {
                number: |step, at| if at == step.at() { step.word(at) } else { signed(step.word(at)) },
                ..RIGHT_CASE
            })),
            ("W1 left out", in_range(|least, most, index| least < index && index <= most)),
            ("W2 left out", in_range(|least, most, index| least <= index && index < most)),
            ("W2+1 taken", in_range(|least, most, index| least <= index && index <= most + 1)),
            ("no least", in_range(|_, most, index| index <= most)),
            ("no most", in_range(|least, _, index| least <= index)),
            ("the other way round", in_range(|least, most, index| least.min(most) <= index && index <= least.max(most))),
            ("W2-W1 wraps", in_range(|least, most, index| (index - least) as u16 <= (most - least) as u16)),
            ("W2 as a count", in_range(|least, most, index| least <= index && index < least + most)),
            ("index counted from 0", which(|step, _, index| step.at() + 2 + index)),
            ("table at W2", which(|step, least, index| step.at() + 1 + index - least)),
            ("table one further", which(|step, least, index| step.at() + 3 + index - least)),
            ("always the first", which(|step, _, _| step.at() + 2)),
        ],
        10,
    );
}

#[test]
fn mistakes_in_what_xjp_reads_are_seen() {
    let limit = |limit| seen_by_cases(Case { limit, ..RIGHT_CASE });
    let reads = |reads| seen_by_cases(Case { reads, ..RIGHT_CASE });
    all_seen(
        &[
            ("limit W", limit(|step| if step.pool == 0 { 0 } else { step.words })),
            ("one word more", limit(|step| if step.pool == 0 { 0 } else { step.reals() + 1 })),
            ("one word less", limit(|step| if step.pool == 0 { 0 } else { step.reals() - 1 })),
            ("no pool is a pool at 0", limit(Step::reals)),
            ("W2 not judged", reads(|_| vec![])),
            ("W3 read always", reads(|step| vec![step.at() + 2])),
            ("the whole table read", reads(|step| {
                let (least, most) = (signed(step.word(step.at())), signed(step.word(step.at() + 1)));
                vec![step.at() + 1, step.at() + 2 + (most - least).max(-1)]
            })),
            ("words least byte first", seen_by_cases(Case {
                number: |step, at| signed(word(&step.bytes, false, at)),
                ..RIGHT_CASE
            })),
            ("words most byte first", seen_by_cases(Case {
                number: |step, at| signed(word(&step.bytes, true, at)),
                ..RIGHT_CASE
            })),
            ("6 before 3", seen_by_cases(Case { pool_first: true, ..RIGHT_CASE })),
        ],
        8,
    );
    assert_eq!(seen_by_cases(RIGHT_CASE), 0);
}

#[test]
fn mistakes_in_targets_are_seen() {
    let target = |target| seen_by_cases(Case { target, ..RIGHT_CASE });
    let outside = |outside| seen_by_cases(Case { outside, ..RIGHT_CASE });
    all_seen(
        &[
            ("in words", target(|step, by| step.next() + 2 * by)),
            ("from the first byte", target(|step, by| step.before.counter as i64 + by)),
            ("from the segment's start", target(|_, by| by)),
            ("unsigned", target(|step, by| step.next() + (by & 65_535))),
            ("21", outside(|step, target| !(21..2 * step.words).contains(&target))),
            ("not 22", outside(|step, target| !(23..2 * step.words).contains(&target))),
            ("2W", outside(|step, target| !(22..=2 * step.words).contains(&target))),
            ("not 2W-1", outside(|step, target| !(22..2 * step.words - 1).contains(&target))),
            ("W", outside(|step, target| !(22..step.words).contains(&target))),
            ("a jump not taken judged", seen_by_cases(Case { always: true, ..RIGHT_CASE })),
        ],
        8,
    );
    assert!(target(|step, by| (step.next() + by).rem_euclid(65_536)) >= 4, "wraps at 16 bits");
}

// ------------------------------------------------------- soundness and runs

/// Sound benches with a pool, with a real pool; and unsound ones that a lawful
/// first word alone would make sound, in slots that sessions name and others.
#[test]
fn soundness_judges_first_words() {
    let [mut pools, mut with_reals, mut named, mut others] = [0; 4];
    for world in &asked().sound {
        let slots = || (0..16u64).filter(|slot| world.bench.slots[*slot as usize].loaded);
        let segments = slots().filter_map(|slot| Segment::judge(world.segment_bytes(slot)?).ok());
        let real = |segment: &Segment| segment.real_start != segment.words;
        let starts: Vec<bool> = segments.filter(|segment| segment.pool != 0).map(|segment| real(&segment)).collect();
        if world.is_sound() {
            pools += usize::from(!starts.is_empty());
            with_reals += usize::from(starts.contains(&true));
            continue;
        }
        for slot in slots() {
            if !mends(world, slot) {
                continue;
            }
            let open = world.bench.records.iter().filter(|record| record.open);
            match open.into_iter().any(|record| record.slot == slot) {
                true => named += 1,
                false => others += 1,
            }
        }
    }
    let least = [("pools", pools, 40), ("real pools", with_reals, 20), ("named", named, 6), ("others", others, 6)];
    for (name, count, least) in least {
        assert!(count >= least, "{name}: {count}");
    }
}

/// Whether a first word of 0 makes the bench sound.
fn mends(world: &World, slot: u64) -> bool {
    let mut mended = world.clone();
    let start = world.bench.slots[slot as usize].start as usize;
    let Some(bytes) = world.segment_bytes(slot).filter(|bytes| bytes.len() > 16) else { return false };
    let most_first = bytes[12] == 0;
    let at = 2 * word(bytes, most_first, 7) as usize;
    let Some(first) = mended.store.get_mut(start + at..start + at + 2) else { return false };
    first.fill(0);
    at >= 22 && mended.is_sound()
}

#[test]
fn longer_runs_have_both_instructions() {
    let [loads, cases] = asked().in_runs;
    assert!(loads > 300 && cases > 100, "{loads} {cases}");
}
