//! The set sees mistakes in the place of fault 1 (request 8 of 02): each single
//! step of the set is answered once more by a reading in which one thing is
//! wrong, and so are soundness and the turns of records made before.  With
//! nothing wrong the reading answers as the interpreter does.

mod requests;

use second::cut::possible_cuts;
use second::hand::carried;
use second::machine::{instruction, Form, Kind, Session};
use second::segment::{Segment, Sex};
use second::world::{ask, Call, Request, World};
use std::sync::OnceLock;

// ------------------------------------------------------------------- the set

/// A step of the set: what it meets, and the session before and after.
#[derive(Clone)]
struct Step {
    /// The instruction's bytes that are there, and how many it has.
    there: Vec<u8>,
    size: u64,
    /// `None` for a byte that is not carried, and beyond the end.
    form: Option<Form>,
    /// 2W, and the segment's first byte in the store
    end: u64,
    start: u64,
    sex: Sex,
    /// L
    length: u64,
    before: Session,
    after: Session,
}

/// What the set asks, as far as a place can matter to it.
#[derive(Default)]
struct Asked {
    steps: Vec<Step>,
    /// Worlds of which anything is asked, with the turn, if it is one.
    worlds: Vec<(World, Option<(usize, u64)>)>,
}

fn asked() -> &'static Asked {
    static ASKED: OnceLock<Asked> = OnceLock::new();
    requests::picked(&ASKED, note)
}

fn note(asked: &mut Asked, world: &World, request: Request) {
    let turn = match request {
        Request::Entry(Call::Turn { session, k }) if session < 16 => Some((session as usize, k)),
        _ => None,
    };
    if let Some((session, 1)) = turn {
        asked.steps.extend(step(world, session));
    }
    let faulted = |session: &Session| matches!(session.kind, Kind::Faulted { .. });
    if world.bench.records.iter().any(|record| record.open && faulted(&record.session))
        && world.memory.len() < 100_000
    {
        asked.worlds.push((world.clone(), turn));
    }
}

/// What a turn of one step meets, if the session can take it.
fn step(world: &World, number: usize) -> Option<Step> {
    let record = &world.bench.records[number];
    if !record.open || record.session.kind != Kind::Ready || !world.is_sound() {
        return None;
    }
    let segment = Segment::judge(world.segment_bytes(record.slot)?).ok()?;
    let code = &segment.bytes[record.session.counter as usize..];
    let form = code.first().and_then(|first| instruction(*first)).map(|row| row.form);
    let size = size(form, code);
    let mut after = world.clone();
    ask(&mut after, Call::Turn { session: number as u64, k: 1 }).ok()?;
    Some(Step {
        there: code.iter().copied().take(size).collect(),
        size: size as u64,
        form,
        end: segment.bytes.len() as u64,
        start: world.bench.slots[record.slot as usize].start,
        sex: segment.sex,
        length: record.length,
        before: record.session,
        after: after.bench.records[number].session,
    })
}

/// How many bytes an instruction has, by 000's operands; a B whose first byte
/// is not there counts as one byte.
fn size(form: Option<Form>, code: &[u8]) -> usize {
    let big = |at: usize| if code.get(at).is_some_and(|byte| *byte > 127) { 2 } else { 1 };
    match form {
        None | Some(Form::Nothing) => 1,
        Some(Form::Ub | Form::Sb) => 2,
        Some(Form::W | Form::DbUb) => 3,
        Some(Form::B) => 1 + big(1),
        Some(Form::DbB) => 2 + big(2),
        Some(Form::UbBUb) => 3 + big(2),
    }
}

// --------------------------------------------------------- the right reading

impl Step {
    /// The fault's number, 0 for none.
    fn number(&self) -> u8 {
        match self.after.kind {
            Kind::Faulted { number, .. } => number,
            _ => 0,
        }
    }

    fn counter(&self) -> u64 {
        self.before.counter
    }

    fn is_cut(&self) -> bool {
        !self.there.is_empty() && (self.there.len() as u64) < self.size
    }

    /// "the offset of the first byte it could not fetch"
    fn missing(&self) -> u64 {
        self.counter() + self.there.len() as u64
    }

    fn has_db(&self) -> bool {
        matches!(self.form, Some(Form::DbB | Form::DbUb))
    }

    fn db_above_127(&self) -> bool {
        self.has_db() && self.there.get(1).is_some_and(|db| *db > 127)
    }

    /// Faulted so, "only the session's kind changes".
    fn faulted(&self, number: u8, place: u64) -> Session {
        Session { kind: Kind::Faulted { number, place }, ..self.before }
    }

    /// The same fault at another place.
    fn at(&self, place: u64) -> Session {
        self.faulted(self.number(), place)
    }
}

/// 1 by the bytes alone, at the first that is missing; then what is not
/// carried; a fault that other things decide has its number from the
/// interpreter, and its place is the instruction.
fn right(step: &Step) -> Session {
    if step.there.is_empty() || step.is_cut() && step.form.is_some() {
        step.faulted(1, step.missing())
    } else if step.form.is_none() || step.db_above_127() {
        step.faulted(2, step.counter())
    } else if step.number() > 2 {
        step.at(step.counter())
    } else {
        step.after
    }
}

#[test]
fn the_reading_with_nothing_wrong_is_the_interpreters() {
    let mut cut = 0;
    for step in &asked().steps {
        assert_eq!(right(step), step.after);
        assert!(!matches!(step.number(), 1 | 2) || right(step).counter == step.counter());
        cut += usize::from(step.is_cut());
    }
    assert!(cut > 1_000, "{cut}");
    assert_eq!(seen(right), 0);
}

/// How many steps of the set a wrong reading answers otherwise.
fn seen(wrong: impl Fn(&Step) -> Session) -> usize {
    asked().steps.iter().filter(|step| wrong(step) != step.after).count()
}

/// A wrong place for the steps of one sort; the others are right.
fn seen_where(sort: impl Fn(&Step) -> bool, place: impl Fn(&Step) -> u64) -> usize {
    seen(|step| if sort(step) { step.at(place(step)) } else { right(step) })
}

/// Every mistake is to be seen in so many steps.
fn all_seen(mistakes: &[(&str, usize)], least: usize) {
    for (name, count) in mistakes {
        assert!(*count >= least, "{name}: {count}");
    }
}

// ------------------------------------------------------------ wrong readings

#[test]
fn wrong_places_of_a_cut_are_seen() {
    let cut = |place: fn(&Step) -> u64| seen_where(|step| step.number() == 1 && step.is_cut(), place);
    all_seen(
        &[
            ("the old place", cut(Step::counter)),
            ("one byte further", cut(|step| step.missing() + 1)),
            ("one byte less", cut(|step| step.missing() - 1)),
            ("the byte after the first one", cut(|step| step.counter() + 1)),
            ("the byte after the whole instruction", cut(|step| step.counter() + step.size)),
            ("the instruction's last byte", cut(|step| step.counter() + step.size - 1)),
            ("the byte's place in the store", cut(|step| step.start + step.missing())),
            ("the bytes that are there", cut(|step| step.missing() - step.counter())),
            ("the bytes that are missing", cut(|step| step.counter() + step.size - step.missing())),
            ("W", cut(|step| step.end / 2)),
            ("0", cut(|_| 0)),
            ("22", cut(|_| 22)),
        ],
        100,
    );
}

#[test]
fn wrong_places_of_some_cuts_are_seen() {
    let old = |sort: fn(&Step) -> bool| {
        seen_where(|step| step.number() == 1 && step.is_cut() && sort(step), Step::counter)
    };
    let last_but = |step: &Step| step.missing() - 1;
    let less = |sort: fn(&Step) -> bool| {
        seen_where(|step| step.number() == 1 && step.is_cut() && sort(step), last_but)
    };
    all_seen(
        &[
            ("the old place after the first byte", old(|step| step.there.len() == 1)),
            ("the old place after an operand byte", old(|step| step.there.len() > 1)),
            ("the old place after two operand bytes", old(|step| step.there.len() > 2)),
            ("the old place least byte first", old(|step| step.sex == Sex::LeastFirst)),
            ("the old place most byte first", old(|step| step.sex == Sex::MostFirst)),
            ("the old place where M is 1", old(|step| step.before.m == 1)),
            ("the old place where the stack is empty", old(|step| step.before.sp == step.length)),
            ("the old place where a DB is above 127", old(Step::db_above_127)),
            ("the old place of a return", old(|step| step.there[0] == 150)),
            ("the old place where W is 16", old(|step| step.end == 32)),
            ("a W's first byte", less(|step| step.form == Some(Form::W) && step.there.len() == 2)),
            ("a B's first byte", less(|step| step.form == Some(Form::B) && step.there.len() == 2)),
            ("a B's first byte after a DB", less(|step| step.there.len() == 3)),
            ("the DB", less(|step| step.has_db() && step.there.len() == 2)),
        ],
        20,
    );
}

/// The old place for one first byte, one form, or after one of its bytes alone.
#[test]
fn the_old_place_of_one_instruction_is_seen() {
    let mut pairs = 0;
    for first in carried() {
        for (_, end) in possible_cuts(first) {
            let there = second::cut::bytes_there(end).unwrap() as usize;
            let above = end >= second::cut::CUT_DB;
            let sort = |step: &Step| {
                step.there.len() == there && step.there[0] == first && step.is_cut() && step.db_above_127() == above
            };
            let count = seen_where(sort, Step::counter);
            assert!(count >= 20, "{first}, {there} bytes: {count}");
            for sex in [Sex::LeastFirst, Sex::MostFirst] {
                let count = seen_where(|step| sort(step) && step.sex == sex, Step::counter);
                assert!(count >= 1, "{first}, {there} bytes, {sex:?}: {count}");
            }
            pairs += 1;
        }
    }
    assert_eq!(pairs, 60);
}

#[test]
fn wrong_places_of_a_first_byte_out_of_range_are_seen() {
    let none = |place: fn(&Step) -> u64| seen_where(|step| step.there.is_empty(), place);
    all_seen(
        &[
            ("0", none(|_| 0)),
            ("22", none(|_| 22)),
            ("the last byte", none(|step| step.end - 1)),
            ("one byte further", none(|step| step.end + 1)),
            ("W", none(|step| step.end / 2)),
            ("its place in the store", none(|step| step.start + step.end)),
        ],
        20,
    );
}

#[test]
fn a_place_moved_for_another_fault_is_seen() {
    let not_carried = |place: fn(&Step) -> u64| {
        seen_where(|step| step.number() == 2 && step.form.is_none(), place)
    };
    let db = |place: fn(&Step) -> u64| seen_where(|step| step.number() == 2 && step.form.is_some(), place);
    let after_it = |step: &Step| step.counter() + step.size;
    all_seen(
        &[
            ("2, not carried, at the next byte", not_carried(after_it)),
            ("2, not carried, at 2W", not_carried(|step| step.end)),
            ("2, DB above 127, at the DB", db(|step| step.counter() + 1)),
            ("2, DB above 127, at the byte after the DB", db(|step| step.counter() + 2)),
            ("2, DB above 127, at the byte after all", db(after_it)),
            ("2, DB above 127, at 2W", db(|step| step.end)),
        ],
        50,
    );
    let last = |step: &Step| step.form.is_none() && step.counter() + 1 == step.end;
    assert!(seen_where(last, after_it) >= 100);
    for number in 2..=10 {
        let its_own = |step: &Step| step.number() == number;
        assert!(seen_where(its_own, after_it) >= 20, "{number} at the byte after");
        assert!(seen_where(its_own, |step| step.end) >= 20, "{number} at 2W");
        // also where the instruction ends with the segment
        let at_the_end = |step: &Step| its_own(step) && after_it(step) == step.end;
        let count = seen_where(at_the_end, after_it);
        assert!(count >= 8, "{number} at the byte after, which is 2W: {count}");
    }
}

#[test]
fn a_wrong_number_is_seen() {
    let cut = |sort: fn(&Step) -> bool, wrong: fn(&Step) -> Session| {
        seen(|step| if step.number() == 1 && step.is_cut() && sort(step) { wrong(step) } else { right(step) })
    };
    let last_not_carried = seen(|step| {
        if step.form.is_none() && !step.there.is_empty() && step.counter() + 1 == step.end {
            step.faulted(1, step.end)
        } else {
            right(step)
        }
    });
    all_seen(
        &[
            ("a DB judged before its operands", cut(Step::db_above_127, |step| step.faulted(2, step.counter()))),
            ("the same at the missing byte", cut(Step::db_above_127, |step| step.faulted(2, step.missing()))),
            ("2 for what is cut", cut(|_| true, |step| step.faulted(2, step.counter()))),
            ("2 for what is cut, at the missing byte", cut(|_| true, |step| step.faulted(2, step.missing()))),
            ("3 before 1", cut(|step| step.before.sp == step.length, |step| step.faulted(3, step.counter()))),
            ("9 before 1 in a return", cut(|step| step.there[0] == 150, |step| step.faulted(9, step.counter()))),
            ("1 for a last byte that is not carried", last_not_carried),
            ("a return with M = 1 without its B", cut(
                |step| step.there[0] == 150 && step.before.m == 1,
                |step| Session { kind: Kind::Finished, ..step.before },
            )),
            ("a cut that goes on", cut(|_| true, |step| Session { counter: step.missing(), ..step.before })),
            ("no fault at 2W", seen(|step| if step.there.is_empty() { step.before } else { right(step) })),
        ],
        8,
    );
}

#[test]
fn a_counter_that_moves_is_seen() {
    let moved = |sort: fn(&Step) -> bool, to: fn(&Step) -> u64| {
        seen(|step| if sort(step) { Session { counter: to(step), ..step.after } } else { right(step) })
    };
    let after_it = |step: &Step| step.counter() + step.size;
    all_seen(
        &[
            ("with the place", moved(Step::is_cut, Step::missing)),
            ("to the last byte", moved(Step::is_cut, |step| step.end - 1)),
            ("to the byte after the first", moved(Step::is_cut, |step| step.counter() + 1)),
            ("back to 22", moved(Step::is_cut, |_| 22)),
            ("by a byte that is not carried", moved(|step| step.form.is_none() && step.number() == 2, after_it)),
            ("by a DB above 127", moved(|step| step.form.is_some() && step.number() == 2, after_it)),
            ("by any other fault", moved(|step| step.number() > 2, after_it)),
        ],
        50,
    );
}

/// A carried instruction as the segment's last is whole: no first byte is cut
/// where it need not be.
#[test]
fn every_instruction_is_whole_at_the_end() {
    for first in carried() {
        let whole = asked().steps.iter().filter(|step| {
            step.there.first() == Some(&first) && !step.is_cut() && step.counter() + step.size == step.end
        });
        let count = whole.count();
        assert!(count >= 3, "{first}: {count}");
    }
}

// ------------------------------------------------- soundness and old records

/// The faults, places and counters of the open sessions, with 2W.
fn faults(world: &World) -> Vec<(u8, u64, u64, u64)> {
    let open = world.bench.records.iter().filter(|record| record.open);
    let faulted = open.filter_map(|record| {
        let end = world.segment_bytes(record.slot)?.len() as u64;
        match record.session.kind {
            Kind::Faulted { number, place } => Some((number, place, record.session.counter, end)),
            _ => None,
        }
    });
    faulted.collect()
}

/// Sound worlds of the set that a soundness asking more would refuse.
fn refused_by(asks: impl Fn(u8, u64, u64, u64) -> bool) -> usize {
    let wrong = |world: &World| {
        faults(world).into_iter().any(|(number, place, counter, end)| !asks(number, place, counter, end))
    };
    asked().worlds.iter().filter(|(world, _)| wrong(world) && world.is_sound()).count()
}

#[test]
fn a_soundness_that_asks_too_much_is_seen() {
    all_seen(
        &[
            ("1 at 2W alone", refused_by(|number, place, _, end| number != 1 || place == end)),
            ("1 not at 2W", refused_by(|number, place, _, end| number != 1 || place < end)),
            ("1 at its instruction alone", refused_by(|number, place, counter, _| number != 1 || place == counter)),
            ("1 not at its instruction", refused_by(|number, place, counter, end| {
                number != 1 || counter == end || place != counter
            })),
            ("1 not before its instruction", refused_by(|number, place, counter, _| number != 1 || place >= counter)),
            ("1 at most three bytes on", refused_by(|number, place, counter, _| number != 1 || place <= counter + 3)),
            ("others at their instruction", refused_by(|number, place, counter, _| number == 1 || place == counter)),
            ("others below 2W", refused_by(|number, place, _, end| number == 1 || place < end)),
        ],
        5,
    );
}

/// Benches that the place alone makes unsound.
#[test]
fn a_soundness_that_asks_too_little_is_seen() {
    let mended = |world: &World, bad: fn(u64, u64) -> bool| {
        let mut good = world.clone();
        let mut changed = false;
        for record in good.bench.records.iter_mut().filter(|record| record.open) {
            let Some(end) = world.segment_bytes(record.slot).map(|bytes| bytes.len() as u64) else { return false };
            if let Kind::Faulted { number, place } = record.session.kind {
                if number == 1 && bad(place, end) {
                    record.session.kind = Kind::Faulted { number, place: end };
                    changed = true;
                }
            }
        }
        changed && good.is_sound()
    };
    let taken = |bad: fn(u64, u64) -> bool| {
        asked().worlds.iter().filter(|(world, _)| !world.is_sound() && mended(world, bad)).count()
    };
    all_seen(
        &[
            ("1 at 2W and one", taken(|place, end| place == end + 1)),
            ("1 at 21", taken(|place, _| place == 21)),
            ("1 at 0", taken(|place, _| place == 0)),
        ],
        2,
    );
}

/// A record of fault 1 at its instruction, as it was made before the request.
fn is_of_before(session: &Session, end: u64) -> bool {
    session.kind == (Kind::Faulted { number: 1, place: session.counter }) && session.counter < end
}

#[test]
fn records_of_before_are_left_alone() {
    let (mut turns, mut beside) = (0, 0);
    for (world, turn) in asked().worlds.iter().filter(|(world, _)| world.is_sound()) {
        let Some((number, k)) = *turn else { continue };
        let of_before = |number: usize| {
            let record = &world.bench.records[number];
            let end = world.segment_bytes(record.slot).map_or(0, |bytes| bytes.len() as u64);
            record.open && is_of_before(&record.session, end)
        };
        let mut after = world.clone();
        let answer = ask(&mut after, Call::Turn { session: number as u64, k });
        if of_before(number) && (1..=65_535).contains(&k) {
            assert_eq!(answer, Ok(0));
            assert!(after == *world);
            turns += 1;
        }
        let others = (0..16).filter(|other| *other != number && of_before(*other));
        for other in others {
            assert_eq!(after.bench.records[other], world.bench.records[other]);
            beside += usize::from(answer.is_ok_and(|done| done > 0));
        }
    }
    assert!(turns >= 20, "{turns}");
    assert!(beside >= 20, "{beside}");
}
