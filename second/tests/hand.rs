//! The interpreter, plain and fast, held to the cases worked by hand.

use second::bench;
use second::fast;
use second::hand::{table, Hand};
use second::coverage::{came_to, Coverage};
use second::generate::GONE_ON;
use second::machine::instruction;
use second::world::{request, Answer, Call, Request, World};
use std::collections::BTreeSet;

/// The same request with the fast machine.
fn request_fast(world: &mut World, asked: Request) -> Answer {
    let Request::Entry(Call::Turn { session, k }) = asked else { return request(world, asked) };
    let World { bench, memory, store } = world;
    match bench::turn_by(fast::turn, bench, memory, store, session, k) {
        Ok(done) => Answer::Done(done),
        Err(refusal) => Answer::Refused(refusal),
    }
}

fn holds(number: usize, case: &Hand, put: fn(&mut World, Request) -> Answer) {
    let mut world = case.start.clone();
    for asked in &case.asked {
        let at = format!("case {number}, {}: {:?}", case.name, asked.request);
        assert_eq!(put(&mut world, asked.request), asked.answer, "{at}");
        assert_eq!(world.bench, asked.after.bench, "{at}");
        assert!(world.memory == asked.after.memory, "{at}: {:?}", world.memory);
        assert!(world.store == asked.after.store, "{at}");
    }
}

#[test]
fn the_interpreter_answers_as_worked_by_hand() {
    for (number, case) in (1..).zip(&table()) {
        holds(number, case, request);
        holds(number, case, request_fast);
    }
}

#[test]
fn every_case_has_its_sentence() {
    for case in table() {
        assert!(!case.sentence.is_empty(), "{}", case.name);
        assert!(!case.asked.is_empty(), "{}", case.name);
    }
}

/// Every refusal, every fault, and every carried instruction going well.
#[test]
fn the_table_has_everything_once_at_least() {
    let (mut refusals, mut faults, mut names) = (BTreeSet::new(), BTreeSet::new(), BTreeSet::new());
    for case in table() {
        let mut before = case.start;
        for asked in case.asked {
            if let Answer::Refused(refusal) | Answer::TurnedOver(_, Some(refusal)) = asked.answer {
                refusals.insert(refusal.number);
            }
            let met = Coverage::default().before(asked.request, &before);
            before = asked.after;
            let Request::Entry(Call::Turn { session, .. }) = asked.request else { continue };
            let Some(record) = before.bench.records.get(session as usize) else { continue };
            let end = came_to(record.session.kind);
            faults.insert(end);
            if let (GONE_ON, Some(first)) = (end, met.and_then(|met| met.first)) {
                names.extend(instruction(first).map(|row| row.name));
            }
        }
    }
    assert_eq!(refusals, (1..=17).chain([23]).collect());
    assert!((1..=10).all(|fault| faults.contains(&fault)), "{faults:?}");
    let carried: BTreeSet<&str> =
        (0..=255).filter_map(instruction).map(|row| row.name).collect();
    assert_eq!(names, carried);
}
