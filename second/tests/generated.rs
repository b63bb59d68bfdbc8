//! Generated cases: the fast machine against the plain one, what holds of
//! every answer, and the cases as they are written.

use second::bench;
use second::cases::Writer;
use second::fast;
use second::generate::{
    call, loading_case, possible_outcomes, run_case, segment_case, sequence_case, sound_bench, Rng,
    RunCase,
};
use second::machine::{self, Kind, Session};
use second::reader::Reader;
use second::segment::{turn_over, Segment};
use second::set::{Set, WANTED};
use second::steps;
use second::world::{ask, Call, World};

fn both(case: &RunCase) {
    let Ok(segment) = Segment::judge(&case.segment) else { panic!("a run of no segment") };
    let (mut plain, mut plain_session) = (case.region.clone(), case.session);
    let (mut quick, mut quick_session) = (case.region.clone(), case.session);
    let k = case.k.min(3_000);
    let done = machine::turn(&segment, &case.shared, &mut plain, &mut plain_session, k);
    let quick_done = fast::turn(&segment, &case.shared, &mut quick, &mut quick_session, k);
    assert_eq!(
        (done, plain_session, &plain),
        (quick_done, quick_session, &quick),
        "{case:?}"
    );
    if let Kind::Faulted { number, place } = plain_session.kind {
        // the counter stays on the instruction; where a byte is missing in a
        // sound session's code, the first one is at 2W
        let end = segment.bytes.len() as u64;
        assert_eq!(place, if number == 1 { end } else { plain_session.counter });
    }
}

#[test]
fn fast_agrees_on_single_steps() {
    let mut rng = Rng(7);
    let possible = possible_outcomes();
    for _ in 0..400 {
        let place = steps::base(&mut rng);
        for _ in 0..40 {
            let hoped = rng.pick(&possible, (None, 1));
            let Some((mut world, _)) = steps::draw(&mut rng, &place, &place.world, hoped) else { continue };
            let mut quick = world.clone();
            let turn = Call::Turn { session: place.session as u64, k: 1 };
            assert_eq!(ask(&mut world, turn), Ok(1));
            assert_eq!(ask_fast(&mut quick, turn), Ok(1));
            assert_eq!(world, quick);
        }
    }
}

#[test]
fn fast_agrees_on_runs() {
    let mut rng = Rng(8);
    for _ in 0..1_500 {
        both(&run_case(&mut rng));
    }
}

#[test]
fn a_turn_of_k_is_k_turns_of_one() {
    let mut rng = Rng(9);
    for _ in 0..300 {
        let case = run_case(&mut rng);
        let segment = Segment::judge(&case.segment).unwrap();
        let (mut one, mut one_session) = (case.region.clone(), case.session);
        let (mut many, mut many_session) = (case.region.clone(), case.session);
        let k = case.k.min(300);
        let done = machine::turn(&segment, &case.shared, &mut one, &mut one_session, k);
        let sum: u64 = (0..k)
            .map(|_| machine::turn(&segment, &case.shared, &mut many, &mut many_session, 1))
            .sum();
        assert_eq!((done, one_session, one), (sum, many_session, many));
    }
}

#[test]
fn neither_machine_panics_on_an_unsound_session() {
    let mut rng = Rng(10);
    for _ in 0..3_000 {
        let mut case = run_case(&mut rng);
        let wild = |rng: &mut Rng| {
            rng.pick(&[0, 1, 5, 40, 65_535, 32_768, 1 << 32, i64::MAX as u64, u64::MAX], 7)
        };
        case.session = Session {
            sp: wild(&mut rng),
            m: wild(&mut rng),
            counter: wild(&mut rng),
            routine: wild(&mut rng),
            low: wild(&mut rng),
            kind: Kind::Ready,
        };
        let length = rng.pick(&[0, 1, 4, 16, 40], 3);
        case.region.resize(length, 3);
        let segment = Segment::judge(&case.segment).unwrap();
        for runner in [machine::turn as bench::Runner, fast::turn] {
            let (mut region, mut session) = (case.region.clone(), case.session);
            runner(&segment, &case.shared, &mut region, &mut session, 5);
        }
    }
}

#[test]
fn a_turned_segment_says_the_same_and_turns_back() {
    let mut rng = Rng(11);
    let mut turned_ones = 0;
    for _ in 0..3_000 {
        let case = segment_case(&mut rng);
        let mut output = vec![0xAA; case.output_length];
        let answer = turn_over(&case.bytes, &mut output);
        if answer.is_err() {
            assert!(output.iter().all(|byte| *byte == 0xAA));
            continue;
        }
        turned_ones += 1;
        let (turned, rest) = output.split_at(case.bytes.len());
        assert!(rest.iter().all(|byte| *byte == 0xAA));
        let before = Segment::judge(&case.bytes).unwrap();
        let after = Segment::judge(turned).unwrap();
        assert_ne!(before.sex, after.sex);
        assert_eq!(before.routines, after.routines);
        assert_eq!(
            (before.dictionary, before.name, before.real_size, before.reserved),
            (after.dictionary, after.name, after.real_size, after.reserved)
        );
        let mut back = vec![0; case.bytes.len()];
        assert_eq!(turn_over(turned, &mut back), Ok(()));
        assert_eq!(back, case.bytes);
    }
    assert!(turned_ones > 200);
}

/// An entry by the fast machine.
fn ask_fast(world: &mut World, call: Call) -> Result<u64, second::segment::Refusal> {
    match call {
        Call::Turn { session, k } => {
            let World { bench, memory, store } = world;
            bench::turn_by(fast::turn, bench, memory, store, session, k)
        }
        other => ask(world, other),
    }
}

#[test]
fn sequences_keep_soundness_and_refusals_change_nothing() {
    let mut rng = Rng(12);
    for round in 0..600 {
        let case = if round % 4 == 0 { loading_case(&mut rng) } else { sequence_case(&mut rng) };
        let mut now = case.start.clone();
        let mut quick = case.start;
        for call in case.calls {
            let before = now.clone();
            let was_sound = now.is_sound();
            let answer = ask(&mut now, call);
            assert_eq!(answer, ask_fast(&mut quick, call));
            assert_eq!(now, quick);
            if answer.is_err() {
                assert_eq!(now, before);
            } else if !matches!(call, Call::New { .. }) {
                assert!(was_sound);
                assert!(now.is_sound(), "{call:?}");
            }
        }
    }
}

#[test]
fn a_turn_touches_its_own_region_only() {
    let mut rng = Rng(13);
    for _ in 0..300 {
        let mut case = sound_bench(&mut rng);
        let next = call(&mut rng, &case);
        let Call::Turn { session, .. } = next else { continue };
        let before = case.clone();
        if ask(&mut case, next).is_err() {
            continue;
        }
        let record = before.bench.records[session as usize];
        let region = record.base as usize..(record.base + record.length) as usize;
        for (at, (old, new)) in before.memory.iter().zip(&case.memory).enumerate() {
            assert!(old == new || region.contains(&at));
        }
        for (number, (old, new)) in
            before.bench.records.iter().zip(&case.bench.records).enumerate()
        {
            assert!(old == new || number as u64 == session);
        }
        assert_eq!(before.store, case.store);
        assert_eq!(before.bench.slots, case.bench.slots);
    }
}

/// Lines read back give the answers written beside them.
fn answered(questions: &[u8], answers: &[u8]) {
    let questions = std::str::from_utf8(questions).unwrap();
    let mut reader = Reader::default();
    let mut got = String::new();
    for line in questions.lines() {
        assert!(line.len() < 4_096);
        if let Some(answer) = reader.line(line) {
            got += &answer;
            got.push('\n');
        }
    }
    assert!(got.as_bytes() == answers);
}

#[test]
fn the_committed_set_is_complete_and_its_lines_say_what_was_meant() {
    for seed in [1, 2] {
        let (mut questions, mut answers) = (Vec::new(), Vec::new());
        let mut writer = Writer::new(&mut questions, &mut answers, None);
        Set::new(&mut writer, seed).committed().unwrap();
        let coverage = writer.finish().unwrap();
        assert!(coverage.complaints.is_empty(), "{:#?}", coverage.complaints);
        assert!(coverage.missing_steps(WANTED).is_empty(), "{:#?}", coverage.missing_steps(WANTED));
        assert!(coverage.missing_refusals().is_empty(), "{:#?}", coverage.missing_refusals());
        answered(&questions, &answers);
    }
}

#[test]
fn fresh_cases_are_as_many_as_asked_for_and_read_back() {
    let (mut questions, mut answers) = (Vec::new(), Vec::new());
    let mut writer = Writer::new(&mut questions, &mut answers, None);
    Set::new(&mut writer, 14).fresh(3_000).unwrap();
    let coverage = writer.finish().unwrap();
    assert_eq!(coverage.cases, 3_000);
    assert!(coverage.complaints.is_empty());
    answered(&questions, &answers);
}

#[test]
fn one_case_alone_has_the_same_answers() {
    let mut all = Vec::new();
    let mut writer = Writer::new(std::io::sink(), &mut all, None);
    Set::new(&mut writer, 15).fresh(200).unwrap();
    drop(writer);
    let mut joined = Vec::new();
    for number in 1..=200 {
        let (mut questions, mut answers) = (Vec::new(), Vec::new());
        let mut writer = Writer::new(&mut questions, &mut answers, Some(number));
        Set::new(&mut writer, 15).fresh(number).unwrap();
        drop(writer);
        answered(&questions, &answers);
        joined.extend(answers);
    }
    assert!(joined == all);
}
