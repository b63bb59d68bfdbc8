//! The cases that are written: the set that is committed, and fresh ones
//! without end.  Both are made of the same series, but for products, which only
//! the first has; a series puts several cases on one world, so that few lines
//! stand between them.

use crate::cases::Writer;
use crate::coverage::Came;
use crate::cut;
use crate::damage::{damage, with_room_for_a_copy, DAMAGES, LARGE};
use crate::depth;
use crate::generate::{
    self, beside_a_limit, call, loading_case, possible_outcomes, run_case, sequence_case,
    sound_bench, valid_segment, with_damage, Outcome, Rng, SequenceCase, BACK_TO_UNLINKED, FINISHED,
    GONE_ON, LINK_BEFORE_UNLINKED, ORDINARY, SMALL, UNLINKED, UNLINKED_WHEN_FULL,
};
use crate::hand::table;
use crate::machine::Kind;
use crate::pool;
use crate::products;
use crate::segment::turn_over;
use crate::steps::{base, draw, placed, Place};
use crate::unlinked;
use crate::window;
use crate::world::{Call, Request, World};
use std::collections::BTreeMap;
use std::io::{self, Write};
use std::ops::RangeInclusive;

/// How often each possible step outcome is in the committed set.
pub const WANTED: usize = 20;
/// Cases in a series of single steps on one world.
const SERIES: usize = 64;

/// How often an outcome is drawn for it: oftener where it has several causes.
fn drawn(outcome: Outcome) -> usize {
    match outcome {
        (Some(150), 9) => 100,
        // products worked by hand count too; as many are to be drawn beside them
        (Some(140), GONE_ON) => 70,
        // calls of unlinked routines worked by hand count too
        (_, UNLINKED) => 3 * WANTED,
        (_, UNLINKED_WHEN_FULL | LINK_BEFORE_UNLINKED | BACK_TO_UNLINKED) => 2 * WANTED,
        // and so do cut instructions
        (_, cut::CUT..=cut::LAST_CUT) => WANTED + 5,
        (Some(128..), GONE_ON | FINISHED | 6 | 7 | 9 | 10) => WANTED + 15,
        _ => WANTED,
    }
}

/// How often what LDC and XJP come to is drawn besides the cases by hand.
const DRAWN_OF_POOLS: usize = 15;
/// The same of reads and stores at the window's ends.
const DRAWN_OF_WINDOWS: usize = 12;

/// A writer with the randomness and the number of cases wanted.
pub struct Set<'a, Q: Write, A: Write> {
    pub writer: &'a mut Writer<Q, A>,
    rng: Rng,
    most: u64,
    /// The steps that the cases worked by hand have.
    by_hand: BTreeMap<Outcome, usize>,
}

impl<'a, Q: Write, A: Write> Set<'a, Q, A> {
    pub fn new(writer: &'a mut Writer<Q, A>, seed: u64) -> Self {
        Set { writer, rng: Rng(seed), most: u64::MAX, by_hand: BTreeMap::new() }
    }

    /// The committed set.
    pub fn committed(&mut self) -> io::Result<()> {
        self.worked_by_hand()?;
        self.by_hand = self.writer.coverage.steps.clone();
        self.writer.remark("single steps: every first byte, every outcome possible for it")?;
        self.every_step()?;
        self.writer.remark("segments judged and turned")?;
        for _ in 0..40 {
            self.segments(12)?;
        }
        for _ in 0..12 {
            self.large_segment()?;
        }
        self.writer.remark("255 routines, many of them unlinked")?;
        for _ in 0..10 {
            self.crowd(10)?;
        }
        self.benches()?;
        self.writer.remark("runs")?;
        for _ in 0..100 {
            self.run()?;
        }
        self.writer.remark("entries one after another")?;
        for _ in 0..120 {
            self.loading()?;
        }
        for _ in 0..90 {
            self.sequence()?;
        }
        self.writer.remark("new benches with numbers at limits")?;
        self.new_benches()?;
        self.writer.remark("products: words at limits by every word, in both orders")?;
        self.products()
    }

    /// Benches of five sorts.
    fn benches(&mut self) -> io::Result<()> {
        self.writer.remark("benches that load, open and run segments with unlinked routines")?;
        for _ in 0..40 {
            self.unlinked_bench()?;
        }
        self.writer.remark("benches that load, open and run segments with a constant pool")?;
        for _ in 0..40 {
            self.pool_bench()?;
        }
        self.writer.remark("benches that run into the segment's end, some with records of before")?;
        for _ in 0..40 {
            self.cut_bench()?;
        }
        self.writer.remark("benches with an archive, and sessions that see a part of it")?;
        for _ in 0..150 {
            self.archive_bench()?;
        }
        self.writer.remark("benches sound, and damaged in one field")?;
        self.every_damage(6)
    }

    /// Fresh cases of all sorts, so many.
    pub fn fresh(&mut self, count: u64) -> io::Result<()> {
        self.most = count;
        while !self.full() {
            match self.rng.up_to(99) {
                0..=11 => self.some_steps(SERIES)?,
                12..=24 => self.segments(10)?,
                25 => self.crowd(10)?,
                26 | 27 => self.unlinked_bench()?,
                28 => self.large_segment()?,
                29 | 30 => self.cut_bench()?,
                31 | 32 => self.pool_bench()?,
                33..=44 => self.some_damages(8)?,
                45..=63 => self.run()?,
                64..=71 => self.loading()?,
                72..=79 => self.archive_bench()?,
                80..=97 => self.sequence()?,
                _ => self.new_bench()?,
            }
        }
        Ok(())
    }

    /// The table of hand-worked cases, each sentence before its cases.
    fn worked_by_hand(&mut self) -> io::Result<()> {
        let mut sentence = "";
        for (number, case) in (1..).zip(table()) {
            if case.sentence != sentence {
                sentence = case.sentence;
                self.writer.remark(sentence)?;
            }
            self.writer.remark(&format!("{number} {}", case.name))?;
            self.writer.case(case.start)?;
            for asked in case.asked {
                let answer = self.writer.ask(asked.request)?;
                if answer != asked.answer || *self.writer.world() != asked.after {
                    self.complain(format!("hand {number}, {}: not as worked out", case.name));
                }
            }
        }
        Ok(())
    }

    fn full(&self) -> bool {
        self.writer.cases() >= self.most
    }

    fn ask(&mut self, request: Request) -> io::Result<()> {
        self.writer.ask(request).map(|_| ())
    }

    // ---------------------------------------------------------- single steps

    /// Every possible outcome as often as wanted, each on many worlds.
    fn every_step(&mut self) -> io::Result<()> {
        let mut lacking = possible_outcomes();
        for _ in 0..100_000 {
            lacking.retain(|outcome| self.lacks(*outcome));
            if lacking.is_empty() {
                break;
            }
            let place = base(&mut self.rng);
            self.lacking_steps(&place, &lacking)?;
        }
        Ok(())
    }

    /// A series on one world, as long as it offers what is lacking.
    fn lacking_steps(&mut self, place: &Place, lacking: &[Outcome]) -> io::Result<()> {
        let (mut used, mut fruitless) = (0, 0);
        while used < SERIES && fruitless < 60 {
            let hoped = self.rng.pick(lacking, (None, 1));
            let now = if used == 0 { &place.world } else { self.writer.world() };
            match draw(&mut self.rng, place, now, hoped) {
                Some((next, came)) if self.lacks_of(came) => {
                    used += self.step(place, next)?;
                    fruitless = 0;
                }
                _ => fruitless += 1,
            }
        }
        Ok(())
    }

    /// Whether a step is wanted for what it came to, for its lowest SP, or for
    /// where it met the window.
    fn lacks_of(&self, came: Came) -> bool {
        came.all().any(|outcome| self.lacks(outcome))
    }

    /// Whether an outcome is to be drawn once more.
    fn lacks(&self, outcome: Outcome) -> bool {
        let wanted = match outcome {
            (_, window::WINDOW..) => {
                let by_hand = self.by_hand.get(&outcome).copied().unwrap_or(0);
                WANTED.max(by_hand + DRAWN_OF_WINDOWS)
            }
            (_, depth::DEPTH..) => WANTED,
            (_, pool::POOL..) => {
                let by_hand = self.by_hand.get(&outcome).copied().unwrap_or(0);
                WANTED.max(by_hand + DRAWN_OF_POOLS)
            }
            _ => drawn(outcome),
        };
        self.writer.coverage.seen(outcome) < wanted
    }

    /// A series on one world; for each case an outcome is hoped for.
    fn some_steps(&mut self, many: usize) -> io::Result<()> {
        let place = base(&mut self.rng);
        let possible = possible_outcomes();
        let those = |ends: RangeInclusive<u32>| -> Vec<Outcome> {
            possible.iter().copied().filter(|(_, end)| ends.contains(end)).collect()
        };
        let of_unlinked = those(UNLINKED..=BACK_TO_UNLINKED);
        let of_pools = those(pool::POOL..=depth::DEPTH - 1);
        let of_depths = those(depth::DEPTH..=window::WINDOW - 1);
        let of_windows = those(window::WINDOW..=u32::MAX);
        let mut used = 0;
        while used < many && !self.full() {
            let hoped_for = match self.rng.up_to(12) {
                0 => &of_unlinked,
                1 | 2 => &of_pools,
                3 | 4 => &of_depths,
                5 => &of_windows,
                _ => &possible,
            };
            let hoped = self.rng.pick(hoped_for, (None, 1));
            let mut chosen = None;
            for _ in 0..12 {
                let now = if used == 0 { &place.world } else { self.writer.world() };
                let drawn = draw(&mut self.rng, &place, now, hoped);
                let found = drawn.as_ref().is_some_and(|(_, came)| came.counts_for(hoped));
                chosen = drawn.map(|(next, _)| next).or(chosen);
                if found {
                    break;
                }
            }
            if let Some(next) = chosen {
                used += self.step(&place, next)?;
            } else {
                used += 1;
            }
        }
        Ok(())
    }

    /// One step, and what it counts for in a series (much on a large world).
    fn step(&mut self, place: &Place, next: World) -> io::Result<usize> {
        let weight = 1 + next.memory.len() / 20_000;
        self.writer.case(next)?;
        self.ask(Request::Entry(Call::Turn { session: place.session as u64, k: 1 }))?;
        Ok(weight)
    }

    // -------------------------------------------------------------- products

    /// Words at limits by every word.  Nothing here is left to chance, so fresh
    /// cases do without them.
    fn products(&mut self) -> io::Result<()> {
        for (_, world) in products::cases() {
            self.writer.case(world)?;
            self.ask(Request::Entry(products::TURN))?;
        }
        Ok(())
    }

    // -------------------------------------------------------------- segments

    /// A valid segment, and others made of it.
    fn segments(&mut self, many: usize) -> io::Result<()> {
        let program = self.rng.chance(1, 3);
        let unlinked = self.rng.pick(&[5, 12], 5);
        let good = valid_segment(&mut self.rng, generate::Wish { program, unlinked, ..ORDINARY });
        self.segments_of(good, many)
    }

    /// Segments of 255 routines, many of them unlinked.
    fn crowd(&mut self, many: usize) -> io::Result<()> {
        let good = unlinked::crowd(&mut self.rng);
        self.segments_of(good, many)
    }

    /// A segment, its turned twin, and others beside it.
    fn segments_of(&mut self, good: Vec<u8>, many: usize) -> io::Result<()> {
        self.segment(good.clone())?;
        let mut twin = vec![0; good.len()];
        if turn_over(&good, &mut twin).is_ok() {
            self.segment(twin)?;
        }
        for _ in 1..many {
            let bytes = match self.rng.up_to(9) {
                0..=6 => beside_a_limit(&mut self.rng, good.clone()),
                7 | 8 => with_damage(&mut self.rng, good.clone()),
                _ => (0..self.rng.up_to(50)).map(|_| self.rng.next() as u8).collect(),
            };
            self.segment(bytes)?;
        }
        Ok(())
    }

    /// Judge and turn a segment.
    fn segment(&mut self, bytes: Vec<u8>) -> io::Result<()> {
        if self.full() {
            return Ok(());
        }
        let length = bytes.len() as u64;
        let mut world = self.writer.world().clone();
        world.store = bytes;
        self.writer.case(world)?;
        self.ask(Request::Judge)?;
        let lengths = [length, length, length + 1, length + 9, length.saturating_sub(1), length / 2, 0];
        let output = self.rng.pick(&lengths, length);
        self.ask(Request::TurnOver(output))
    }

    /// A segment at the upper limit of W, with its numbers at theirs.
    fn large_segment(&mut self) -> io::Result<()> {
        let words = self.rng.pick(&[32_766, 32_767, 32_767, 32_768], 32_767);
        let mut bytes = SMALL.to_vec();
        bytes.resize(2 * words as usize, self.rng.pick(&[7, 0, 156], 7));
        let sex = crate::segment::Sex::LeastFirst;
        let dictionary = self.rng.pick(&[11, words - 2, words - 3, words - 1, words], 11);
        let entry = self.rng.pick(&[words - 2, words - 5, words - 1, 14, 14], 14);
        let exit_ic = self.rng.pick(&[2 * words - 1, 2 * words, 22], 22);
        let pool = self.rng.pick(&[0, 0, words - 1, words, words / 2], 0);
        let room = words - 1 - pool;
        generate::put_word(&mut bytes, sex, 0, dictionary);
        generate::put_word(&mut bytes, sex, 7, pool);
        if pool > 0 {
            generate::put_word(&mut bytes, sex, pool, self.rng.pick(&[0, room, room, room + 1], 0));
        }
        generate::put_word(&mut bytes, sex, entry, self.rng.pick(&[0, 32_767], 0));
        generate::put_word(&mut bytes, sex, entry - 1, exit_ic);
        // sometimes a second routine, unlinked
        generate::put_word(&mut bytes, sex, dictionary, self.rng.pick(&[1, 1, 2], 1));
        generate::put_word(&mut bytes, sex, dictionary + 1, entry);
        if dictionary > 11 {
            generate::put_word(&mut bytes, sex, dictionary + 2, 0);
        }
        self.segment(bytes)
    }

    // --------------------------------------------------------------- damages

    /// Every damage so many times (those of a large memory twice).
    fn every_damage(&mut self, times: usize) -> io::Result<()> {
        let mut start = with_room_for_a_copy(sound_bench(&mut self.rng));
        let mut on_it = 0;
        for kind in DAMAGES {
            let mut left = if kind == LARGE { 2 } else { times };
            for _ in 0..400 {
                if left == 0 {
                    break;
                }
                if on_it >= 12 {
                    start = with_room_for_a_copy(sound_bench(&mut self.rng));
                    on_it = 0;
                }
                let done = self.damaged(&start, kind)?;
                on_it += if done { 1 } else { 4 };
                left -= usize::from(done);
            }
            if left > 0 {
                self.complain(format!("{kind}: {left} of {times} missing"));
            }
        }
        Ok(())
    }

    fn some_damages(&mut self, many: usize) -> io::Result<()> {
        let start = sound_bench(&mut self.rng);
        for _ in 0..many {
            let kind = self.rng.pick(&DAMAGES, "M outside");
            if kind != LARGE || self.rng.chance(1, 50) {
                self.damaged(&start, kind)?;
            }
        }
        Ok(())
    }

    /// A bench with one damage: is it sound, and what does an entry say?
    fn damaged(&mut self, start: &World, kind: &'static str) -> io::Result<bool> {
        let mut world = start.clone();
        let Some(sound) = damage(&mut self.rng, &mut world, kind) else { return Ok(false) };
        if self.full() {
            return Ok(true);
        }
        if world.is_sound() != sound {
            self.complain(format!("{kind}: sound should be {sound}"));
        }
        *self.writer.coverage.damages.entry((kind, sound)).or_default() += 1;
        // an entry that would be sensible on the bench before
        let next = call(&mut self.rng, start);
        let asks_the_archive = self.rng.chance(1, 4);
        self.writer.case(world)?;
        self.ask(Request::Sound)?;
        if asks_the_archive {
            let question = window::question(&mut self.rng, start);
            self.ask(question)?;
        }
        self.ask(Request::Entry(next))?;
        Ok(true)
    }

    fn complain(&mut self, what: String) {
        self.writer.coverage.complaints.push(what);
    }

    // ---------------------------------------------------- runs and sequences

    /// A session run for many steps, in one turn or in several.
    fn run(&mut self) -> io::Result<()> {
        if self.full() {
            return Ok(());
        }
        let case = run_case(&mut self.rng);
        let place = placed(&mut self.rng, &case);
        if place.world.memory.len() > 100_000 {
            return Ok(());
        }
        let session = place.session as u64;
        self.writer.case(place.world)?;
        let turns = self.rng.pick(&[1, 1, 2, 5], 1);
        for _ in 0..turns {
            let k = self.rng.pick(&[0, 1, 2, 9, 100, 400, case.k, case.k, case.k, case.k], 9);
            self.ask(Request::Entry(Call::Turn { session, k }))?;
        }
        let record = self.writer.world().bench.records.get(place.session);
        let ended = record.is_some_and(|record| record.session.kind != Kind::Ready);
        if ended && self.rng.chance(1, 3) {
            // a session that is not ready gives 0
            self.ask(Request::Entry(Call::Turn { session, k: 5 }))?;
        }
        Ok(())
    }

    /// Entries from several sessions on one bench.
    fn sequence(&mut self) -> io::Result<()> {
        let case = sequence_case(&mut self.rng);
        self.calls(case)
    }

    /// A segment loaded twice.
    fn loading(&mut self) -> io::Result<()> {
        let case = loading_case(&mut self.rng);
        self.calls(case)
    }

    /// A segment with unlinked routines loaded, opened, run and closed.
    fn unlinked_bench(&mut self) -> io::Result<()> {
        let (start, calls) = unlinked::bench_case(&mut self.rng);
        self.calls_and_soundness(start, calls)
    }

    /// A segment with a pool loaded, opened, run and closed.
    fn pool_bench(&mut self) -> io::Result<()> {
        let (start, calls) = pool::bench_case(&mut self.rng);
        self.calls_and_soundness(start, calls)
    }

    /// Sessions that run into the segment's end, some faulted already.
    fn cut_bench(&mut self) -> io::Result<()> {
        let (start, calls) = cut::bench_case(&mut self.rng);
        self.calls_and_soundness(start, calls)
    }

    /// Sessions on windows of an archive; some go on when its words are others.
    fn archive_bench(&mut self) -> io::Result<()> {
        if self.full() {
            return Ok(());
        }
        let (start, requests) = window::bench_case(&mut self.rng);
        self.writer.case(start)?;
        for request in requests {
            self.ask(request)?;
        }
        if self.full() || self.rng.chance(1, 2) {
            return Ok(());
        }
        let mut next = self.writer.world().clone();
        window::other_words(&mut self.rng, &mut next);
        self.writer.case(next)?;
        for _ in 0..3 {
            let request = window::some_request(&mut self.rng, self.writer.world());
            self.ask(request)?;
        }
        Ok(())
    }

    fn calls_and_soundness(&mut self, start: World, calls: Vec<Call>) -> io::Result<()> {
        if self.full() {
            return Ok(());
        }
        self.writer.case(start)?;
        for call in calls {
            self.ask(Request::Entry(call))?;
            if self.rng.chance(1, 4) {
                self.ask(Request::Sound)?;
            }
        }
        Ok(())
    }

    fn calls(&mut self, case: SequenceCase) -> io::Result<()> {
        if self.full() {
            return Ok(());
        }
        self.writer.case(case.start)?;
        for call in case.calls {
            self.ask(Request::Entry(call))?;
            if self.rng.chance(1, 8) {
                let question = window::question(&mut self.rng, self.writer.world());
                self.ask(question)?;
            }
        }
        Ok(())
    }

    // ------------------------------------------------------------ new benches

    /// All pairs of numbers at limits.
    fn new_benches(&mut self) -> io::Result<()> {
        for shared in SIZES_OF_S {
            for words in SIZES_OF_N {
                let world = self.writer.world().clone();
                self.writer.case(world)?;
                self.ask(Request::Entry(Call::New { shared, words }))?;
            }
        }
        Ok(())
    }

    fn new_bench(&mut self) -> io::Result<()> {
        if self.full() {
            return Ok(());
        }
        let shared = self.rng.pick(&SIZES_OF_S, 0);
        let words = self.rng.pick(&SIZES_OF_N, 0);
        let world = self.writer.world().clone();
        self.writer.case(world)?;
        self.ask(Request::Entry(Call::New { shared, words }))?;
        self.ask(Request::Sound)
    }
}

const SIZES_OF_S: [u64; 7] = [0, 1, 2, 32_768, 32_769, 1 << 32, u64::MAX];
const SIZES_OF_N: [u64; 8] = [0, 1, 32_768, 40_000, 1_048_576, 1_048_577, 1 << 32, u64::MAX];
