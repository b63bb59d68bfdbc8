//! Cases as lines, in the format of docs/CASES.md.  The writer keeps the world
//! as a reader of its lines has it; for each case it writes the least set-up
//! from there to the world wanted, then the requests, and beside them, in
//! another file, the interpreter's answers.

use crate::bench::{Bench, Record};
use crate::coverage::Coverage;
use crate::machine::{Kind, Session};
use crate::world::{blank_bench, request, Answer, Call, Judged, Request, World};
use std::io::{self, Write};
use std::ops::Range;

/// No line is longer, its end included.
const LONGEST_LINE: usize = 4_096;

// ------------------------------------------------------------------- digests

/// "A digest starts at 0 and takes each number x by h := ((h mod 2^32) *
/// 16777619 + (x mod 2^32)) mod 4294967291."
pub fn digest(numbers: impl IntoIterator<Item = u64>) -> u64 {
    numbers
        .into_iter()
        .fold(0, |h, x| ((h % (1 << 32)) * 16_777_619 + x % (1 << 32)) % 4_294_967_291)
}

/// KIND FAULT PLACE; the last two are 0 unless faulted.
fn kind_numbers(kind: Kind) -> [u64; 3] {
    match kind {
        Kind::Ready => [0, 0, 0],
        Kind::Finished => [1, 0, 0],
        Kind::Faulted { number, place } => [2, u64::from(number), place],
    }
}

/// SP M COUNTER ROUTINE LOW KIND FAULT PLACE
fn session_numbers(session: &Session) -> [u64; 8] {
    let Session { sp, m, counter, routine, low, kind } = *session;
    let [kind, fault, place] = kind_numbers(kind);
    [sp, m, counter, routine, low, kind, fault, place]
}

/// USED SLOT BASE LENGTH FIRST COUNT
fn region_numbers(record: &Record) -> [u64; 6] {
    let Record { slot, base, length, window, .. } = *record;
    [u64::from(record.open), slot, base, length, window.first, window.count]
}

/// "BENCH is of N, S, then of each slot LOADED START LENGTH, then of each
/// record USED SLOT BASE LENGTH FIRST COUNT SP M COUNTER ROUTINE LOW KIND FAULT
/// PLACE"; "a number of the bench is taken as two, its lower and then its upper
/// 32 bits."
fn bench_digest(bench: &Bench) -> u64 {
    let slots = bench.slots.iter().flat_map(|slot| [u64::from(slot.loaded), slot.start, slot.length]);
    let records = bench
        .records
        .iter()
        .flat_map(|record| region_numbers(record).into_iter().chain(session_numbers(&record.session)));
    let numbers = [bench.words, bench.shared].into_iter().chain(slots).chain(records);
    digest(numbers.flat_map(|number| [number, number >> 32]))
}

fn memory_digest(memory: &[u16]) -> u64 {
    digest(memory.iter().map(|word| u64::from(*word)))
}

// ------------------------------------------------------------------- answers

/// The line of an answer; `world` is as it is after the request.
pub fn answer_line(asked: Request, answer: &Answer, world: &World) -> String {
    let digests = || {
        format!("{:08x} {:08x}", bench_digest(&world.bench), memory_digest(&world.memory))
    };
    match answer {
        Answer::Judged(judged) => judged_line(judged),
        Answer::TurnedOver(output, refusal) => {
            let digest = digest(output.iter().map(|byte| u64::from(*byte)));
            match refusal {
                None => format!("a {digest:08x}"),
                Some(refused) => format!("r {:x} {:x} {digest:08x}", refused.number, refused.place),
            }
        }
        Answer::Sound(sound) => if *sound { "y" } else { "n" }.to_string(),
        Answer::Accepted => "a".to_string(),
        Answer::Range(window) => numbers_after("a", &[window.first, window.count]),
        Answer::Refused(refused) => match asked {
            Request::Entry(_) => format!("r {:x} {:x} {}", refused.number, refused.place, digests()),
            _ => format!("r {:x} {:x}", refused.number, refused.place),
        },
        Answer::Done(value) => {
            format!("d {value:x}{} {}", registers_told(asked, world), digests())
        }
    }
}

/// `a W LEAST D RELOC POOL REALPOOL REAL COUNT DIGEST`
fn judged_line(judged: &Judged) -> String {
    let routines = judged.routines.iter().flat_map(|routine| {
        [routine.entry, routine.data_size, routine.exit_ic, routine.start].map(u64::from)
    });
    format!(
        "a {:x} {:x} {:x} {:x} {:x} {:x} {:x} {:x} {:08x}",
        judged.words,
        u8::from(judged.least_first),
        judged.dictionary,
        judged.relocation,
        judged.pool,
        judged.real_start,
        judged.real_size,
        judged.routines.len(),
        digest(routines)
    )
}

/// After a turn the session's registers and kind are told.
fn registers_told(asked: Request, world: &World) -> String {
    let Request::Entry(Call::Turn { session, .. }) = asked else { return String::new() };
    let record = usize::try_from(session).ok().and_then(|at| world.bench.records.get(at));
    record.map_or(String::new(), |record| numbers_after("", &session_numbers(&record.session)))
}

// ------------------------------------------------------------------ requests

/// Numbers in hexadecimal, a blank before each.
fn numbers_after(letter: &str, numbers: &[u64]) -> String {
    let mut line = letter.to_string();
    for number in numbers {
        line += &format!(" {number:x}");
    }
    line
}

pub fn request_line(asked: Request) -> String {
    match asked {
        Request::Judge => "J".to_string(),
        Request::TurnOver(count) => numbers_after("V", &[count]),
        Request::Sound => "Q".to_string(),
        Request::Entry(Call::New { shared, words }) => numbers_after("N", &[words, shared]),
        Request::Entry(Call::Load { slot, start, length }) => {
            numbers_after("L", &[slot, start, length])
        }
        Request::Archive => "A".to_string(),
        Request::Farm(farm) => numbers_after("G", &[farm]),
        Request::Entry(Call::Open { slot, length }) => numbers_after("O", &[slot, length]),
        Request::Entry(Call::OpenOn { slot, length, window }) => {
            numbers_after("W", &[slot, length, window.first, window.count])
        }
        Request::Entry(Call::OpenFor { slot, length, farm }) => {
            numbers_after("F", &[slot, length, farm])
        }
        Request::Entry(Call::Turn { session, k }) => numbers_after("T", &[session, k]),
        Request::Entry(Call::Close { session }) => numbers_after("X", &[session]),
    }
}

// -------------------------------------------------------------------- set-up

/// The lines that change one bench into another, field by field.
fn field_lines(old: &Bench, new: &Bench) -> String {
    let mut text = String::new();
    let mut line = |letter: &str, numbers: &[u64]| {
        text += &numbers_after(letter, numbers);
        text.push('\n');
    };
    if (old.words, old.shared) != (new.words, new.shared) {
        line("n", &[new.words, new.shared]);
    }
    for (number, (old, new)) in (0..).zip(old.slots.iter().zip(&new.slots)) {
        if old != new {
            line("s", &[number, u64::from(new.loaded), new.start, new.length]);
        }
    }
    for (number, (old, new)) in (0..).zip(old.records.iter().zip(&new.records)) {
        if region_numbers(old) != region_numbers(new) {
            let [used, slot, base, length, first, count] = region_numbers(new);
            line("e", &[number, used, slot, base, length, first, count]);
        }
        if old.session != new.session {
            let [sp, m, counter, routine, low, kind, fault, place] = session_numbers(&new.session);
            line("r", &[number, sp, m, counter, routine, low, kind, fault, place]);
        }
    }
    text
}

/// The lines that change one bench into another, from the start if that is
/// shorter.
fn bench_lines(old: &Bench, new: &Bench) -> String {
    if old == new {
        return String::new();
    }
    let changes = field_lines(old, new);
    if changes.len() <= 60 {
        return changes;
    }
    let anew = format!("z\n{}", field_lines(&blank_bench(), new));
    if anew.len() < changes.len() { anew } else { changes }
}

/// Memory words or store bytes, as far as writing them differs.
trait Unit: Copy + PartialEq + Into<u64> {
    const ANEW: &'static str;
    const PATCH: &'static str;
    /// Digits (and a blank) of one.
    fn size(self) -> usize;
    fn write(self, text: &mut String);
}

impl Unit for u16 {
    const ANEW: &'static str = "m";
    const PATCH: &'static str = "w";
    fn size(self) -> usize {
        match self {
            0..=0xF => 2,
            0x10..=0xFF => 3,
            0x100..=0xFFF => 4,
            _ => 5,
        }
    }
    fn write(self, text: &mut String) {
        *text += &format!(" {self:x}");
    }
}

impl Unit for u8 {
    const ANEW: &'static str = "c";
    const PATCH: &'static str = "b";
    fn size(self) -> usize {
        2
    }
    fn write(self, text: &mut String) {
        *text += &format!("{self:02x}");
    }
}

/// The stretches to be written where `differs`; short gaps are written along,
/// where that takes no more than the head of another line.
fn stretches<T: Unit>(new: &[T], differs: impl Fn(usize, T) -> bool) -> Vec<Range<usize>> {
    const HEAD: usize = 7;
    let mut found: Vec<Range<usize>> = Vec::new();
    let mut gap = usize::MAX;
    for (at, unit) in new.iter().enumerate() {
        if !differs(at, *unit) {
            gap = gap.saturating_add(unit.size());
            continue;
        }
        match found.last_mut() {
            Some(last) if gap <= HEAD => last.end = at + 1,
            _ => found.push(at..at + 1),
        }
        gap = 0;
    }
    found
}

/// One stretch, in as many lines as its length asks for.
fn patch_lines<T: Unit>(text: &mut String, new: &[T], stretch: Range<usize>) {
    let mut line = String::new();
    for (at, unit) in new.iter().enumerate().take(stretch.end).skip(stretch.start) {
        if line.is_empty() {
            line = format!("{} {at:x}", T::PATCH);
            if T::PATCH == "b" {
                line.push(' ');
            }
        }
        unit.write(&mut line);
        if line.len() + 8 > LONGEST_LINE {
            *text += &line;
            text.push('\n');
            line.clear();
        }
    }
    if !line.is_empty() {
        *text += &line;
        text.push('\n');
    }
}

/// The commonest unit; the first to reach its count, if several are.
fn commonest<T: Unit>(units: &[T], counts: &mut Vec<u32>) -> u64 {
    counts.clear();
    counts.resize(65_536, 0);
    let (mut best, mut most) = (0, 0);
    for unit in units {
        let value: u64 = (*unit).into();
        if let Some(count) = counts.get_mut(value as usize) {
            *count += 1;
            if *count > most {
                (best, most) = (value, *count);
            }
        }
    }
    best
}

/// The lines that bring one lent row of units to another.
fn lent_lines<T: Unit>(old: &[T], new: &[T], counts: &mut Vec<u32>) -> String {
    let mut changes = String::new();
    if old.len() == new.len() {
        if old == new {
            return changes;
        }
        for stretch in stretches(new, |at, unit| old.get(at) != Some(&unit)) {
            patch_lines(&mut changes, new, stretch);
        }
        if changes.len() <= 80 {
            return changes;
        }
    }
    let fill = commonest(new, counts);
    let mut anew = numbers_after(T::ANEW, &[new.len() as u64, fill]);
    anew.push('\n');
    for stretch in stretches(new, |_, unit| unit.into() != fill) {
        patch_lines(&mut anew, new, stretch);
    }
    if old.len() != new.len() || anew.len() < changes.len() { anew } else { changes }
}

// -------------------------------------------------------------------- writer

/// Writes questions and answers; counts what they come to.
pub struct Writer<Q: Write, A: Write> {
    questions: Q,
    answers: A,
    world: World,
    /// Which case to write, if only one is wanted.  It is then set up from the
    /// blank world, so that its lines stand by themselves.
    only: Option<u64>,
    silent: bool,
    counts: Vec<u32>,
    pub coverage: Coverage,
    /// The request whose case is looked for, and that case.
    pub sought: Option<u64>,
    pub found: Option<u64>,
}

impl<Q: Write, A: Write> Writer<Q, A> {
    pub fn new(questions: Q, answers: A, only: Option<u64>) -> Self {
        Writer {
            questions,
            answers,
            world: World::blank(),
            only,
            silent: only.is_some(),
            counts: Vec::new(),
            coverage: Coverage::default(),
            sought: None,
            found: None,
        }
    }

    /// The world as it is after the last request.
    pub fn world(&self) -> &World {
        &self.world
    }

    pub fn cases(&self) -> u64 {
        self.coverage.cases
    }

    /// A line for people.
    pub fn remark(&mut self, text: &str) -> io::Result<()> {
        if self.silent {
            return Ok(());
        }
        let short: String = text.chars().take(1_000).collect();
        writeln!(self.questions, "# {short}")
    }

    /// Begin a case on a world.
    pub fn case(&mut self, wanted: World) -> io::Result<()> {
        self.coverage.cases += 1;
        let mut from_blank = false;
        if let Some(only) = self.only {
            self.silent = self.coverage.cases != only;
            from_blank = !self.silent;
        }
        if from_blank {
            self.world = World::blank();
        }
        if !self.silent {
            let lines = [
                bench_lines(&self.world.bench, &wanted.bench),
                lent_lines(&self.world.memory, &wanted.memory, &mut self.counts),
                lent_lines(&self.world.store, &wanted.store, &mut self.counts),
            ];
            for text in lines {
                self.questions.write_all(text.as_bytes())?;
            }
        }
        self.world = wanted;
        Ok(())
    }

    /// Ask something of the world as it is now.
    pub fn ask(&mut self, asked: Request) -> io::Result<Answer> {
        let about_to = self.coverage.before(asked, &self.world);
        let answer = request(&mut self.world, asked);
        self.coverage.after(about_to, asked, &answer, &self.world);
        if self.sought == Some(self.coverage.requests) {
            self.found = Some(self.coverage.cases);
        }
        if !self.silent {
            writeln!(self.questions, "{}", request_line(asked))?;
            writeln!(self.answers, "{}", answer_line(asked, &answer, &self.world))?;
        }
        Ok(answer)
    }

    pub fn finish(mut self) -> io::Result<Coverage> {
        self.questions.flush()?;
        self.answers.flush()?;
        Ok(self.coverage)
    }
}
