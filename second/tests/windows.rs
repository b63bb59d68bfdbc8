//! The set sees mistakes in windows and archives (request 7 of 02): reads,
//! soundness, openings, archives, ranges and the order of refusals of the set are
//! answered once more by a reading of the rule in which one thing is wrong.  With
//! nothing wrong the reading answers as the interpreter does.

mod requests;

use second::bench::Window;
use second::generate::{sound_bench, Rng};
use second::machine::{decode, Kind, Op};
use second::segment::{Segment, Sex};
use second::world::{ask, request, Answer, Call, Request, World};
use std::fmt::Display;
use std::sync::OnceLock;

// ------------------------------------------------------------------- the set

/// An indexed read of the set: `None` is fault 6.
struct Read {
    base: i64,
    index: i64,
    /// IND, not SIND
    long: bool,
    sex: Sex,
    window: Window,
    shared: Vec<u16>,
    region: Vec<u16>,
    /// N
    words: i64,
    word: Option<u16>,
}

/// What soundness looks at, of one record.
#[derive(Clone, Copy)]
struct Mark {
    used: bool,
    window: Window,
    kind: Kind,
}

/// A bench that is sound with other windows.
struct Marks {
    shared: u64,
    words: u64,
    records: Vec<Mark>,
    sound: bool,
}

/// An opening: what each refusal needs, and the answer; the records' windows
/// before and after, where it opened.
struct Opening {
    /// The window named, or `None` for the older opening and for a farm.
    named: Option<Window>,
    farm: Option<u64>,
    shared: Vec<u16>,
    words: u64,
    /// 11, 23, 12, 13, 14 and 15 as they hold, each by itself.
    fails: [bool; 6],
    answer: u32,
    old: Window,
    opened: Option<Window>,
}

/// The archive of a sound bench, a word behind it, and whether it is accepted.
struct Judged {
    shared: Vec<u16>,
    behind: u16,
    accepted: bool,
}

struct Found {
    shared: Vec<u16>,
    farm: u64,
    range: Window,
}

#[derive(Default)]
struct Asked {
    reads: Vec<Read>,
    marks: Vec<Marks>,
    openings: Vec<Opening>,
    judged: Vec<Judged>,
    found: Vec<Found>,
    /// Windows before and after turns and closings; S.
    turns: Vec<(Window, Window, u64)>,
    closings: Vec<(Window, Window, u64)>,
    /// Questions to the archive on unsound benches, and the number refused.
    unsound: Vec<(Vec<u16>, u32)>,
}

fn asked() -> &'static Asked {
    static ASKED: OnceLock<Asked> = OnceLock::new();
    requests::picked(&ASKED, note)
}

fn note(asked: &mut Asked, world: &World, put: Request) {
    let sound = world.is_sound();
    asked.marks.extend(marks(world, sound));
    let mut after = world.clone();
    let answer = request(&mut after, put);
    let shared = shared_of(world);
    match (put, &answer) {
        (Request::Archive | Request::Farm(_), Answer::Refused(refused)) if !sound => {
            asked.unsound.push((shared, refused.number));
        }
        (Request::Archive, answer) => {
            let behind = world.memory.get(shared.len()).copied().unwrap_or(65_535);
            asked.judged.push(Judged { shared, behind, accepted: *answer == Answer::Accepted });
        }
        (Request::Farm(farm), Answer::Range(range)) => {
            asked.found.push(Found { shared, farm, range: *range });
        }
        (Request::Entry(call), answer) => entry(asked, world, &after, call, answer),
        _ => {}
    }
}

fn entry(asked: &mut Asked, world: &World, after: &World, call: Call, answer: &Answer) {
    let window = |world: &World, session: u64| world.bench.records[session as usize].window;
    match (call, answer) {
        (Call::Turn { session, k }, Answer::Done(done)) => {
            let change = (window(world, session), window(after, session), world.bench.shared);
            asked.turns.push(change);
            if (k, *done) == (1, 1) {
                asked.reads.extend(read(world, after, session as usize));
            }
        }
        (Call::Close { session }, Answer::Done(_)) => {
            asked.closings.push((window(world, session), window(after, session), world.bench.shared));
        }
        _ => asked.openings.extend(opening(world, after, call, answer)),
    }
}

fn shared_of(world: &World) -> Vec<u16> {
    let count = world.bench.shared.min(world.memory.len() as u64);
    world.memory[..count as usize].to_vec()
}

fn read(world: &World, after: &World, number: usize) -> Option<Read> {
    let record = world.bench.records[number];
    let segment = Segment::judge(world.segment_bytes(record.slot)?).ok()?;
    let decoded = decode(&segment, record.session.counter).ok()?;
    let region = world.region(number)?.to_vec();
    let base = *region.get(record.session.sp as usize)?;
    if decoded.instruction.op != Op::LoadIndexed {
        return None;
    }
    let gone_on = after.bench.records[number].session.kind == Kind::Ready;
    Some(Read {
        base: i64::from(base),
        index: decoded.value,
        long: decoded.instruction.name == "IND",
        sex: segment.sex,
        window: record.window,
        shared: shared_of(world),
        words: world.memory.len() as i64,
        word: gone_on.then(|| after.region(number).unwrap()[record.session.sp as usize]),
        region,
    })
}

fn marks(world: &World, sound: bool) -> Option<Marks> {
    let mut others = world.clone();
    others.bench.records.iter_mut().for_each(|record| record.window = Window::NONE);
    let record = |record: &second::bench::Record| Mark { used: record.open, window: record.window, kind: record.session.kind };
    others.is_sound().then(|| Marks {
        shared: world.bench.shared,
        words: world.bench.words,
        records: world.bench.records.iter().map(record).collect(),
        sound,
    })
}

/// Every mistake is to be seen so often.
fn all_seen<Name: Display>(mistakes: &[(Name, usize)], least: usize) {
    for (name, count) in mistakes {
        assert!(*count >= least, "{name}: {count}");
    }
}

// --------------------------------------------------------------------- reads

impl Read {
    fn sum(&self) -> i64 {
        self.base + self.index
    }

    /// The number counted from 32,768.
    fn at(&self) -> i64 {
        self.sum() - 32_768
    }

    fn first(&self) -> i64 {
        self.window.first as i64
    }

    fn count(&self) -> i64 {
        self.window.count as i64
    }

    fn all(&self) -> i64 {
        self.shared.len() as i64
    }

    /// Shared word i, counted from the bench's first.
    fn word(&self, at: i64) -> Option<u16> {
        usize::try_from(at).ok().and_then(|at| self.shared.get(at)).copied()
    }

    /// The word of a sum, shared words by a rule of their own.
    fn by(&self, sum: i64, shared: impl Fn(i64) -> Option<u16>) -> Option<u16> {
        if self.base == 0 || sum > 65_535 {
            return None;
        }
        match sum {
            0 => None,
            _ if sum < self.region.len() as i64 => Some(self.region[sum as usize]),
            _ if sum < 32_768 => None,
            _ => shared(sum - 32_768),
        }
    }

    /// With a window in which this many words are seen, from this one on.
    fn with(&self, first: i64, count: i64) -> Option<u16> {
        self.by(self.sum(), |at| if at < count { self.word(first + at) } else { None })
    }

    fn whole(&self) -> Option<u16> {
        self.with(0, self.all())
    }

    fn right(&self) -> Option<u16> {
        self.with(self.first(), self.count())
    }
}

fn seen(wrong: impl Fn(&Read) -> Option<u16>) -> usize {
    asked().reads.iter().filter(|read| wrong(read) != read.word).count()
}

/// A wrong word for the reads of one sort; the others are right.
fn seen_where(sort: impl Fn(&Read) -> bool, wrong: impl Fn(&Read) -> Option<u16>) -> usize {
    seen(|read| if sort(read) { wrong(read) } else { read.right() })
}

#[test]
fn the_reading_with_nothing_wrong_is_the_interpreters() {
    assert_eq!(seen(Read::right), 0);
    let moved = asked().reads.iter().filter(|read| read.first() > 0 && read.at() >= 0 && read.word.is_some());
    assert!(moved.count() > 200);
}

#[test]
fn a_wrong_window_of_a_read_is_seen() {
    all_seen(
        &[
            ("all S words", seen(Read::whole)),
            ("its base not moved", seen(|read| read.with(0, read.count()))),
            ("up to S", seen(|read| read.with(read.first(), read.all()))),
            ("from 0 to its end", seen(|read| read.with(0, read.first() + read.count()))),
            ("its end counted from 0", seen(|read| read.with(read.first(), read.count() - read.first()))),
            ("one word more", seen(|read| read.with(read.first(), read.count() + 1))),
            ("one word less", seen(|read| read.with(read.first(), read.count() - 1))),
            ("from one word on", seen(|read| read.with(read.first() + 1, read.count()))),
            ("from one word before", seen(|read| read.with(read.first() - 1, read.count()))),
            ("first and count exchanged", seen(|read| read.with(read.count(), read.first()))),
            ("the last words of S", seen(|read| read.with(read.all() - read.count(), read.count()))),
            ("whole records only", seen(|read| read.with(read.first(), read.count() / 4 * 4))),
            ("records not whole too", seen(|read| read.with(read.first(), (read.count() + 3) / 4 * 4))),
            ("from a record's start", seen(|read| read.with(read.first() / 4 * 4, read.count()))),
            ("first in records", seen(|read| read.with(read.first() * 4, read.count()))),
            ("count in records", seen(|read| read.with(read.first(), read.count() * 4))),
            ("no word", seen(|read| read.with(0, 0))),
            ("one word", seen(|read| read.with(read.first(), read.count().min(1)))),
            ("eight words at most", seen(|read| read.with(read.first(), read.count().min(8)))),
            ("an empty one sees all", seen_where(|read| read.count() == 0, Read::whole)),
            ("an empty one sees one", seen_where(|read| read.count() == 0, |read| read.with(read.first(), 1))),
            ("one of all words sees none", seen_where(|read| read.count() == read.all(), |read| read.with(0, 0))),
            ("memory behind S", seen(|read| read.by(read.sum(), |at| {
                read.word(read.first() + at).or((read.first() + at < read.words).then_some(0))
            }))),
        ],
        10,
    );
}

#[test]
fn a_wrong_address_is_seen() {
    let inside = |read: &Read, at: i64| (0..read.count()).contains(&at);
    all_seen(
        &[
            ("seen where they lie in S", seen(|read| read.by(read.sum(), |at| {
                if (read.first()..read.first() + read.count()).contains(&at) { read.word(at) } else { None }
            }))),
            ("0 past the end", seen(|read| read.by(read.sum(), |at| if inside(read, at) { read.right() } else { Some(0) }))),
            ("the last word past the end", seen(|read| read.by(read.sum(), |at| {
                if at < read.count() { read.right() } else { read.word(read.first() + read.count() - 1) }
            }))),
            ("round the window", seen(|read| read.by(read.sum(), |at| {
                if read.count() > 0 { read.word(read.first() + at % read.count()) } else { None }
            }))),
            ("the word before at 32,767", seen_where(|read| read.sum() == 32_767, |read| read.word(read.first() - 1))),
            ("private words end below", seen_where(|read| read.sum() == 32_767, |_| None)),
            ("the sum wraps", seen(|read| read.by(read.sum() % 65_536, |at| {
                if inside(read, at) { read.word(read.first() + at) } else { None }
            }))),
            ("a sum of 65,536 taken", seen_where(|read| read.sum() == 65_536, |_| Some(0))),
            ("65,535 refused", seen_where(|read| read.sum() == 65_535, |_| None)),
            ("NIL as a base", seen_where(|read| read.base == 0, |read| read.word(0))),
            ("the base has to be an address", seen(|read| {
                let private = (1..read.region.len() as i64).contains(&read.base);
                if private || inside(read, read.base - 32_768) { read.right() } else { None }
            })),
            ("the base alone is judged", seen_where(|read| read.base >= 32_768, |read| {
                if inside(read, read.base - 32_768) { read.whole() } else { None }
            })),
            ("from 32,769 on", seen(|read| read.by(read.sum(), |at| if inside(read, at - 1) { read.word(read.first() + at - 1) } else { None }))),
            ("from 32,767 on", seen(|read| read.by(read.sum() + 1, |at| if inside(read, at) { read.word(read.first() + at) } else { None }))),
        ],
        5,
    );
}

#[test]
fn one_instruction_that_sees_all_words_is_seen() {
    let mut mistakes = Vec::new();
    for index in 0..8 {
        mistakes.push(("SIND", seen_where(|read| !read.long && read.index == index, Read::whole)));
        mistakes.push(("SIND, base", seen_where(|read| !read.long && read.index == index, |read| read.with(0, read.count()))));
        mistakes.push(("SIND, end", seen_where(|read| !read.long && read.index == index, |read| read.with(read.first(), read.all()))));
    }
    for sex in [Sex::LeastFirst, Sex::MostFirst] {
        mistakes.push(("in one sex", seen_where(|read| read.sex == sex, Read::whole)));
        mistakes.push(("in one sex, base", seen_where(|read| read.sex == sex, |read| read.with(0, read.count()))));
        mistakes.push(("IND in one sex", seen_where(|read| read.sex == sex && read.long, Read::whole)));
    }
    mistakes.push(("IND", seen_where(|read| read.long, Read::whole)));
    mistakes.push(("IND, base", seen_where(|read| read.long, |read| read.with(0, read.count()))));
    mistakes.push(("IND by 0", seen_where(|read| read.long && read.index == 0, Read::whole)));
    mistakes.push(("IND by two bytes", seen_where(|read| read.index > 127, Read::whole)));
    all_seen(&mistakes, 5);
}

// ------------------------------------------------------------------ soundness

/// "A window not inside the S words": first and count against S, exactly.
fn inside(window: Window, shared: u64) -> bool {
    u128::from(window.first) + u128::from(window.count) <= u128::from(shared)
}

type Rule = fn(Window, u64) -> bool;

/// Windows judged wrongly; what soundness and openings have in common.
const RULES: [(&str, Rule); 20] = [
    ("not judged", |_, _| true),
    ("none is inside", |_, _| false),
    ("its start only", |window, shared| window.first <= shared),
    ("its start only, below S", |window, shared| window.first < shared),
    ("its count only", |window, shared| window.count <= shared),
    ("both, not their sum", |window, shared| window.first <= shared && window.count <= shared),
    ("the sum wraps at 64 bits", |window, shared| window.first.wrapping_add(window.count) <= shared),
    ("wraps, the start judged", |window, shared| window.first <= shared && window.first.wrapping_add(window.count) <= shared),
    ("wraps, the count judged", |window, shared| window.count <= shared && window.first.wrapping_add(window.count) <= shared),
    ("the sum wraps at 32 bits", |window, shared| window.first.wrapping_add(window.count) as u32 as u64 <= shared),
    ("the sum wraps at 16 bits", |window, shared| window.first.wrapping_add(window.count) as u16 as u64 <= shared),
    ("signed numbers", |window, shared| (window.first as i64).wrapping_add(window.count as i64) <= shared as i64),
    ("below S", |window, shared| window.count == 0 && inside(window, shared) || inside(Window { count: window.count.saturating_add(1), ..window }, shared)),
    ("up to S+1", |window, shared| inside(window, shared + 1)),
    ("32,768 for S", |window, _| inside(window, 32_768)),
    ("an empty one is inside always", |window, shared| window.count == 0 || inside(window, shared)),
    ("an empty one is never inside", |window, shared| window.count > 0 && inside(window, shared)),
    ("an empty one at 0 only", |window, shared| (window.count > 0 || window.first == 0) && inside(window, shared)),
    ("an empty one at S is not", |window, shared| window.first < shared.max(1) && inside(window, shared)),
    ("whole records", |window, shared| window.count % 4 == 0 && inside(window, shared)),
];

fn unsound_by(wrong: impl Fn(&Marks, &Mark) -> bool) -> usize {
    let differs = |bench: &&Marks| bench.records.iter().all(|record| wrong(bench, record)) != bench.sound;
    asked().marks.iter().filter(differs).count()
}

fn good(bench: &Marks, mark: &Mark) -> bool {
    !mark.used || inside(mark.window, bench.shared)
}

#[test]
fn the_soundness_with_nothing_wrong_is_the_interpreters() {
    assert_eq!(unsound_by(good), 0);
    let bad = asked().marks.iter().filter(|bench| !bench.sound).count();
    assert!(bad > 100, "{bad}");
}

#[test]
fn a_wrong_soundness_is_seen() {
    let mut mistakes: Vec<(&str, usize)> = Vec::new();
    for (name, rule) in RULES {
        mistakes.push((name, unsound_by(|bench, mark| !mark.used || rule(mark.window, bench.shared))));
    }
    let kind = |sort: fn(Kind) -> bool| unsound_by(move |bench, mark| !sort(mark.kind) || good(bench, mark));
    let faulted = |kind: Kind| matches!(kind, Kind::Faulted { .. });
    mistakes.extend([
        ("ready sessions only", kind(|kind| kind == Kind::Ready)),
        ("all but ready ones", kind(|kind| kind != Kind::Ready)),
        ("all but finished ones", kind(|kind| kind != Kind::Finished)),
        ("all but faulted ones", unsound_by(|bench, mark| faulted(mark.kind) || good(bench, mark))),
        ("unused records too", unsound_by(|bench, mark| inside(mark.window, bench.shared))),
        ("N for S", unsound_by(|bench, mark| !mark.used || inside(mark.window, bench.words))),
        ("all S words", unsound_by(|bench, mark| !mark.used || mark.window == Window::all(bench.shared))),
    ]);
    let open = |bench: &Marks| -> Vec<bool> {
        bench.records.iter().filter(|record| record.used).map(|record| good(bench, record)).collect()
    };
    let by = |wrong: fn(&[bool]) -> bool| asked().marks.iter().filter(|bench| wrong(&open(bench)) != bench.sound).count();
    mistakes.push(("the first session only", by(|open| open.first() != Some(&false))));
    mistakes.push(("all but the first", by(|open| open.iter().skip(1).all(|good| *good))));
    mistakes.push(("the last session only", by(|open| open.last() != Some(&false))));
    mistakes.push(("one good is enough", by(|open| open.is_empty() || open.contains(&true))));
    all_seen(&mistakes, 3);
}

// ------------------------------------------------------------------- openings

/// 23's own condition, written once more.
fn accepted(shared: &[u16]) -> bool {
    let farms: Vec<u16> = shared.iter().step_by(4).copied().collect();
    shared.len() % 4 == 0 && farms.windows(2).all(|pair| pair[0] <= pair[1])
}

/// A gap of so many free words, each place tried.
fn has_gap(world: &World, length: u64) -> bool {
    let bench = &world.bench;
    let open: Vec<_> = bench.records.iter().filter(|record| record.open).collect();
    let free = |begin: u64| {
        let end = begin + length;
        end <= bench.words && open.iter().all(|record| end <= record.base || record.base + record.length <= begin)
    };
    let mut places: Vec<u64> = open.iter().map(|record| record.base + record.length).collect();
    places.push(bench.shared);
    places.into_iter().any(free)
}

fn opening(world: &World, after: &World, call: Call, answer: &Answer) -> Option<Opening> {
    let (slot, length, named, farm) = match call {
        Call::Open { slot, length } => (slot, length, None, None),
        Call::OpenOn { slot, length, window } => (slot, length, Some(window), None),
        Call::OpenFor { slot, length, farm } => (slot, length, None, Some(farm)),
        _ => return None,
    };
    let shared = shared_of(world);
    let loaded = world.bench.slots.get(slot as usize).filter(|loaded| slot < 16 && loaded.loaded);
    let segment = loaded.and_then(|_| Segment::judge(world.segment_bytes(slot)?).ok());
    let floor = segment.map_or(0, |segment| 6 + u64::from(segment.global_size()));
    let window = named.is_some_and(|window| !inside(window, world.bench.shared));
    let length_fails = !(16..=32_768).contains(&length) || length < floor;
    let sound = world.is_sound();
    let (answer, number) = match answer {
        Answer::Refused(refused) => (refused.number, None),
        Answer::Done(number) => (0, Some(*number as usize)),
        _ => return None,
    };
    Some(Opening {
        named,
        farm,
        fails: [
            !sound,
            farm.is_some() && !accepted(&shared),
            loaded.is_none(),
            length_fails || window,
            world.bench.records.iter().all(|record| record.open),
            sound && length <= 32_768 && !has_gap(world, length),
        ],
        words: world.bench.words,
        shared,
        answer,
        old: number.map_or(Window::NONE, |number| world.bench.records[number].window),
        opened: number.map(|number| after.bench.records[number].window),
    })
}

/// The first refusal that holds in an order.
fn first_of(order: [u32; 6], opening: &Opening) -> u32 {
    let numbers = [11, 23, 12, 13, 14, 15];
    let fails = |number: &u32| opening.fails[numbers.iter().position(|own| own == number).unwrap()];
    order.into_iter().find(fails).unwrap_or(0)
}

#[test]
fn a_wrong_order_of_an_opening_is_seen() {
    let of = |sort: fn(&Opening) -> bool, order| {
        asked().openings.iter().filter(|opening| sort(opening) && first_of(order, opening) != opening.answer).count()
    };
    let right = [11, 23, 12, 13, 14, 15];
    assert_eq!(of(|_| true, right), 0);
    let mut mistakes = Vec::new();
    // any two exchanged, and any one put first or last
    for one in 0..6 {
        for other in one + 1..6 {
            let mut order = right;
            order.swap(one, other);
            mistakes.push((format!("for a farm {order:?}"), of(|opening| opening.farm.is_some(), order)));
            if one != 1 && other != 1 {
                mistakes.push((format!("with a window {order:?}"), of(|opening| opening.named.is_some(), order)));
            }
        }
        let mut last = right;
        last[one..].rotate_left(1);
        if one < 5 {
            mistakes.push((format!("for a farm {last:?}"), of(|opening| opening.farm.is_some(), last)));
        }
    }
    all_seen(&mistakes, 2);
}

#[test]
fn a_refusal_of_an_opening_left_out_is_seen() {
    let right = [11, 23, 12, 13, 14, 15];
    let missing = |at: usize, sort: fn(&Opening) -> bool| {
        let wrong = |opening: &&Opening| {
            let found = right.into_iter().zip(opening.fails).enumerate();
            let first = found.filter(|(index, (_, fails))| *index != at && *fails).map(|(_, (number, _))| number).next();
            sort(opening) && first.unwrap_or(0) != opening.answer
        };
        asked().openings.iter().filter(wrong).count()
    };
    let mut mistakes = Vec::new();
    for at in 0..6 {
        mistakes.push((format!("for a farm, without {}", right[at]), missing(at, |opening| opening.farm.is_some())));
        if at != 1 {
            mistakes.push((format!("with a window, without {}", right[at]), missing(at, |opening| opening.named.is_some())));
        }
    }
    let everywhere = asked().openings.iter().filter(|opening| !accepted(&opening.shared) && !opening.fails[0] && opening.farm.is_none());
    mistakes.push(("23 of an opening for no farm".to_string(), everywhere.count()));
    all_seen(&mistakes, 2);
}

#[test]
fn a_window_judged_wrongly_by_an_opening_is_seen() {
    let mut mistakes = Vec::new();
    for (name, rule) in RULES {
        // where nothing but the window can give 13
        let plain = asked().openings.iter().filter(|opening| {
            let others = [opening.fails[0], opening.fails[2], opening.fails[4], opening.fails[5]];
            opening.named.is_some() && !others.contains(&true)
        });
        let wrong = plain.filter(|opening| {
            let window = opening.named.unwrap();
            let shared = opening.shared.len() as u64;
            inside(window, shared) == (opening.answer == 0) && rule(window, shared) != (opening.answer == 0)
        });
        mistakes.push((name, wrong.count()));
    }
    all_seen(&mistakes, 2);
}

fn all(opening: &Opening) -> Window {
    Window::all(opening.shared.len() as u64)
}

/// The window that a new session is to have.
fn right(opening: &Opening) -> Window {
    match (opening.named, opening.farm) {
        (Some(window), _) => window,
        (None, Some(farm)) => range(&opening.shared, farm),
        (None, None) => all(opening),
    }
}

#[test]
fn a_wrong_window_of_a_new_session_is_seen() {
    let seen = |sort: fn(&Opening) -> bool, wrong: &dyn Fn(&Opening) -> Window| {
        let of = asked().openings.iter().filter(|opening| sort(opening));
        of.filter(|opening| opening.opened.is_some_and(|opened| opened != wrong(opening))).count()
    };
    assert_eq!(seen(|_| true, &right), 0);
    let older: fn(&Opening) -> bool = |opening| opening.named.is_none() && opening.farm.is_none();
    let named: fn(&Opening) -> bool = |opening| opening.named.is_some();
    let farm: fn(&Opening) -> bool = |opening| opening.farm.is_some();
    let at = |first, count| Window { first, count };
    let mut mistakes = vec![
        ("older: none", seen(older, &|_| Window::NONE)),
        ("older: N words", seen(older, &|opening| Window::all(opening.words))),
        ("older: 32,768 words", seen(older, &|_| Window::all(32_768))),
        ("older: whole records", seen(older, &|opening| Window::all(opening.shared.len() as u64 / 4 * 4))),
        ("older: empty at S", seen(older, &|opening| at(opening.shared.len() as u64, 0))),
        ("older: as it was", seen(older, &|opening| opening.old)),
        ("older: as it was, unless 0", seen(older, &|opening| if opening.old == Window::NONE { all(opening) } else { opening.old })),
        ("named: unless empty, as it was", seen(named, &|opening| if right(opening).count == 0 { opening.old } else { right(opening) })),
        ("farm: as it was", seen(farm, &|opening| opening.old)),
    ];
    for sort in [named, farm] {
        mistakes.extend([
            ("all S words", seen(sort, &all)),
            ("none", seen(sort, &|_| Window::NONE)),
            ("from its first word to S", seen(sort, &|opening| at(right(opening).first, opening.shared.len() as u64 - right(opening).first))),
            ("from 0 on", seen(sort, &|opening| at(0, right(opening).count))),
            ("to its end", seen(sort, &|opening| at(0, right(opening).first + right(opening).count))),
            ("its end for its count", seen(sort, &|opening| at(right(opening).first, right(opening).first + right(opening).count))),
            ("exchanged", seen(sort, &|opening| at(right(opening).count, right(opening).first))),
            ("8 bits", seen(sort, &|opening| at(right(opening).first % 256, right(opening).count % 256))),
            ("15 bits", seen(sort, &|opening| at(right(opening).first % 32_768, right(opening).count % 32_768))),
        ]);
    }
    // the two of bits need a farm or a window of a large archive
    all_seen(&mistakes, 1);
}

#[test]
fn a_window_that_a_turn_or_a_closing_changes_is_seen() {
    let turns = |wrong: fn(Window, u64) -> Window| asked().turns.iter().filter(|(old, new, shared)| wrong(*old, *shared) != *new).count();
    let closings = |wrong: fn(Window, u64) -> Window| asked().closings.iter().filter(|(old, new, shared)| wrong(*old, *shared) != *new).count();
    assert_eq!((turns(|old, _| old), closings(|_, _| Window::NONE)), (0, 0));
    all_seen(
        &[
            ("a turn: all S words", turns(|_, shared| Window::all(shared))),
            ("a turn: none", turns(|_, _| Window::NONE)),
            ("a turn: up to S", turns(|old, shared| Window { count: shared - old.first, ..old })),
            ("a closing leaves it", closings(|old, _| old)),
            ("a closing: all S words", closings(|_, shared| Window::all(shared))),
            ("a closing leaves its start", closings(|old, _| Window { count: 0, ..old })),
            ("a closing leaves its count", closings(|old, _| Window { first: 0, ..old })),
        ],
        3,
    );
}

// ------------------------------------------------------------------- archives

type Verdict = fn(&[u16]) -> bool;

/// The farm numbers, or other words of the records.
fn every_fourth(shared: &[u16], from: usize) -> Vec<u16> {
    shared.iter().skip(from).step_by(4).copied().collect()
}

fn pairs(shared: &[u16], mut good: impl FnMut(u16, u16) -> bool) -> bool {
    shared.len() % 4 == 0 && every_fourth(shared, 0).windows(2).all(|pair| good(pair[0], pair[1]))
}

fn each_pair(shared: &[u16], sort: fn(usize, usize) -> bool) -> bool {
    let farms = every_fourth(shared, 0);
    let count = farms.len().saturating_sub(1);
    let judged = farms.windows(2).enumerate().filter(|(at, _)| sort(*at, count));
    shared.len() % 4 == 0 && judged.into_iter().all(|(_, pair)| pair[0] <= pair[1])
}

fn in_order(words: &[u16]) -> bool {
    words.windows(2).all(|pair| pair[0] <= pair[1])
}

const VERDICTS: [(&str, Verdict); 36] = [
    ("always", |_| true),
    ("never", |_| false),
    ("S not judged", |shared| in_order(&every_fourth(shared, 0))),
    ("S not judged, whole records", |shared| in_order(&every_fourth(&shared[..shared.len() / 4 * 4], 0))),
    ("order not judged", |shared| shared.len() % 4 == 0),
    ("S even", |shared| shared.len() % 2 == 0 && in_order(&every_fourth(shared, 0))),
    ("S by 8", |shared| shared.len() % 8 == 0 && accepted(shared)),
    ("S by 3", |shared| shared.len() % 3 == 0 && in_order(&every_fourth(shared, 0))),
    ("S not 0", |shared| !shared.is_empty() && accepted(shared)),
    ("more than one record", |shared| shared.len() != 4 && accepted(shared)),
    ("below 32,768", |shared| shared.len() < 32_768 && accepted(shared)),
    ("strictly", |shared| pairs(shared, |one, next| one < next)),
    ("never rises", |shared| pairs(shared, |one, next| one >= next)),
    ("equal ones only", |shared| pairs(shared, |one, next| one == next)),
    ("signed", |shared| pairs(shared, |one, next| one as i16 <= next as i16)),
    ("15 bits", |shared| pairs(shared, |one, next| one % 32_768 <= next % 32_768)),
    ("low bytes", |shared| pairs(shared, |one, next| one % 256 <= next % 256)),
    ("high bytes", |shared| pairs(shared, |one, next| one / 256 <= next / 256)),
    ("bytes exchanged", |shared| pairs(shared, |one, next| one.swap_bytes() <= next.swap_bytes())),
    ("a fall by one taken", |shared| pairs(shared, |one, next| u32::from(one) <= u32::from(next) + 1)),
    ("a fall to 0 taken", |shared| pairs(shared, |one, next| next == 0 || one <= next)),
    ("a rise by the difference", |shared| pairs(shared, |one, next| next.wrapping_sub(one) < 32_768)),
    ("the first pair only", |shared| each_pair(shared, |at, _| at == 0)),
    ("all but the first pair", |shared| each_pair(shared, |at, _| at > 0)),
    ("the last pair only", |shared| each_pair(shared, |at, count| at + 1 == count)),
    ("all but the last pair", |shared| each_pair(shared, |at, count| at + 1 < count)),
    ("every other pair", |shared| each_pair(shared, |at, _| at % 2 == 0)),
    ("against the first record", |shared| pairs(shared, |_, next| shared[0] <= next)),
    ("the last against the first", |shared| shared.len() % 4 == 0 && every_fourth(shared, 0).last() >= every_fourth(shared, 0).first()),
    ("ponds", |shared| shared.len() % 4 == 0 && in_order(&every_fourth(shared, 1))),
    ("days", |shared| shared.len() % 4 == 0 && in_order(&every_fourth(shared, 2))),
    ("concentrations", |shared| shared.len() % 4 == 0 && in_order(&every_fourth(shared, 3))),
    ("farms and ponds", |shared| accepted(shared) && in_order(&every_fourth(shared, 1))),
    ("every word", |shared| shared.len() % 4 == 0 && in_order(shared)),
    ("farm and pond together", |shared| {
        let both: Vec<u32> = shared.chunks_exact(4).map(|record| u32::from(record[0]) * 65_536 + u32::from(record[1])).collect();
        shared.len() % 4 == 0 && both.windows(2).all(|pair| pair[0] <= pair[1])
    }),
    ("no farm twice apart", |shared| {
        let mut farms = every_fourth(shared, 0);
        farms.dedup();
        let distinct: std::collections::BTreeSet<u16> = farms.iter().copied().collect();
        shared.len() % 4 == 0 && distinct.len() == farms.len()
    }),
];

#[test]
fn an_archive_judged_wrongly_is_seen() {
    let seen = |wrong: Verdict| asked().judged.iter().filter(|judged| wrong(&judged.shared) != judged.accepted).count();
    assert_eq!(seen(accepted), 0);
    assert!(asked().judged.len() > 300);
    let mistakes: Vec<(&str, usize)> = VERDICTS.into_iter().map(|(name, verdict)| (name, seen(verdict))).collect();
    all_seen(&mistakes, 2);
    // the word behind S judged too
    let behind = asked().judged.iter().filter(|judged| {
        let mut more = judged.shared.clone();
        more.extend([judged.behind; 4]);
        accepted(&more) != judged.accepted
    });
    assert!(behind.count() > 20);
}

#[test]
fn an_archive_asked_before_soundness_is_seen() {
    assert!(asked().unsound.iter().all(|(_, number)| *number == 11));
    let refused = asked().unsound.iter().filter(|(shared, _)| !accepted(shared)).count();
    let taken = asked().unsound.len() - refused;
    assert!(refused > 20 && taken > 20, "{refused} {taken}");
}

// --------------------------------------------------------------------- ranges

/// The records of a farm, as numbers of records.
fn range(shared: &[u16], farm: u64) -> Window {
    by_records(shared, |number| number == farm as u16)
}

fn by_records(shared: &[u16], sort: impl Fn(u16) -> bool) -> Window {
    let farms = every_fourth(shared, 0);
    let Some(first) = farms.iter().position(|number| sort(*number)) else { return Window::NONE };
    let count = farms.iter().filter(|number| sort(**number)).count();
    Window { first: 4 * first as u64, count: 4 * count as u64 }
}

type Finding = fn(&Found, Window) -> Window;

const FINDINGS: [(&str, Finding); 34] = [
    ("nothing", |_, _| Window::NONE),
    ("all", |found, _| Window::all(found.shared.len() as u64)),
    ("its first record only", |_, right| Window { count: right.count.min(4), ..right }),
    ("its last record only", |_, right| if right.count == 0 { right } else { Window { first: right.first + right.count - 4, count: 4 } }),
    ("all but its last record", |_, right| Window { count: right.count.saturating_sub(4), ..right }),
    ("two records at most", |_, right| Window { count: right.count.min(8), ..right }),
    ("all but its first record", |_, right| if right.count == 0 { right } else { Window { first: right.first + 4, count: right.count - 4 } }),
    ("one record more", |_, right| if right.count == 0 { right } else { Window { count: right.count + 4, ..right } }),
    ("one record sooner", |_, right| Window { first: right.first.saturating_sub(4), ..right }),
    ("up to S", |found, right| if right.count == 0 { right } else { Window { count: found.shared.len() as u64 - right.first, ..right } }),
    ("from 0", |_, right| Window { first: 0, ..right }),
    ("from 0 to its end", |_, right| Window { first: 0, count: right.first + right.count }),
    ("its end for its count", |_, right| Window { count: right.first + right.count, ..right }),
    ("records, not words", |_, right| Window { first: right.first / 4, count: right.count / 4 }),
    ("count in records", |_, right| Window { count: right.count / 4, ..right }),
    ("first in records", |_, right| Window { first: right.first / 4, ..right }),
    ("first counted from 1", |_, right| if right.count == 0 { right } else { Window { first: right.first + 1, ..right } }),
    ("exchanged", |_, right| Window { first: right.count, count: right.first }),
    ("empty at S", |found, right| if right.count == 0 { Window { first: found.shared.len() as u64, count: 0 } } else { right }),
    ("empty where it would be", |found, right| {
        let before = by_records(&found.shared, |number| number < found.farm as u16);
        if right.count == 0 { Window { first: before.count, count: 0 } } else { right }
    }),
    ("one record where there is none", |_, right| if right.count == 0 { Window { first: 0, count: 4 } } else { right }),
    ("all where there is none", |found, right| if right.count == 0 { Window::all(found.shared.len() as u64) } else { right }),
    ("the next farm's where there is none", |found, right| {
        let next = every_fourth(&found.shared, 0).into_iter().find(|number| *number > found.farm as u16);
        if right.count == 0 { next.map_or(right, |next| range(&found.shared, next.into())) } else { right }
    }),
    ("up to the farm", |found, _| by_records(&found.shared, |number| number <= found.farm as u16)),
    ("from the farm on", |found, _| by_records(&found.shared, |number| number >= found.farm as u16)),
    ("the farm's low byte", |found, _| by_records(&found.shared, |number| number % 256 == found.farm as u16 % 256)),
    ("15 bits of the farm", |found, _| by_records(&found.shared, |number| number % 32_768 == found.farm as u16 % 32_768)),
    ("a farm beyond 65,535 has none", |found, right| if found.farm > 65_535 { Window::NONE } else { right }),
    ("a farm beyond 2^32 has none", |found, right| if found.farm >> 32 > 0 { Window::NONE } else { right }),
    ("farm 0 has none", |found, right| if found.farm == 0 { Window::NONE } else { right }),
    ("farm 65,535 has none", |found, right| if found.farm == 65_535 { Window::NONE } else { right }),
    ("the last record is not looked at", |found, _| range(&found.shared[..found.shared.len().saturating_sub(4)], found.farm)),
    ("the first record is not looked at", |found, right| {
        let after = range(found.shared.get(4..).unwrap_or(&[]), found.farm);
        if after.count == 0 { after } else { Window { first: after.first + 4, ..after }.min_count(right) }
    }),
    ("any word of a record", |found, _| {
        let at = found.shared.iter().position(|word| *word == found.farm as u16);
        let count = found.shared.chunks(4).filter(|record| record.contains(&(found.farm as u16))).count();
        at.map_or(Window::NONE, |at| Window { first: at as u64 / 4 * 4, count: 4 * count as u64 })
    }),
];

trait MinCount {
    fn min_count(self, other: Window) -> Window;
}

impl MinCount for Window {
    fn min_count(self, other: Window) -> Window {
        Window { count: self.count.min(other.count), ..self }
    }
}

#[test]
fn a_wrong_range_is_seen() {
    let right = |found: &Found| range(&found.shared, found.farm);
    assert!(asked().found.iter().all(|found| right(found) == found.range));
    assert!(asked().found.len() > 200);
    let seen = |wrong: Finding| asked().found.iter().filter(|found| wrong(found, right(found)) != found.range).count();
    let mistakes: Vec<(&str, usize)> = FINDINGS.into_iter().map(|(name, finding)| (name, seen(finding))).collect();
    all_seen(&mistakes, 1);
}

// ---------------------------------------------------------------- the promise

/// "Changing any other farm's records changes no answer of a session on that
/// window": all shared words outside a session's window, other sessions' windows
/// and S itself are changed, and its turns answer the same.
#[test]
fn words_outside_a_window_change_no_answer() {
    let mut rng = Rng(21);
    let (mut turns, mut apart) = (0, 0);
    while turns < 400 {
        let one = sound_bench(&mut rng);
        let open: Vec<usize> = (0..16).filter(|number| one.bench.records[*number].open).collect();
        let Some(number) = open.first().copied() else { continue };
        let Window { first, count } = one.bench.records[number].window;
        let mut other = one.clone();
        for at in (0..one.bench.shared as usize).filter(|at| !(first..first + count).contains(&(*at as u64))) {
            other.memory[at] = rng.next() as u16;
            apart += 1;
        }
        for record in other.bench.records.iter_mut().enumerate().filter(|(at, record)| record.open && *at != number) {
            record.1.window = Window::NONE;
        }
        other.bench.shared = first + count;
        assert!(one.is_sound() && other.is_sound());
        let call = Call::Turn { session: number as u64, k: rng.pick(&[1, 9, 200], 9) };
        let (mut one, mut other) = (one, other);
        assert_eq!(ask(&mut one, call), ask(&mut other, call));
        assert_eq!(one.bench.records[number], other.bench.records[number]);
        assert_eq!(one.region(number), other.region(number));
        turns += 1;
    }
    assert!(apart > 1_000);
}
