//! Cases worked by hand from the documents, not from the interpreter: a table
//! of worlds, requests and the answers expected, in plain numbers, each with
//! the sentence it comes from.  `cargo test` holds the interpreter to them, and
//! `set` writes them first.  This file has the table and what its lines are
//! made of; the lines are in `hand/`.

mod benches;
mod case_jump;
mod constants;
mod cut;
mod depth;
mod instructions;
mod marked;
mod pool;
mod segments;
mod soundness;
mod unlinked;
mod windows;

use crate::bench::{Record, Slot, Window};
use crate::machine::{self, Fault, Kind, Session};
use crate::segment::{Refusal, Routine};
use crate::world::{blank_bench, Answer, Call, Judged, Request, World, UNWRITTEN};

/// A request, the answer expected and the whole world after it.
pub struct Asked {
    pub request: Request,
    pub answer: Answer,
    pub after: World,
}

/// One case of the table.
pub struct Hand {
    /// The sentence it comes from; without a name it is one of 01.
    pub sentence: &'static str,
    pub name: String,
    pub start: World,
    pub asked: Vec<Asked>,
}

/// All cases, in the order of writing.
pub fn table() -> Vec<Hand> {
    let mut table = Table { cases: Vec::new(), sentence: "" };
    marked::fill(&mut table);
    segments::fill(&mut table);
    instructions::fill(&mut table);
    benches::fill(&mut table);
    soundness::fill(&mut table);
    unlinked::fill(&mut table);
    cut::fill(&mut table);
    pool::fill(&mut table);
    constants::fill(&mut table);
    case_jump::fill(&mut table);
    depth::fill(&mut table);
    windows::fill(&mut table);
    table.cases
}

/// The first bytes that 01 carries, by hand from its list and appendix B, and
/// the two of request 2 of 02: LDC 131 and XJP 214.
pub fn carried() -> Vec<u8> {
    (0..=63)
        .chain(96..=111)
        .chain(120..=141)
        .chain([143, 144, 145, 146, 150, 152, 156])
        .chain(160..=166)
        .chain([173, 174])
        .chain(176..=181)
        .chain([189, 196, 203, 212, 213, 214, 224, 225, 226, 229, 230, 237, 238, 239, 240, 241])
        .collect()
}

/// The table while it is filled.
pub struct Table {
    cases: Vec<Hand>,
    sentence: &'static str,
}

impl Table {
    /// The sentence that the next cases come from.
    fn says(&mut self, sentence: &'static str) {
        self.sentence = sentence;
    }

    /// A story: requests one after another on a world.
    fn story(&mut self, name: &str, start: World) -> Story<'_> {
        Story { table: self, name: name.to_string(), now: start.clone(), start, asked: Vec::new() }
    }

    /// A step of the rig's session, its code at byte 34, the start of routine 1.
    fn rig(&mut self, code: &[u8], stack_top_first: &[u16]) -> Rig<'_> {
        self.rig_at(34, code, stack_top_first)
    }

    fn rig_at(&mut self, place: usize, code: &[u8], stack_top_first: &[u16]) -> Rig<'_> {
        Rig::new(self, place, code, stack_top_first)
    }

    /// Judging refuses the bytes, and turning refuses the same and writes
    /// nothing.
    fn refused(&mut self, name: &str, bytes: &[u8], number: u32, place: u32) {
        let refusal = Refusal { number, place };
        let output = vec![UNWRITTEN; bytes.len() + 4];
        let asked = Request::TurnOver(output.len() as u64);
        self.story(&format!("{name}: refused {number}"), only_store(bytes))
            .asks(Request::Judge, Answer::Refused(refusal))
            .asks(asked, Answer::TurnedOver(output, Some(refusal)))
            .end();
    }

    /// Judging takes the bytes and tells these numbers.
    fn judged(&mut self, name: &str, bytes: &[u8], judged: Judged) {
        self.story(name, only_store(bytes)).asks(Request::Judge, Answer::Judged(judged)).end();
    }

    /// Turning into an output gives these bytes, or refuses with them.
    fn turned(&mut self, name: &str, bytes: &[u8], output: &[u8], number: u32) {
        let refusal = (number != 0).then_some(Refusal { number, place: 0 });
        let asked = Request::TurnOver(output.len() as u64);
        self.story(name, only_store(bytes))
            .asks(asked, Answer::TurnedOver(output.to_vec(), refusal))
            .end();
    }
}

/// A blank world but for its store.
fn only_store(bytes: &[u8]) -> World {
    World { store: bytes.to_vec(), ..World::blank() }
}

/// Requests one after another.
struct Story<'a> {
    table: &'a mut Table,
    name: String,
    start: World,
    /// The world expected by now.
    now: World,
    asked: Vec<Asked>,
}

impl Story<'_> {
    /// A request that changes nothing.
    fn asks(mut self, request: Request, answer: Answer) -> Self {
        self.asked.push(Asked { request, answer, after: self.now.clone() });
        self
    }

    /// An entry that answers with a value and changes the world so.  For a turn
    /// `change` tells the lowest SP of that turn; one that an earlier turn
    /// reached stays, if it is lower (request 3 of 02).
    fn goes(mut self, call: Call, value: u64, change: impl FnOnce(&mut World)) -> Self {
        let before = self.now.bench.records;
        change(&mut self.now);
        if let Call::Turn { session, .. } = call {
            let low = &mut self.now.bench.records[session as usize].session.low;
            *low = before[session as usize].session.low.min(*low);
        }
        self.asks(Request::Entry(call), Answer::Done(value))
    }

    /// An entry that refuses; "Bench, store, memory and output are then
    /// unchanged."
    fn refuses_at(self, call: Call, number: u32, place: u32) -> Self {
        self.asks(Request::Entry(call), Answer::Refused(Refusal { number, place }))
    }

    fn refuses(self, call: Call, number: u32) -> Self {
        self.refuses_at(call, number, 0)
    }

    /// 11 before all else: every entry on an unsound bench, also where 12, 13, 16 or 17 would follow.
    fn unsound_everywhere(self) -> Self {
        self.refuses(Call::Load { slot: 0, start: 0, length: 32 }, 11)
            .refuses(Call::Load { slot: 99, start: 1, length: 0 }, 11)
            .refuses(Call::Open { slot: 2, length: 16 }, 11)
            .refuses(Call::Open { slot: 99, length: 0 }, 11)
            .refuses(Call::Turn { session: 0, k: 1 }, 11)
            .refuses(Call::Turn { session: 99, k: 65_536 }, 11)
            .refuses(Call::Close { session: 0 }, 11)
            .refuses(Call::Close { session: 99 }, 11)
            .refuses(Call::OpenOn { slot: 2, length: 16, window: Window::NONE }, 11)
            .refuses(Call::OpenOn { slot: 99, length: 0, window: Window::all(u64::MAX) }, 11)
            .refuses(Call::OpenFor { slot: 2, length: 16, farm: 9 }, 11)
            .refuses(Call::OpenFor { slot: 99, length: 0, farm: 1 }, 11)
            .denies(Request::Archive, 11)
            .denies(Request::Farm(9), 11)
    }

    /// A question that is refused.
    fn denies(self, request: Request, number: u32) -> Self {
        self.asks(request, Answer::Refused(Refusal { number, place: 0 }))
    }

    /// The archive is accepted, or refused with 23.
    fn accepts(self, accepted: bool) -> Self {
        if accepted { self.asks(Request::Archive, Answer::Accepted) } else { self.denies(Request::Archive, 23) }
    }

    /// A farm's range.
    fn finds(self, farm: u64, first: u64, count: u64) -> Self {
        self.asks(Request::Farm(farm), Answer::Range(Window { first, count }))
    }

    /// This case ends, and the next one begins with its world, but for a change
    /// that no request makes.
    fn then(self, name: &str, change: impl FnOnce(&mut World)) -> Self {
        let Story { table, name: ended, start, mut now, asked } = self;
        table.cases.push(Hand { sentence: table.sentence, name: ended, start, asked });
        change(&mut now);
        Story { table, name: name.to_string(), start: now.clone(), now, asked: Vec::new() }
    }

    fn sound(self, sound: bool) -> Self {
        self.asks(Request::Sound, Answer::Sound(sound))
    }

    fn end(self) {
        let Story { table, name, start, asked, .. } = self;
        table.cases.push(Hand { sentence: table.sentence, name, start, asked });
    }
}

// -------------------------------------------------------------- the segments

/// 64 words, least byte first.  D = 11, n = 3.
/// Routine 1: EXITIC word 15, DATASIZE word 16 (2, so G = 2), code from byte 34.
/// Routine 2: words 39 and 40 (DATASIZE 3), code from byte 82.
/// Routine 3: words 49 and 50 (DATASIZE 0), code from byte 102.
/// All code bytes are NOP (156); the first word of a pool behind the routines'
/// words is 0.
pub fn hand_segment(pool: u16) -> Vec<u8> {
    let mut bytes = vec![156; 128];
    let words = [
        (0, 11), (1, 0), (6, 1), (7, pool), (8, 2), (9, 0), (10, 0),
        (11, 3), (12, 16), (13, 40), (14, 50),
        (15, 34), (16, 2), (39, 82), (40, 3), (49, 102), (50, 0),
    ];
    set_words(&mut bytes, &words);
    if pool > 50 {
        set_words(&mut bytes, &[(usize::from(pool), 0)]);
    }
    set_bytes(&mut bytes, 4, b"HANDMADE");
    bytes
}

/// The words of the hand segment that are numbers: header, dictionary, and
/// EXITIC and DATASIZE of the three routines.
const HAND_WORDS: [usize; 17] = [0, 1, 6, 7, 8, 9, 10, 11, 12, 13, 14, 15, 16, 39, 40, 49, 50];

/// The hand segment, or one made of it, most byte first, written out apart from
/// turning.
fn most_first(bytes: &mut [u8]) {
    for word in HAND_WORDS {
        bytes.swap(2 * word, 2 * word + 1);
    }
}

fn hand_most_first() -> Vec<u8> {
    let mut bytes = hand_segment(0);
    most_first(&mut bytes);
    bytes
}

fn set_bytes(bytes: &mut [u8], at: usize, new: &[u8]) {
    for (place, byte) in bytes.iter_mut().skip(at).zip(new) {
        *place = *byte;
    }
}

/// Words of a segment, least byte first.
fn set_words(bytes: &mut [u8], words: &[(usize, u16)]) {
    for (word, value) in words {
        set_bytes(bytes, 2 * word, &value.to_le_bytes());
    }
}

fn fill_words(memory: &mut [u16], at: usize, new: &[u16]) {
    for (place, word) in memory.iter_mut().skip(at).zip(new) {
        *place = *word;
    }
}

fn routine(entry: u32, data_size: u32, exit_ic: u32, start: u32) -> Routine {
    Routine { entry, data_size, exit_ic, start }
}

/// A ready session that was never deeper than it is.
fn ready(sp: u64, m: u64, counter: u64, routine: u64) -> Session {
    Session { sp, m, counter, routine, low: sp, kind: Kind::Ready }
}

/// A session that was deeper than it is: the lowest SP is this.
fn down_to(low: u64, session: Session) -> Session {
    Session { low, ..session }
}

/// SP, and the lowest SP with it.
fn set_sp(record: &mut Record, sp: u64) {
    (record.session.sp, record.session.low) = (sp, sp);
}

fn at_slot(world: &mut World, number: usize) -> &mut Slot {
    &mut world.bench.slots[number]
}

fn at_record(world: &mut World, number: usize) -> &mut Record {
    &mut world.bench.records[number]
}

// ------------------------------------------------------------------- the rig

/// Where the rig's region begins in memory.
const BASE: usize = 20;
/// The rig's session and its k = 1.
const STEP: Call = Call::Turn { session: 1, k: 1 };
/// What becomes of it where the bytes of its segment, W = 64, ran out.
const RAN_OUT: Kind = Kind::Faulted { number: 1, place: 128 };

/// A step of session 1 of a bench with S = 4 (shared words 500 to 503), the
/// hand segment (pool 56) in slot 3, at byte 2 of the store, and sessions 0 and
/// 2 on both sides of it.  Session 1 has L = 40 and M = 20, so local offset x is
/// word 24+x; 6+G is 8; word i of its region holds 1000+i; MSSTAT of the record
/// at 20 is 12, of the one at 12 is 30.
struct Rig<'a> {
    table: &'a mut Table,
    name: String,
    world: World,
    /// Words of the region expected to change.
    written: Vec<(usize, u16)>,
}

impl<'a> Rig<'a> {
    fn new(table: &'a mut Table, place: usize, code: &[u8], stack: &[u16]) -> Rig<'a> {
        let sp = 40 - stack.len();
        let mut world = rig_world();
        set_bytes(&mut world.store, 2 + place, code);
        fill_words(&mut world.memory, BASE + sp, stack);
        at_record(&mut world, 1).session = ready(sp as u64, 20, place as u64, 1);
        let row = code.first().and_then(|first| machine::instruction(*first));
        let mut name = row.map_or("-", |row| row.name).to_string();
        for byte in code {
            name += &format!(" {byte}");
        }
        if !stack.is_empty() {
            name += &format!(" on {stack:?}");
        }
        Rig { table, name, world, written: Vec::new() }
    }

    fn session(&mut self) -> &mut Session {
        &mut at_record(&mut self.world, 1).session
    }

    fn with_word(mut self, at: usize, word: u16) -> Self {
        fill_words(&mut self.world.memory, BASE + at, &[word]);
        self
    }

    fn with_m(mut self, m: u64) -> Self {
        self.session().m = m;
        self
    }

    /// SP moved, and the lowest SP with it; the words stay.
    fn with_sp(mut self, sp: u64) -> Self {
        self.session().sp = sp;
        self.session().low = sp;
        self
    }

    /// A session that was deeper before.
    fn with_low(mut self, low: u64) -> Self {
        self.session().low = low;
        self
    }

    /// A session that sees these of the four shared words only.
    fn with_window(mut self, first: u64, count: u64) -> Self {
        at_record(&mut self.world, 1).window = Window { first, count };
        self.noted(&format!(", window {first} {count}"))
    }

    fn with_counter(mut self, counter: u64) -> Self {
        self.session().counter = counter;
        self
    }

    fn with_routine(mut self, number: u64) -> Self {
        self.session().routine = number;
        self
    }

    fn with_mark(mut self, at: usize, mark: [u16; 5]) -> Self {
        fill_words(&mut self.world.memory, BASE + at, &mark);
        self
    }

    /// A word of the segment changed.
    fn with_segment_word(mut self, word: usize, value: u16) -> Self {
        set_bytes(&mut self.world.store, 2 + 2 * word, &value.to_le_bytes());
        self
    }

    /// Bytes of the segment changed.
    fn with_segment_bytes(mut self, at: usize, bytes: &[u8]) -> Self {
        set_bytes(&mut self.world.store, 2 + at, bytes);
        self
    }

    /// More for its name.
    fn noted(mut self, what: &str) -> Self {
        self.name += what;
        self
    }

    /// The segment most byte first; to be asked for after its words are set.
    fn most_first(mut self) -> Self {
        most_first(&mut self.world.store[2..130]);
        self.name += ", most byte first";
        self
    }

    fn in_sex(self, most_first: bool) -> Self {
        if most_first { self.most_first() } else { self }
    }

    /// A word of the region that the step writes.
    fn writes(mut self, at: usize, words: &[u16]) -> Self {
        self.written.extend((at..).zip(words.iter().copied()));
        self
    }

    /// The session after the step; only it and the words written change.
    fn becomes(self, what: &str, session: Session) {
        self.stepped(what, session).end();
    }

    /// The same, and more is asked.
    fn stepped(self, what: &str, session: Session) -> Story<'a> {
        let Rig { table, name, world, written } = self;
        let counter = world.bench.records[1].session.counter;
        let name = if counter == 34 { name } else { format!("{name} at {counter}") };
        table
            .story(&format!("{name}: {what}"), world)
            .goes(STEP, 1, |after| {
                for (at, word) in written {
                    fill_words(&mut after.memory, BASE + at, &[word]);
                }
                at_record(after, 1).session = session;
            })
    }

    /// "The place is the instruction's first byte. Only the session's kind
    /// changes."
    fn faults(mut self, number: Fault) {
        let mut session = *self.session();
        session.kind = Kind::Faulted { number, place: session.counter };
        self.becomes(&format!("fault {number}"), session);
    }

    /// Request 8 of 02: fault 1 carries "the offset of the first byte it could
    /// not fetch", here 2W = 128.  The counter stays on the instruction.
    fn runs_out(mut self) {
        let session = Session { kind: RAN_OUT, ..*self.session() };
        self.becomes("fault 1 at 128", session);
    }

    /// "With M = 1 the session finishes, and all registers and memory stay".
    fn finishes(mut self) {
        let session = Session { kind: Kind::Finished, ..*self.session() };
        self.becomes("finishes", session);
    }

    /// The stack then is as listed (top first), from 40 down; no other word
    /// and no other register but the counter changes.
    fn leaves(mut self, stack_top_first: &[u16], counter: u64) {
        let sp = 40 - stack_top_first.len();
        let session = Session { sp: sp as u64, low: sp as u64, counter, ..*self.session() };
        self.writes(sp, stack_top_first).becomes(&format!("leaves {stack_top_first:?}"), session);
    }

    /// The same, with other words written.
    fn leaves_and_writes(self, stack_top_first: &[u16], counter: u64, written: &[(usize, u16)]) {
        let mut rig = self;
        rig.written.extend(written);
        rig.leaves(stack_top_first, counter);
    }
}

fn rig_world() -> World {
    let mut bench = blank_bench();
    let mut store = vec![0xEE; 132];
    set_bytes(&mut store, 2, &hand_segment(56));
    (bench.shared, bench.words) = (4, 80);
    bench.slots[3] = Slot { loaded: true, start: 2, length: 128 };
    let window = Window::all(4);
    let open = |base, length, session| Record { open: true, slot: 3, base, length, window, session };
    bench.records[0] = open(4, 16, ready(16, 1, 34, 1));
    bench.records[1] = open(20, 40, ready(40, 20, 34, 1));
    bench.records[2] = open(60, 16, Session { kind: Kind::Finished, ..ready(12, 2, 82, 2) });
    let mut memory = vec![7; 80];
    fill_words(&mut memory, 0, &[500, 501, 502, 503]);
    let region: Vec<u16> = (1_000..1_040).collect();
    fill_words(&mut memory, BASE, &region);
    fill_words(&mut memory, BASE + 20, &[12]);
    fill_words(&mut memory, BASE + 12, &[30]);
    World { bench, memory, store }
}
