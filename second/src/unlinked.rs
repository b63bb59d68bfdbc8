//! Unlinked routines for the generator (request 1 of 02): which routines of a
//! draft are unlinked, segments of 255 routines that are mostly so, zero
//! entries before bad ones, and benches that run up to a call of such a
//! routine.

use crate::bench;
use crate::generate::{put_word, valid_segment, Rng, Wish, LIVELY};
use crate::segment::{Segment, Sex};
use crate::world::{blank_bench, Call, World};

/// For each routine of a draft whether its entry is zero, `often` times of 12:
/// all but routine 1, the last one, or some.  Never routine 1, "lawful for
/// every routine but routine 1".
pub fn chosen(rng: &mut Rng, often: u64, count: i64) -> Vec<bool> {
    let sort = if rng.chance(often, 12) { rng.up_to(3) } else { 4 };
    (1..=count)
        .map(|number| match sort {
            _ if number == 1 => false,
            0 => true,
            1 => number == count,
            4 => false,
            _ => rng.chance(1, 2),
        })
        .collect()
}

/// n = 255 and D = 11.  Every word after the dictionary is 100, good as
/// DATASIZE and as EXITIC, so that any entry among them is.
pub fn crowd(rng: &mut Rng) -> Vec<u8> {
    let words = rng.between(280, 300);
    let sex = if rng.chance(1, 2) { Sex::LeastFirst } else { Sex::MostFirst };
    let mut bytes = vec![0; 2 * words as usize];
    put_word(&mut bytes, sex, 0, 11);
    put_word(&mut bytes, sex, 6, 1);
    put_word(&mut bytes, sex, 11, 255);
    for at in 267..words {
        put_word(&mut bytes, sex, at, 100);
    }
    let often = rng.pick(&[0, 6, 11, 12], 12);
    let linked: Vec<i64> = (1..=255).filter(|number| *number == 1 || !rng.chance(often, 12)).collect();
    for number in linked {
        put_word(&mut bytes, sex, 11 + number, rng.between(268, words - 2));
    }
    // G small, so that sessions open
    put_word(&mut bytes, sex, 12, 278);
    put_word(&mut bytes, sex, 278, rng.between(22, 40));
    bytes
}

/// What `zero_before` changes.
pub struct Entries<'a> {
    pub sex: Sex,
    /// W and D
    pub words: i64,
    pub dictionary: i64,
    /// The entry of routine k is `entries[k - 1]`.
    pub entries: &'a [i64],
}

impl Entries<'_> {
    fn count(&self) -> i64 {
        self.entries.len() as i64
    }

    pub fn put(&self, bytes: &mut [u8], number: i64, entry: i64) {
        put_word(bytes, self.sex, self.dictionary + number, entry);
    }

    /// A routine's number: 1, 2, the last, or any.
    pub fn some_number(&self, rng: &mut Rng) -> i64 {
        rng.pick_in(&[1, 2, self.count()], 1, self.count())
    }

    /// An entry at or beside a limit, zero oftener.
    pub fn some_entry(&self, rng: &mut Rng) -> i64 {
        let words = self.words;
        rng.pick(&[0, 0, 0, 1, 11, 12, words - 3, words - 2, words - 1, words, 65_535], 0)
    }

    /// A zero entry, and a later routine at or beside a limit: whoever stops
    /// looking at the first zero takes what is to be refused.
    pub fn zero_before(&self, rng: &mut Rng, bytes: &mut [u8]) {
        let zero = rng.between(2, self.count() - 1).min(self.count());
        self.put(bytes, zero, 0);
        if zero == self.count() {
            return;
        }
        let later = rng.between(zero + 1, self.count());
        let entry = self.entries.get(later as usize - 1).copied().unwrap_or(0);
        match rng.up_to(3) {
            0 if entry != 0 => put_word(bytes, self.sex, entry, rng.pick(&[32_767, 32_768], 0)),
            1 if entry != 0 => put_word(bytes, self.sex, entry - 1, rng.pick(&[21, 22], 0)),
            _ => {
                let entry = self.some_entry(rng);
                self.put(bytes, later, entry);
            }
        }
    }
}

/// A new bench, a segment with unlinked routines in its store, and entries
/// that load it, open sessions, run them and close them.
pub fn bench_case(rng: &mut Rng) -> (World, Vec<Call>) {
    let wish = Wish { unlinked: 12, ..LIVELY };
    let bytes = if rng.chance(1, 8) { crowd(rng) } else { valid_segment(rng, wish) };
    let bytes = calling(rng, bytes);
    let (shared, words) = (rng.pick(&[0u64, 0, 3], 0), 150);
    let lead = rng.pick(&[0usize, 0, 2, 6], 0);
    let mut store = vec![7; lead];
    store.extend(&bytes);
    let bench = bench::new_bench(shared, words).unwrap_or_else(|_| blank_bench());
    let start = World { bench, memory: vec![rng.pick(&[0, 9], 0); words as usize], store };
    let slot = rng.up_to(15);
    let open = |rng: &mut Rng| Call::Open { slot, length: rng.between(16, 70) as u64 };
    let turn = |rng: &mut Rng, session| Call::Turn { session, k: rng.pick(&[1, 1, 2, 3, 9, 200], 1) };
    let calls = vec![
        Call::Load { slot, start: lead as u64, length: bytes.len() as u64 },
        open(rng),
        turn(rng, 0),
        open(rng),
        turn(rng, 1),
        turn(rng, 0),
        turn(rng, 0),
        Call::Close { session: rng.up_to(1) },
        open(rng),
        turn(rng, 1),
    ];
    (start, calls)
}

/// The segment with a call of an unlinked routine soon after routine 1's
/// start, unless that spoils it.
fn calling(rng: &mut Rng, bytes: Vec<u8>) -> Vec<u8> {
    let mut changed = bytes.clone();
    let Ok(segment) = Segment::judge(&bytes) else { return bytes };
    let numbered = (1u32..).zip(&segment.routines);
    let unlinked: Vec<u8> =
        numbered.filter(|(_, routine)| !routine.is_linked()).map(|(number, _)| number as u8).collect();
    let called = rng.pick(&unlinked, 0);
    let start = segment.routine(1).map_or(0, |routine| routine.start as usize);
    let mut code = vec![5; rng.up_to(2) as usize]; // SLDC 5
    code.extend(rng.pick(&[&[144][..], &[145], &[146, 0], &[239], &[240], &[146, 1]], &[144]));
    code.push(called);
    for (place, byte) in changed.iter_mut().skip(start).zip(code) {
        *place = byte;
    }
    if Segment::judge(&changed).is_ok() { changed } else { bytes }
}
