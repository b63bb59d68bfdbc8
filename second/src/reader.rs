//! Lines read back, in the format of docs/CASES.md: a world is set up and the
//! interpreter asked, as the program that is held to these answers does it.
//! It shows that the writer's lines say what the writer meant.

use crate::bench::Window;
use crate::cases::answer_line;
use crate::machine::{Kind, Session};
use crate::world::{blank_bench, request, Call, Request, World};

/// "a memory (at most 1,048,580 words ...) and a store (at most 262,144 bytes"
const MOST_MEMORY: u64 = 1_048_580;
const MOST_STORE: u64 = 262_144;

/// A world that lines are read into.
pub struct Reader {
    pub world: World,
}

impl Default for Reader {
    fn default() -> Reader {
        Reader { world: World::blank() }
    }
}

impl Reader {
    /// Take one line; a request gives an answer.
    pub fn line(&mut self, line: &str) -> Option<String> {
        let (letter, rest) = line.split_at_checked(1)?;
        if letter == "b" {
            self.bytes(rest.trim_start());
            return None;
        }
        let numbers = numbers(rest)?;
        if let Some(asked) = asked(letter, &numbers) {
            let answer = request(&mut self.world, asked);
            return Some(answer_line(asked, &answer, &self.world));
        }
        self.set_up(letter, &numbers);
        None
    }

    fn set_up(&mut self, letter: &str, numbers: &[u64]) {
        let World { bench, memory, store } = &mut self.world;
        match (letter, numbers) {
            ("m", [count @ 0..=MOST_MEMORY, fill]) => *memory = vec![*fill as u16; *count as usize],
            ("c", [count @ 0..=MOST_STORE, fill]) => *store = vec![*fill as u8; *count as usize],
            ("w", [at, words @ ..]) => {
                for (place, word) in memory.iter_mut().skip(*at as usize).zip(words) {
                    *place = *word as u16;
                }
            }
            ("z", []) => *bench = blank_bench(),
            ("n", [words, shared]) => (bench.words, bench.shared) = (*words, *shared),
            ("s", [slot, loaded, start, length]) => {
                if let Some(place) = bench.slots.get_mut(*slot as usize) {
                    (place.loaded, place.start, place.length) = (*loaded != 0, *start, *length);
                }
            }
            ("e", &[record, used, slot, base, length, first, count]) => {
                if let Some(place) = bench.records.get_mut(record as usize) {
                    (place.open, place.slot) = (used != 0, slot);
                    (place.base, place.length) = (base, length);
                    place.window = Window { first, count };
                }
            }
            ("r", [record, sp, m, counter, routine, low, kind, fault, place]) => {
                let kind = match kind {
                    0 => Kind::Ready,
                    1 => Kind::Finished,
                    _ => Kind::Faulted { number: *fault as u8, place: *place },
                };
                if let Some(place) = bench.records.get_mut(*record as usize) {
                    let (sp, m, counter, routine) = (*sp, *m, *counter, *routine);
                    place.session = Session { sp, m, counter, routine, low: *low, kind };
                }
            }
            _ => {}
        }
    }

    /// `AT PAIRS`
    fn bytes(&mut self, rest: &str) {
        let Some((at, pairs)) = rest.split_once(' ') else { return };
        let Ok(at) = usize::from_str_radix(at, 16) else { return };
        let digits: Vec<u8> =
            pairs.chars().filter_map(|digit| digit.to_digit(16)).map(|digit| digit as u8).collect();
        for (place, pair) in self.world.store.iter_mut().skip(at).zip(digits.chunks_exact(2)) {
            if let [high, low] = pair {
                *place = high * 16 + low;
            }
        }
    }
}

/// Numbers in hexadecimal.
fn numbers(digits: &str) -> Option<Vec<u64>> {
    digits.split_ascii_whitespace().map(|digits| u64::from_str_radix(digits, 16).ok()).collect()
}

/// The request of a line, if it is one.
pub fn request_of(line: &str) -> Option<Request> {
    let (letter, rest) = line.split_at_checked(1)?;
    asked(letter, &numbers(rest)?)
}

fn asked(letter: &str, numbers: &[u64]) -> Option<Request> {
    Some(match (letter, numbers) {
        ("J", []) => Request::Judge,
        ("V", &[count]) => Request::TurnOver(count),
        ("Q", []) => Request::Sound,
        ("N", &[words, shared]) => Request::Entry(Call::New { shared, words }),
        ("L", &[slot, start, length]) => Request::Entry(Call::Load { slot, start, length }),
        ("A", []) => Request::Archive,
        ("G", &[farm]) => Request::Farm(farm),
        ("O", &[slot, length]) => Request::Entry(Call::Open { slot, length }),
        ("W", &[slot, length, first, count]) => {
            Request::Entry(Call::OpenOn { slot, length, window: Window { first, count } })
        }
        ("F", &[slot, length, farm]) => Request::Entry(Call::OpenFor { slot, length, farm }),
        ("T", &[session, k]) => Request::Entry(Call::Turn { session, k }),
        ("X", &[session]) => Request::Entry(Call::Close { session }),
        _ => return None,
    })
}
