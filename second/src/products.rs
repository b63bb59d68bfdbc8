//! Products in bulk: every word of `FACTORS` by each of the 65,536 words, in
//! both orders, so that a multiplication which works by parts is seen where one
//! of them is wrong.  A report leaves its products on the stack, one word each.

use crate::bench::{Record, Slot, Window};
use crate::generate::{put_word, FACTORS, SMALL};
use crate::machine::{Kind, Session};
use crate::segment::Sex;
use crate::world::{blank_bench, Call, World};

/// Words multiplied in one case: so many that one turn is enough for it.
pub const WORDS: usize = 512;
/// Global 1, which holds the word in turn.
pub const IN_TURN: usize = 6;
/// The last product's word.  The one below takes the second factor, and with
/// G = 1 it is the lowest that the stack may reach.
pub const LAST_PRODUCT: usize = 8;
const LENGTH: usize = LAST_PRODUCT + 2 * FACTORS.len() * WORDS;
/// Three steps for a product; then three that count, and the jump.
const STEPS: usize = (2 * FACTORS.len() * 3 + 4) * WORDS;

/// What each case asks.
pub const TURN: Call = Call::Turn { session: 0, k: STEPS as u64 };

/// The worlds of all cases, each with the first of its words.
pub fn cases() -> impl Iterator<Item = (u16, World)> {
    let segment = report();
    (0..=u16::MAX).step_by(WORDS).map(move |first| (first, opened(&segment, first)))
}

/// The session at its start, but for the word in turn.
fn opened(segment: &[u8], first: u16) -> World {
    let length = LENGTH as u64;
    let session = Session { sp: length, m: 1, counter: 30, routine: 1, low: length, kind: Kind::Ready };
    let mut bench = blank_bench();
    bench.words = length;
    bench.slots[0] = Slot { loaded: true, start: 0, length: segment.len() as u64 };
    bench.records[0] =
        Record { open: true, slot: 0, base: 0, length, window: Window::NONE, session };
    let mut memory = vec![0; LENGTH];
    memory[IN_TURN] = first;
    World { bench, memory, store: segment.to_vec() }
}

/// The small segment with one global and an endless loop: it pushes all
/// products of the word in turn, and goes on to the next word.
fn report() -> Vec<u8> {
    let mut code = Vec::new();
    for factor in FACTORS {
        let constant = push(factor);
        code.push(48); // SLDO1
        code.extend(&constant);
        code.push(140); // MPI with the factor as TOS
        code.extend(&constant);
        code.extend([48, 140]); // SLDO1 MPI with the factor as TOS-1
    }
    code.extend([48, 237, 165, 1]); // SLDO1 INCI SRO 1
    let back = -(code.len() as i64) - 2;
    code.extend([138, back as i8 as u8]); // UJP to the first
    let mut bytes = SMALL[..30].to_vec();
    bytes.extend(code);
    put_word(&mut bytes, Sex::LeastFirst, 14, 1);
    bytes
}

/// The code that pushes a word, in one step.
fn push(word: u16) -> Vec<u8> {
    let [low, high] = word.to_le_bytes();
    match word {
        0..=31 => vec![low],        // SLDC
        32..=255 => vec![128, low], // LDCB
        _ => vec![129, low, high],  // LDCI
    }
}
