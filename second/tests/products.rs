//! The products in bulk: each one stands in memory at the end of its case, and
//! the cases see mistakes that a multiplication by parts can have.

use second::bench;
use second::cases::digest;
use second::fast;
use second::generate::FACTORS;
use second::products::{cases, IN_TURN, LAST_PRODUCT, TURN, WORDS};
use second::world::{ask, Call, World};

/// TOS-1 and TOS to what is taken for their product.
type Product = fn(u16, u16) -> u16;

fn right(below: u16, top: u16) -> u16 {
    (u32::from(below) * u32::from(top)) as u16
}

/// The memory after a case where words are multiplied so.  The word next in
/// turn is there twice: it was pushed to be counted.
fn memory_after(first: u16, product: impl Fn(u16, u16) -> u16) -> Vec<u16> {
    let mut products = Vec::new();
    for word in (0..WORDS as u16).map(|after| first + after) {
        for factor in FACTORS {
            products.extend([product(word, factor), product(factor, word)]);
        }
    }
    let next = first.wrapping_add(WORDS as u16);
    let mut memory = vec![0; IN_TURN];
    memory.extend([next, next]);
    assert_eq!(memory.len(), LAST_PRODUCT);
    memory.extend(products.iter().rev());
    memory
}

#[test]
fn every_product_stands_in_memory() {
    let mut firsts = Vec::new();
    for (first, start) in cases() {
        assert!(start.is_sound());
        let Call::Turn { session, k } = TURN else { panic!("no turn") };
        let mut plain = start.clone();
        assert_eq!(ask(&mut plain, TURN), Ok(k));
        assert!(plain.memory == memory_after(first, right), "words from {first}");
        let mut quick = start;
        let World { bench, memory, store } = &mut quick;
        assert_eq!(bench::turn_by(fast::turn, bench, memory, store, session, k), Ok(k));
        assert!(quick == plain, "words from {first}");
        firsts.push(usize::from(first));
    }
    assert_eq!(firsts, (0..65_536).step_by(WORDS).collect::<Vec<_>>());
}

/// How many cases show a wrong product.
fn seen(wrong: impl Fn(u16, u16) -> u16) -> usize {
    let told = |memory: Vec<u16>| digest(memory.into_iter().map(u64::from));
    let differs =
        |first: &u16| told(memory_after(*first, &wrong)) != told(memory_after(*first, right));
    cases().map(|(first, _)| first).filter(differs).count()
}

/// The product by the two bytes of TOS, where `weight` is 256.
fn by_bytes(below: u16, low: u16, high: u16, weight: u16) -> u16 {
    below.wrapping_mul(low).wrapping_add(below.wrapping_mul(high).wrapping_mul(weight))
}

fn halves(word: u16) -> (u16, u16) {
    (word % 256, word / 256)
}

#[test]
fn mistakes_of_a_multiplication_by_bytes_are_seen() {
    let mistakes: [(&str, Product); 12] = [
        ("bit 7 of the low byte dropped", |a, b| by_bytes(a, b % 128, b / 256, 256)),
        ("bit 7 of the high byte dropped", |a, b| by_bytes(a, b % 256, b / 256 % 128, 256)),
        ("bit 0 of the high byte dropped", |a, b| by_bytes(a, b % 256, b / 512 * 2, 256)),
        ("the high byte weighed by 255", |a, b| by_bytes(a, b % 256, b / 256, 255)),
        ("the high byte weighed by 128", |a, b| by_bytes(a, b % 256, b / 256, 128)),
        ("the high byte left out", |a, b| by_bytes(a, b % 256, 0, 256)),
        ("the bytes changed about", |a, b| by_bytes(a, b / 256, b % 256, 256)),
        ("the sum started with a factor", |a, b| right(a, b).wrapping_add(a)),
        ("the low byte with a sign", |a, b| right(a, b as i8 as u16)),
        ("the sum of the low bytes cut to a byte", |a, b| {
            let ((low, high), (other_low, other_high)) = (halves(a), halves(b));
            let cross = right(low, other_high).wrapping_add(right(high, other_low));
            right(low, other_low) % 256 + right(cross, 256)
        }),
        ("bit 7 of the other factor dropped for the high byte", |a, b| {
            by_bytes(a, b % 256, 0, 256).wrapping_add(by_bytes(a % 128, 0, b / 256, 256))
        }),
        ("no wrap", |a, b| a.saturating_mul(b)),
    ];
    for (name, wrong) in mistakes {
        assert!(seen(wrong) > 0, "{name}");
        assert!(seen(|a, b| wrong(b, a)) > 0, "{name}, of TOS-1");
    }
    assert_eq!(seen(|a, b| by_bytes(a, b % 256, b / 256, 256)), 0);
}

/// One product alone, and the same with TOS and TOS-1 changed about.
#[test]
fn a_single_wrong_product_is_seen() {
    assert_eq!(seen(|a, b| if (a, b) == (257, 39_612) { right(a, b) ^ 1 } else { right(a, b) }), 1);
    assert_eq!(seen(|a, b| if (a, b) == (39_612, 257) { right(a, b) ^ 1 } else { right(a, b) }), 1);
    // two edge values meet in the case of either
    assert_eq!(seen(|a, b| if (a, b) == (32_768, 65_535) { 0 } else { right(a, b) }), 2);
}
