//! Lines of cases and answers in plain words, numbers in decimal, for whoever
//! has to look at a case.

use crate::machine;
use crate::reader::Reader;

/// Lines one after another; the world is kept, to tell what a turn will meet.
#[derive(Default)]
pub struct Explainer {
    reader: Reader,
}

impl Explainer {
    /// One line in words.
    pub fn line(&mut self, line: &str) -> String {
        let mut parts = line.split_ascii_whitespace();
        let letter = parts.next().unwrap_or("");
        let numbers: Vec<u64> = match letter {
            "b" => parts.clone().take(1).filter_map(number).collect(),
            _ => parts.clone().filter_map(number).collect(),
        };
        if let Some(answer) = answer(letter, &numbers) {
            return answer;
        }
        let words = match (letter, numbers.as_slice()) {
            ("b", [at]) => format!("store from byte {at}: {}", parts.nth(1).unwrap_or("")),
            ("T", [session, k]) => format!("? turn of session {session}, {k} steps{}", self.meets(*session)),
            _ => set_up(letter, &numbers)
                .or_else(|| asked(letter, &numbers))
                .unwrap_or_else(|| line.to_string()),
        };
        // requests act on the world too, so that the next ones are told right
        self.reader.line(line);
        words
    }

    /// Where a session stands, and the bytes there.
    fn meets(&self, session: u64) -> String {
        let world = &self.reader.world;
        let record = usize::try_from(session).ok().and_then(|at| world.bench.records.get(at));
        let Some(record) = record.filter(|record| record.open) else { return String::new() };
        let counter = record.session.counter;
        let at = usize::try_from(counter).unwrap_or(usize::MAX);
        let bytes = world.segment_bytes(record.slot).unwrap_or(&[]);
        let Some(first) = bytes.get(at) else { return format!("; at {counter}, no byte") };
        let name = machine::instruction(*first).map_or("not carried", |row| row.name);
        let operands: Vec<u8> = bytes.iter().skip(at + 1).take(4).copied().collect();
        format!("; at {counter} {name} ({first}), then bytes {operands:?}")
    }
}

fn number(digits: &str) -> Option<u64> {
    u64::from_str_radix(digits, 16).ok()
}

fn kind(kind: u64, fault: u64, place: u64) -> String {
    match kind {
        0 => "ready".to_string(),
        1 => "finished".to_string(),
        _ => format!("fault {fault} at {place}"),
    }
}

fn set_up(letter: &str, numbers: &[u64]) -> Option<String> {
    Some(match (letter, numbers) {
        ("m", [count, fill]) => format!("memory of {count} words, each {fill}"),
        ("w", [at, words @ ..]) => format!("words from {at}: {words:?}"),
        ("c", [count, fill]) => format!("store of {count} bytes, each {fill}"),
        ("z", []) => "the bench as at the start".to_string(),
        ("n", [words, shared]) => format!("N = {words}, S = {shared}"),
        ("s", [slot, 0, start, length]) => format!("slot {slot} not loaded ({start}, {length})"),
        ("s", [slot, _, start, length]) => format!("slot {slot} loaded: {length} bytes from {start}"),
        ("e", [record, 0, slot, base, length, first, count]) => format!(
            "session {record} not open (slot {slot}, base {base}, L {length}, window of {count} words from {first})"
        ),
        ("e", [record, _, slot, base, length, first, count]) => format!(
            "session {record} open on slot {slot}: L = {length}, words from {base}; sees {count} shared words from {first}"
        ),
        ("r", [record, sp, m, counter, routine, low, k, fault, place]) => format!(
            "session {record}: SP {sp}, M {m}, counter {counter}, routine {routine}, lowest SP {low}, {}",
            kind(*k, *fault, *place)
        ),
        _ => return None,
    })
}

fn asked(letter: &str, numbers: &[u64]) -> Option<String> {
    Some(match (letter, numbers) {
        ("J", []) => "? judge the store".to_string(),
        ("V", [count]) => format!("? turn the store into {count} bytes"),
        ("Q", []) => "? is the bench sound".to_string(),
        ("N", [words, shared]) => format!("? new bench, N = {words}, S = {shared}"),
        ("L", [slot, start, length]) => format!("? load slot {slot}: {length} bytes from {start}"),
        ("O", [slot, length]) => format!("? open a session on slot {slot}, L = {length}"),
        ("A", []) => "? judge the shared words as an archive".to_string(),
        ("G", [farm]) => format!("? where are the records of farm {}", farm % 65_536),
        ("W", [slot, length, first, count]) => format!(
            "? open a session on slot {slot}, L = {length}, that sees {count} shared words from {first}"
        ),
        ("F", [slot, length, farm]) => {
            format!("? open a session on slot {slot}, L = {length}, for farm {}", farm % 65_536)
        }
        ("X", [session]) => format!("? close session {session}"),
        _ => return None,
    })
}

/// An answer; its digests are left out.
fn answer(letter: &str, numbers: &[u64]) -> Option<String> {
    Some(match (letter, numbers) {
        ("y", []) => "= sound".to_string(),
        ("n", []) => "= not sound".to_string(),
        ("r", [refusal, place]) | ("r", [refusal, place, _]) | ("r", [refusal, place, _, _]) => {
            format!("= refused {refusal}, place {place}")
        }
        ("d", [value, _, _]) => format!("= done, {value}"),
        ("d", [value, sp, m, counter, routine, low, k, fault, place, _, _]) => format!(
            "= {value} steps: SP {sp}, M {m}, counter {counter}, routine {routine}, lowest SP {low}, {}",
            kind(*k, *fault, *place)
        ),
        ("a", []) => "= accepted".to_string(),
        ("a", [_]) => "= turned".to_string(),
        ("a", [first, count]) => format!("= {count} words from {first}"),
        ("a", [words, least, d, reloc, pool, start, real, count, _]) => format!(
            "= good: W {words}, {} byte first, D {d}, relocation {reloc}, pool {pool}, real pool {start}, real size {real}, n {count}",
            if *least == 1 { "least" } else { "most" }
        ),
        _ => return None,
    })
}
