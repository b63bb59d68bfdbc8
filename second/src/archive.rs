//! The archive of request 7 of 02, a layer above the bench: "The shared words
//! become an archive of records of four words each: farm, pond, day,
//! concentration."  It is judged, a farm's records are found in it, and a session
//! is opened that sees them only.

use crate::bench::{self, Bench, Window};
use crate::segment::{refusal, Refusal};

/// Words of a record of the archive; the first is the farm's number.
pub const RECORD_WORDS: usize = 4;

/// "It is accepted exactly if S is a multiple of 4 and farm numbers never fall
/// from one record to the next".
pub fn is_accepted(shared: &[u16]) -> bool {
    let farms = farms(shared);
    let never_fall = farms.iter().zip(farms.iter().skip(1)).all(|(one, next)| one <= next);
    shared.len() % RECORD_WORDS == 0 && never_fall
}

/// The farm number of each whole record.
fn farms(shared: &[u16]) -> Vec<u16> {
    shared.chunks_exact(RECORD_WORDS).filter_map(|record| record.first().copied()).collect()
}

/// "else refusal 23, after 11."  Gives the S words.
pub fn judge<'a>(bench: &Bench, memory: &'a [u16], store: &[u8]) -> Result<&'a [u16], Refusal> {
    bench::check_11(bench, memory, store)?;
    // a sound bench has its S words in memory
    let shared = memory.get(..bench.shared as usize).ok_or(refusal(11))?;
    if is_accepted(shared) { Ok(shared) } else { Err(refusal(23)) }
}

/// "Given a farm, the crate finds its records as one range, empty at word 0 if
/// there are none".
pub fn range(bench: &Bench, memory: &[u16], store: &[u8], farm: u16) -> Result<Window, Refusal> {
    let farms = farms(judge(bench, memory, store)?);
    let records = farms.iter().filter(|number| **number == farm).count();
    let before = farms.iter().position(|number| *number == farm).unwrap_or(0);
    let words = |records: usize| (RECORD_WORDS * records) as u64;
    Ok(Window { first: words(before), count: words(records) })
}

/// "and opens a session that sees only that range, at 32,768 onward."  Gives the
/// session number.
pub fn open_for(
    bench: &mut Bench,
    memory: &mut [u16],
    store: &[u8],
    slot: u64,
    length: u64,
    farm: u16,
) -> Result<u64, Refusal> {
    let window = range(bench, memory, store, farm)?;
    bench::open_on(bench, memory, store, slot, length, window)
}
