//! The segment: judging, header numbers, routines, operands, word positions
//! and turning.

use std::collections::BTreeSet;

/// "A refusal returns its number and a place (the routine number for 6 to 8,
/// else 0)."
#[derive(Clone, Copy, Debug, PartialEq, Eq)]
pub struct Refusal {
    pub number: u32,
    pub place: u32,
}

/// A refusal whose place is 0 (every number but 6 to 8).
pub fn refusal(number: u32) -> Refusal {
    Refusal { number, place: 0 }
}

/// "The sex word's bytes are 01 00 (least byte first) or 00 01 (most first)."
#[derive(Clone, Copy, Debug, PartialEq, Eq)]
pub enum Sex {
    LeastFirst,
    MostFirst,
}

/// "Entry e is the word number of DATASIZE; EXITIC is word e-1; the first
/// instruction is byte 2(e+1)."
#[derive(Clone, Copy, Debug, PartialEq, Eq)]
pub struct Routine {
    pub entry: u32,
    pub data_size: u32,
    pub exit_ic: u32,
    pub start: u32,
}

impl Routine {
    /// Request 1 of 02: "declared but unlinked external routines [...] such an
    /// entry is zero".  Request 14: "A zero entry counts as start, DATASIZE and
    /// EXITIC 0."
    pub const UNLINKED: Routine = Routine { entry: 0, data_size: 0, exit_ic: 0, start: 0 };

    /// Whether there is code to call.
    pub fn is_linked(&self) -> bool {
        self.entry != 0
    }
}

/// A segment that passed checks 1 to 8, with the numbers read from it.
#[derive(Clone, Debug, PartialEq, Eq)]
pub struct Segment<'a> {
    /// All 2W bytes.
    pub bytes: &'a [u8],
    /// W
    pub words: u32,
    pub sex: Sex,
    /// D
    pub dictionary: u32,
    pub relocation: u32,
    pub name: [u8; 8],
    /// Pool pointer, 0 for no pool.
    pub pool: u32,
    /// Where the real pool starts: W if it has none, 0 if there is no pool.
    pub real_start: u32,
    pub real_size: u32,
    pub reserved: [u32; 2],
    /// Routine k is `routines[k - 1]`; there are n of them.
    pub routines: Vec<Routine>,
}

impl<'a> Segment<'a> {
    // "words 0 to 10 are: routine dictionary pointer, relocation pointer,
    // eight name characters (words 2 to 5), byte sex, constant pool pointer,
    // real size, two reserved."
    pub const DICTIONARY_WORD: u32 = 0;
    pub const RELOCATION_WORD: u32 = 1;
    pub const NAME_BYTE: usize = 4;
    pub const SEX_BYTE: usize = 12;
    pub const POOL_WORD: u32 = 7;
    pub const REAL_SIZE_WORD: u32 = 8;
    pub const RESERVED_WORD: u32 = 9;
    /// The first byte after the header: "an instruction byte outside 22..2W-1".
    pub const FIRST_CODE_BYTE: u32 = 22;

    /// Refusals 1 to 8.  "Checks 1 to 5 come first, then 6, 7, 8 for routine
    /// 1, then routine 2, and so on."
    pub fn judge(bytes: &'a [u8]) -> Result<Segment<'a>, Refusal> {
        let words = check_1_length(bytes)?;
        let sex = check_2_sex(bytes)?;
        let word = |number: u32| word_at(bytes, sex, number);

        let relocation = word(Self::RELOCATION_WORD);
        // "relocation pointer not 0"
        if relocation != 0 {
            return Err(refusal(3));
        }
        let pool = word(Self::POOL_WORD);
        let real_start = check_4_pool(bytes, sex, words, pool)?;
        let dictionary = word(Self::DICTIONARY_WORD);
        let count = check_5_dictionary(bytes, sex, words, dictionary)?;

        let mut routines = Vec::new();
        for number in 1..=count {
            // "word D+k the entry of routine k"
            let entry = word(dictionary + number);
            routines.push(check_6_to_8_routine(bytes, sex, words, number, entry)?);
        }

        let mut name = [0; 8];
        for (to, from) in name.iter_mut().zip(bytes.iter().skip(Self::NAME_BYTE)) {
            *to = *from;
        }
        Ok(Segment {
            bytes,
            words,
            sex,
            dictionary,
            relocation,
            name,
            pool,
            real_start,
            real_size: word(Self::REAL_SIZE_WORD),
            reserved: [word(Self::RESERVED_WORD), word(Self::RESERVED_WORD + 1)],
            routines,
        })
    }

    /// n, "word D is the count n".
    pub fn count(&self) -> u32 {
        self.routines.len() as u32
    }

    /// Routine k, for k in 1..n.
    pub fn routine(&self, number: u64) -> Option<Routine> {
        let index = usize::try_from(number).ok()?.checked_sub(1)?;
        self.routines.get(index).copied()
    }

    /// The two bytes of the pool's word at an offset, as they lie.  Request 2
    /// of 02: "With no pool, or where a word to be read lies at W or above or
    /// from the real pool's start on, fault 6"; `None` is that fault.
    pub fn pool_bytes(&self, offset: i64) -> Option<[u8; 2]> {
        let number = i64::from(self.pool) + offset;
        // With no pool `real_start` is 0, so that no word is readable.
        if number >= i64::from(self.real_start) {
            return None;
        }
        let at = usize::try_from(2 * number).ok()?;
        self.bytes.get(at..at + 2)?.try_into().ok()
    }

    /// The same as a signed word "in the segment's own sex".  000 of the case
    /// table: "If the byte sex of the segment is opposite to the host, any of
    /// these words must be byte-swapped before they are used."
    pub fn pool_word(&self, offset: i64) -> Option<i16> {
        let pair = self.pool_bytes(offset)?;
        Some(match self.sex {
            Sex::LeastFirst => i16::from_le_bytes(pair),
            Sex::MostFirst => i16::from_be_bytes(pair),
        })
    }

    /// "G is DATASIZE of its routine 1."  (n is at least 1 after check 5.)
    pub fn global_size(&self) -> u32 {
        self.routine(1).map_or(0, |routine| routine.data_size)
    }

    /// "Word positions are 0, 1, 6 to 10, D to D+n, and e-1 and e of every
    /// routine."  Request 1 of an unlinked one: "it has no word positions".  A
    /// set, so that a position named by two rules is there once.
    pub fn word_positions(&self) -> BTreeSet<u32> {
        let mut positions = BTreeSet::from([0, 1, 6, 7, 8, 9, 10]);
        positions.extend(self.dictionary..=self.dictionary + self.count());
        for routine in self.routines.iter().filter(|routine| routine.is_linked()) {
            positions.insert(routine.entry - 1);
            positions.insert(routine.entry);
        }
        positions
    }
}

/// "segment length odd, or W outside 16..32,767"
fn check_1_length(bytes: &[u8]) -> Result<u32, Refusal> {
    let words = bytes.len() / 2;
    if bytes.len() % 2 != 0 || !(16..=32_767).contains(&words) {
        return Err(refusal(1));
    }
    Ok(words as u32)
}

/// "sex bytes neither 01 00 nor 00 01"
fn check_2_sex(bytes: &[u8]) -> Result<Sex, Refusal> {
    match bytes.get(Segment::SEX_BYTE..Segment::SEX_BYTE + 2) {
        Some([1, 0]) => Ok(Sex::LeastFirst),
        Some([0, 1]) => Ok(Sex::MostFirst),
        _ => Err(refusal(2)),
    }
}

/// "pool pointer neither 0 nor 11..W-1"; request 2 of 02: "The pool's first word
/// must be 0 or point inside the pool (which ends at W), else refusal 4".  000:
/// it is "a word pointer relative to the start of the constant pool; if there
/// are no real constants in the code segment, this word must be 0."  Gives the
/// real pool's start.
fn check_4_pool(bytes: &[u8], sex: Sex, words: u32, pool: u32) -> Result<u32, Refusal> {
    if pool == 0 {
        return Ok(0);
    }
    if !(11..words).contains(&pool) {
        return Err(refusal(4));
    }
    match word_at(bytes, sex, pool) {
        0 => Ok(words),
        first if pool + first < words => Ok(pool + first),
        _ => Err(refusal(4)),
    }
}

/// "D outside 11..W-1, n outside 1..255, or D+n at or above W"; gives n.
fn check_5_dictionary(
    bytes: &[u8],
    sex: Sex,
    words: u32,
    dictionary: u32,
) -> Result<u32, Refusal> {
    if !(11..words).contains(&dictionary) {
        return Err(refusal(5));
    }
    let count = word_at(bytes, sex, dictionary);
    if !(1..=255).contains(&count) || dictionary + count >= words {
        return Err(refusal(5));
    }
    Ok(count)
}

/// 6 "an entry outside 12..W-2", 7 "DATASIZE 32,768 or more", 8 "EXITIC outside
/// 22..2W-1", with the routine number as the place.  Where 01 goes on "zero
/// included", request 1 has it otherwise: "An entry of zero is lawful for every
/// routine but routine 1; it has [...] no checks 6 to 8. [...] Routine 1 at zero
/// still gets 6."
fn check_6_to_8_routine(
    bytes: &[u8],
    sex: Sex,
    words: u32,
    number: u32,
    entry: u32,
) -> Result<Routine, Refusal> {
    let refused = |refusal_number| Refusal { number: refusal_number, place: number };
    if entry == 0 && number != 1 {
        return Ok(Routine::UNLINKED);
    }
    if !(12..=words - 2).contains(&entry) {
        return Err(refused(6));
    }
    let data_size = word_at(bytes, sex, entry);
    if data_size >= 32_768 {
        return Err(refused(7));
    }
    let exit_ic = word_at(bytes, sex, entry - 1);
    if !(22..2 * words).contains(&exit_ic) {
        return Err(refused(8));
    }
    Ok(Routine { entry, data_size, exit_ic, start: 2 * (entry + 1) })
}

/// The word with a word number, in the segment's sex.  Asked for only inside
/// the segment; 0 elsewhere makes the function total.
fn word_at(bytes: &[u8], sex: Sex, number: u32) -> u32 {
    let at = 2 * number as usize;
    match (sex, bytes.get(at..at + 2)) {
        (Sex::LeastFirst, Some(&[low, high])) => u32::from(u16::from_le_bytes([low, high])),
        (Sex::MostFirst, Some(&[high, low])) => u32::from(u16::from_be_bytes([high, low])),
        _ => 0,
    }
}

/// "Turning a segment swaps the two bytes at each word position once, even if
/// two rules name it, and copies every other byte."  Refusals 1 to 10 in that
/// order; "turning writes the first 2W output bytes and no others", and on a
/// refusal "output [is] then unchanged".
pub fn turn_over(bytes: &[u8], output: &mut [u8]) -> Result<(), Refusal> {
    let segment = Segment::judge(bytes)?;
    // "turning: pool pointer not 0"
    if segment.pool != 0 {
        return Err(refusal(9));
    }
    // "turning: output shorter than the segment"
    let Some(output) = output.get_mut(..bytes.len()) else {
        return Err(refusal(10));
    };
    output.copy_from_slice(bytes);
    for position in segment.word_positions() {
        let at = 2 * position as usize;
        if let Some([first, second]) = output.get_mut(at..at + 2) {
            std::mem::swap(first, second);
        }
    }
    Ok(())
}

/// Request 8 of 02: "The operand reader shall report the offset of the first
/// byte it could not fetch".
#[derive(Clone, Copy, Debug, PartialEq, Eq)]
pub struct Missing(pub u64);

/// "The reader is a bounded view of one segment with a reading place, so that
/// no caller adds offsets by hand."  `Missing` from any of its functions means
/// "an instruction byte outside 22..2W-1", which is fault 1; the reading place
/// then is that byte's.
#[derive(Clone, Copy, Debug, PartialEq, Eq)]
pub struct Reader<'a> {
    pub bytes: &'a [u8],
    pub place: u64,
}

impl<'a> Reader<'a> {
    pub fn at(segment: &Segment<'a>, place: u64) -> Reader<'a> {
        Reader { bytes: segment.bytes, place }
    }

    /// One byte of 22..2W-1, and on to the next.
    pub fn byte(&mut self) -> Result<u8, Missing> {
        let missing = Missing(self.place);
        if self.place < u64::from(Segment::FIRST_CODE_BYTE) {
            return Err(missing);
        }
        let at = usize::try_from(self.place).map_err(|_| missing)?;
        let byte = *self.bytes.get(at).ok_or(missing)?;
        self.place += 1;
        Ok(byte)
    }

    /// 000: "UB: Represents a positive integer in the range 0 through 255."
    pub fn ub(&mut self) -> Result<u32, Missing> {
        self.byte().map(u32::from)
    }

    /// 000: "SB: Represents a two's complement 8-bit integer in the range -128
    /// through 127."
    pub fn sb(&mut self) -> Result<i32, Missing> {
        self.byte().map(|byte| i32::from(byte as i8))
    }

    /// 000: "DB: Represents a positive integer in the range 0 through 127."
    /// Here the byte as it stands, 0 to 255: "All operands are fetched before
    /// a DB is judged."
    pub fn db(&mut self) -> Result<u32, Missing> {
        self.byte().map(u32::from)
    }

    /// 000: "B: If bit 7 of the first byte is 0, the remaining 7 bits
    /// represent a positive integer in the range 0 through 127.  If bit 7 of
    /// the first byte is 1, then bit 7 should be cleared; the first byte is
    /// the high-order byte of a 16-bit word, and the following byte is the
    /// low-order byte of that word."
    pub fn b(&mut self) -> Result<u32, Missing> {
        let first = self.byte()?;
        if first < 128 {
            return Ok(u32::from(first));
        }
        let low = self.byte()?;
        Ok(u32::from(u16::from_be_bytes([first - 128, low])))
    }

    /// 000: "W: a 16-bit two's complement value [...].  The word is always
    /// least-significant-byte-first."  01: "Instruction operands are never
    /// swapped".
    pub fn w(&mut self) -> Result<i32, Missing> {
        let low = self.byte()?;
        let high = self.byte()?;
        Ok(i32::from(i16::from_le_bytes([low, high])))
    }
}
