//! The machine's turn again in a fast form: one `match` in a loop, the state
//! in locals, ordinary bounds checks.  It is the Rust side of the comparison in
//! speed/ and has to agree with `machine::turn`; what the instructions mean is
//! said there.

use crate::machine::{self, Fault, Kind, Session};
use crate::segment::{Segment, Sex};

/// What the loop needs of a segment that passed checks 1 to 8.
#[derive(Clone, Copy, Debug)]
pub struct Code<'a> {
    /// All 2W bytes.
    pub bytes: &'a [u8],
    /// D, n, pool pointer (0 for none), the real pool's start (W for none, 0
    /// for no pool), G
    pub dictionary: usize,
    pub count: usize,
    pub pool: usize,
    pub real_start: usize,
    pub globals: usize,
    pub most_first: bool,
}

/// SP, M, the counter, the current routine number and the lowest SP reached.
#[derive(Clone, Copy, Debug)]
pub struct Registers {
    pub sp: usize,
    pub m: usize,
    pub counter: usize,
    pub routine: usize,
    pub low: usize,
}

/// How a run ended.
#[derive(Clone, Copy, Debug, PartialEq, Eq)]
pub enum End {
    OutOfSteps,
    Finished,
    Faulted { number: Fault, place: usize },
}

/// The same as `machine::turn`.
pub fn turn(
    segment: &Segment,
    shared: &[u16],
    region: &mut [u16],
    session: &mut Session,
    k: u64,
) -> u64 {
    if k == 0 || session.kind != Kind::Ready {
        return 0;
    }
    if shared.len() > 32_768 || !is_good(segment, region.len() as u64, session) {
        return machine::turn(segment, shared, region, session, k);
    }
    let code = Code {
        bytes: segment.bytes,
        dictionary: segment.dictionary as usize,
        count: segment.routines.len(),
        pool: segment.pool as usize,
        real_start: segment.real_start as usize,
        globals: segment.global_size() as usize,
        most_first: segment.sex == Sex::MostFirst,
    };
    let mut registers = Registers {
        sp: session.sp as usize,
        m: session.m as usize,
        counter: session.counter as usize,
        routine: session.routine as usize,
        low: session.low as usize,
    };
    let (done, end) = run(&code, shared, region, &mut registers, k);
    *session = Session {
        sp: registers.sp as u64,
        m: registers.m as u64,
        counter: registers.counter as u64,
        routine: registers.routine as u64,
        low: registers.low as u64,
        kind: match end {
            End::OutOfSteps => Kind::Ready,
            End::Finished => Kind::Finished,
            End::Faulted { number, place } => Kind::Faulted { number, place: place as u64 },
        },
    };
    done
}

/// What the loop leans on; soundness gives it.  Without it the slow form
/// answers.
fn is_good(segment: &Segment, length: u64, session: &Session) -> bool {
    let floor = 6 + u64::from(segment.global_size());
    (16..=32_768).contains(&length)
        && (floor..=length).contains(&session.sp)
        && (1..=length - 5).contains(&session.m)
        && (22..=segment.bytes.len() as u64).contains(&session.counter)
        && (1..=u64::from(segment.count())).contains(&session.routine)
        && (floor..=session.sp).contains(&session.low)
}

/// Word `number` of the segment, in its own sex.
fn segment_word(code: &Code, number: usize) -> usize {
    let pair = [code.bytes[2 * number], code.bytes[2 * number + 1]];
    usize::from(if code.most_first { u16::from_be_bytes(pair) } else { u16::from_le_bytes(pair) })
}

/// At most k steps of a ready, sound session; the steps done, and how it ended.
/// The registers are those after the last step that went well, so a fault's
/// place is the counter; but for fault 1 it is the byte that was missing.
#[allow(unused_assignments)] // a return reads its operand and then goes elsewhere
pub fn run(
    segment: &Code,
    shared: &[u16],
    region: &mut [u16],
    registers: &mut Registers,
    k: u64,
) -> (u64, End) {
    let code = segment.bytes;
    let length = region.len();
    let floor = 6 + segment.globals;
    let words = code.len() / 2;
    let (pool, real_start) = (segment.pool, segment.real_start);
    let top_link = length - 5;
    let Registers { mut sp, mut m, mut counter, mut routine, mut low } = *registers;
    let mut left = k;

    // `counter` stays on the first byte until the step is known to go well;
    // `next` runs through the operands.
    let end = loop {
        if left == 0 {
            break End::OutOfSteps;
        }
        left -= 1;
        let mut next = counter;

        macro_rules! fault {
            ($number:expr) => {
                break End::Faulted { number: $number, place: counter }
            };
        }
        // 1 "carries [...] the offset of the first byte it could not fetch",
        // which is at hand where the fetch fails: no other step pays for it
        macro_rules! byte {
            () => {
                match code.get(next) {
                    Some(&byte) => {
                        next += 1;
                        byte as usize
                    }
                    None => break End::Faulted { number: machine::OUTSIDE, place: next },
                }
            };
        }
        macro_rules! big {
            () => {{
                let first = byte!();
                if first < 128 {
                    first
                } else {
                    (first - 128) * 256 + byte!()
                }
            }};
        }
        macro_rules! word {
            () => {{
                let first = byte!();
                first + 256 * byte!()
            }};
        }
        // 3
        macro_rules! need {
            ($count:expr) => {
                if length - sp < $count {
                    fault!(3)
                }
            };
        }
        // 6 for an address that must be private
        macro_rules! private {
            ($address:expr) => {{
                let address: usize = $address;
                if address == 0 || address >= length {
                    fault!(6)
                }
                address
            }};
        }
        // 9
        macro_rules! follow {
            ($links:expr) => {{
                let mut record = m;
                let mut good = true;
                for _ in 0..$links {
                    record = region[record] as usize;
                    if record == 0 || record > top_link {
                        good = false;
                        break;
                    }
                }
                if !good {
                    fault!(9)
                }
                record
            }};
        }
        // 4, for one word more
        macro_rules! push {
            ($word:expr) => {{
                let word: u16 = $word;
                if sp <= floor {
                    fault!(4)
                }
                sp -= 1;
                low = low.min(sp);
                region[sp] = word;
            }};
        }
        macro_rules! unary {
            ($f:expr) => {{
                need!(1);
                let f: fn(i16) -> i16 = $f;
                region[sp] = f(region[sp] as i16) as u16;
            }};
        }
        macro_rules! binary {
            ($f:expr) => {{
                need!(2);
                let f: fn(u16, u16) -> u16 = $f;
                region[sp + 1] = f(region[sp + 1], region[sp]);
                sp += 1;
            }};
        }
        macro_rules! jump {
            ($offset:expr) => {{
                let target = next as i64 + i64::from($offset);
                if target < 22 || target >= code.len() as i64 {
                    fault!(7)
                }
                next = target as usize;
            }};
        }
        macro_rules! indexed {
            ($index:expr) => {{
                let index: usize = $index;
                need!(1);
                let base = region[sp] as usize;
                if base == 0 {
                    fault!(6)
                }
                // a window has at most 32,768 words, so a sum above 65,535 names none
                let address = base + index;
                let word = if address < length {
                    region[address]
                } else {
                    match shared.get(address.wrapping_sub(32_768)) {
                        Some(&word) => word,
                        None => fault!(6),
                    }
                };
                region[sp] = word;
            }};
        }
        macro_rules! call {
            ($parent:expr, $number:expr) => {{
                let number: usize = $number;
                if number == 0 || number > segment.count {
                    fault!(8)
                }
                let entry = segment_word(segment, segment.dictionary + number);
                // An unlinked routine needs more words than any region has, so
                // that one branch serves 8 and 4: a second one was measured slower.
                let needed = 5 + segment_word(segment, entry) + (usize::from(entry == 0) << 20);
                if sp < floor + needed {
                    fault!(if entry == 0 { 8 } else { 4 })
                }
                sp -= needed;
                low = low.min(sp);
                region[sp] = $parent as u16;
                region[sp + 1] = m as u16;
                region[sp + 2] = next as u16;
                region[sp + 3] = 1;
                region[sp + 4] = routine as u16;
                m = sp;
                next = 2 * (entry + 1);
                routine = number;
            }};
        }

        let first = byte!();
        match first {
            0..=31 => push!(first as u16),
            32..=47 => {
                let address = private!(m + first - 27);
                push!(region[address])
            }
            48..=63 => {
                let address = private!(first - 42);
                push!(region[address])
            }
            96..=103 => {
                let address = private!(m + first - 91);
                push!(address as u16)
            }
            104..=111 => {
                need!(1);
                let address = private!(m + first - 99);
                region[address] = region[sp];
                sp += 1;
            }
            120..=127 => indexed!(first - 120),
            128 => {
                let value = byte!();
                push!(value as u16)
            }
            129 => {
                let value = word!();
                push!(value as u16)
            }
            130 => {
                let offset = pool + big!();
                if pool == 0 || offset >= words {
                    fault!(6)
                }
                push!(offset as u16)
            }
            131 => {
                let mode = byte!();
                let from = pool + big!();
                let count = byte!();
                let end = from + count;
                if pool == 0 || (end > real_start && count > 0) {
                    fault!(6)
                }
                if sp < floor + count {
                    fault!(4)
                }
                // none for a count of 0, whose offset may lie anywhere
                let block = code.get(2 * from..2 * end).unwrap_or(&[]);
                let swapped = mode == 2 && segment.most_first;
                for pair in block.chunks_exact(2) {
                    let word = u16::from_le_bytes([pair[0], pair[1]]);
                    sp -= 1;
                    region[sp] = if swapped { word.swap_bytes() } else { word };
                }
                low = low.min(sp);
            }
            132 => {
                let address = private!(m + 4 + big!());
                push!(address as u16)
            }
            133 => {
                let address = private!(5 + big!());
                push!(region[address])
            }
            134 => {
                let address = private!(5 + big!());
                push!(address as u16)
            }
            135 => {
                let address = private!(m + 4 + big!());
                push!(region[address])
            }
            136 | 137 => {
                let links = byte!();
                let offset = big!();
                if links > 127 {
                    fault!(2)
                }
                let address = private!(follow!(links) + 4 + offset);
                push!(if first == 136 { address as u16 } else { region[address] })
            }
            138 => {
                let offset = byte!() as u8 as i8;
                jump!(offset)
            }
            139 => {
                let offset = word!() as u16 as i16;
                jump!(offset)
            }
            140 => binary!(|a, b| a.wrapping_mul(b)),
            141 => {
                need!(2);
                if region[sp] == 0 {
                    fault!(5)
                }
                binary!(|a, b| (a as i16).wrapping_div(b as i16) as u16)
            }
            143 => {
                need!(2);
                if region[sp] == 0 {
                    fault!(5)
                }
                binary!(|a, b| (a as i16).wrapping_rem(b as i16) as u16)
            }
            144 => {
                let number = byte!();
                call!(m, number)
            }
            145 => {
                let number = byte!();
                call!(1, number)
            }
            146 => {
                let links = byte!();
                let number = byte!();
                if links > 127 {
                    fault!(2)
                }
                let parent = follow!(links);
                call!(parent, number)
            }
            150 => {
                let dropped = big!();
                if m == 1 {
                    break End::Finished;
                }
                let dynamic = region[m + 1] as usize;
                let back = region[m + 2] as usize;
                let caller = region[m + 4] as usize;
                let new_sp = m + 5 + dropped;
                if dynamic == 0
                    || dynamic > top_link
                    || caller == 0
                    || caller > segment.count
                    || region[m + 3] != 1
                    || back < 22
                    || back > code.len()
                    || new_sp < floor
                    || new_sp > length
                {
                    fault!(9)
                }
                m = dynamic;
                routine = caller;
                next = back;
                sp = new_sp;
                // lower only where the record pointer or its mark was forged
                low = low.min(sp);
            }
            152 => push!(0),
            156 => {}
            160 => binary!(|a, b| a | b),
            161 => binary!(|a, b| a & b),
            162 => binary!(|a, b| a.wrapping_add(b)),
            163 => binary!(|a, b| a.wrapping_sub(b)),
            164 => {
                let offset = big!();
                need!(1);
                let address = private!(m + 4 + offset);
                region[address] = region[sp];
                sp += 1;
            }
            165 => {
                let offset = big!();
                need!(1);
                let address = private!(5 + offset);
                region[address] = region[sp];
                sp += 1;
            }
            166 => {
                let links = byte!();
                let offset = big!();
                if links > 127 {
                    fault!(2)
                }
                need!(1);
                let address = private!(follow!(links) + 4 + offset);
                region[address] = region[sp];
                sp += 1;
            }
            173 | 174 => {
                let offset = big!();
                let address = private!(follow!(first - 172) + 4 + offset);
                push!(region[address])
            }
            176 => binary!(|a, b| u16::from(a == b)),
            177 => binary!(|a, b| u16::from(a != b)),
            178 => binary!(|a, b| u16::from(a as i16 <= b as i16)),
            179 => binary!(|a, b| u16::from(a as i16 >= b as i16)),
            180 => binary!(|a, b| u16::from(a <= b)),
            181 => binary!(|a, b| u16::from(a >= b)),
            189 => {
                need!(2);
                region.swap(sp, sp + 1);
            }
            196 => {
                need!(2);
                let address = private!(region[sp + 1] as usize);
                region[address] = region[sp];
                sp += 2;
            }
            203 => {
                need!(3);
                let value = region[sp + 2] as i16;
                if value < region[sp + 1] as i16 || value > region[sp] as i16 {
                    fault!(10)
                }
                sp += 2;
            }
            212 => {
                let offset = byte!() as u8 as i8;
                need!(1);
                if region[sp] & 1 == 0 {
                    jump!(offset)
                }
                sp += 1;
            }
            213 => {
                let offset = word!() as u16 as i16;
                need!(1);
                if region[sp] & 1 == 0 {
                    jump!(offset)
                }
                sp += 1;
            }
            214 => {
                let table = pool + big!();
                need!(1);
                // with no pool no word lies below its end
                if table + 2 > real_start {
                    fault!(6)
                }
                let index = region[sp] as i16;
                let least = segment_word(segment, table) as i16;
                if least <= index && index <= segment_word(segment, table + 1) as i16 {
                    let at = table + 2 + (i32::from(index) - i32::from(least)) as usize;
                    if at >= real_start {
                        fault!(6)
                    }
                    let offset = segment_word(segment, at) as i16;
                    jump!(offset)
                }
                sp += 1;
            }
            224 => unary!(|a| a.wrapping_abs()),
            225 => unary!(|a| a.wrapping_neg()),
            226 => {
                need!(1);
                push!(region[sp])
            }
            229 => unary!(|a| !a),
            230 => {
                let index = big!();
                indexed!(index)
            }
            237 => unary!(|a| a.wrapping_add(1)),
            238 => unary!(|a| a.wrapping_sub(1)),
            239 | 240 => {
                let number = byte!();
                let parent = follow!(first - 238);
                call!(parent, number)
            }
            241 => {
                let offset = byte!() as u8 as i8;
                need!(1);
                if region[sp] & 1 == 1 {
                    jump!(offset)
                }
                sp += 1;
            }
            _ => fault!(2),
        }
        counter = next;
    };

    *registers = Registers { sp, m, counter, routine, low };
    (k - left, end)
}
