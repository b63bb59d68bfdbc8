//! One step and one turn of a session on its own region, its code and the
//! shared words.  A step is first worked out whole (`transition`, which
//! changes nothing) and then put in force, so that a fault leaves all as it
//! was: "Only the session's kind changes."

use crate::segment::{Missing, Reader, Routine, Segment, Sex};

/// "The three kinds of session are ready, finished and faulted (with fault
/// number and place)."
#[derive(Clone, Copy, Debug, PartialEq, Eq)]
pub enum Kind {
    Ready,
    Finished,
    Faulted { number: Fault, place: u64 },
}

/// "A session's registers are SP, M, the counter and the current routine
/// number."  Request 3 of 02: "The session record shall keep the lowest stack
/// pointer reached since opening".  Any numbers at all until soundness has
/// judged them.
#[derive(Clone, Copy, Debug, PartialEq, Eq)]
pub struct Session {
    pub sp: u64,
    pub m: u64,
    pub counter: u64,
    pub routine: u64,
    /// The lowest SP reached since opening.
    pub low: u64,
    pub kind: Kind,
}

/// A fault number, 1 to 10.
pub type Fault = u8;

/// "1 an instruction byte outside 22..2W-1"
pub const OUTSIDE: Fault = 1;
/// "2 not carried"
pub const NOT_CARRIED: Fault = 2;
/// "3 too few words on the stack"
pub const TOO_FEW_WORDS: Fault = 3;
/// "4 SP after the step would lie below 6+G"
pub const STACK_FULL: Fault = 4;
/// "5 zero divisor"
pub const ZERO_DIVISOR: Fault = 5;
/// "6 bad address"
pub const BAD_ADDRESS: Fault = 6;
/// "7 jump target outside 22..2W-1"
pub const BAD_TARGET: Fault = 7;
/// "8 routine number outside 1..n"; request 1 of 02, of an unlinked routine:
/// "Calling it gives fault 8."
pub const BAD_ROUTINE: Fault = 8;
/// "9 bad static link or mark"
pub const BAD_LINK_OR_MARK: Fault = 9;
/// "10 subrange check failed"
pub const BAD_SUBRANGE: Fault = 10;

/// A fault and its place.
#[derive(Clone, Copy, Debug, PartialEq, Eq)]
pub struct Faulting {
    pub number: Fault,
    pub place: u64,
}

/// Request 8 of 02: "The operand reader shall report the offset of the first
/// byte it could not fetch, and fault 1 carries that as its place."
impl From<Missing> for Faulting {
    fn from(Missing(place): Missing) -> Faulting {
        Faulting { number: OUTSIDE, place }
    }
}

/// "Starting state: SP = L, record pointer M = 1, counter 2(e+1)", and
/// opening "starts routine 1".  Request 3 of 02: "L at the start".
pub fn starting_state(segment: &Segment, length: u64) -> Session {
    Session {
        sp: length,
        m: 1,
        counter: segment.routine(1).map_or(0, |routine| u64::from(routine.start)),
        routine: 1,
        low: length,
        kind: Kind::Ready,
    }
}

/// The operand form of an instruction, "UB, SB, DB, B, W as in 000".
#[derive(Clone, Copy, Debug, PartialEq, Eq)]
pub enum Form {
    Nothing,
    Ub,
    Sb,
    B,
    W,
    DbB,
    DbUb,
    /// The mode, the offset and the count of LDC.
    UbBUb,
}

/// What the carried instructions do, short and long forms together.
#[derive(Clone, Copy, Debug, PartialEq, Eq)]
pub enum Op {
    PushValue,
    PushPoolOffset,
    PushPoolWords,
    LoadLocal,
    AddressLocal,
    StoreLocal,
    LoadGlobal,
    AddressGlobal,
    StoreGlobal,
    LoadIntermediate,
    AddressIntermediate,
    StoreIntermediate,
    LoadIndexed,
    StoreIndirect,
    Add,
    Subtract,
    Multiply,
    Divide,
    Modulo,
    Negate,
    Absolute,
    Increment,
    Decrement,
    Equal,
    NotEqual,
    LessOrEqual,
    GreaterOrEqual,
    LessOrEqualUnsigned,
    GreaterOrEqualUnsigned,
    And,
    Or,
    Not,
    Duplicate,
    Swap,
    NoOperation,
    CheckSubrange,
    Jump,
    FalseJump,
    TrueJump,
    CaseJump,
    CallLocal,
    CallGlobal,
    CallIntermediate,
    Return,
}

/// One row of the table of first bytes.
#[derive(Clone, Copy, Debug, PartialEq, Eq)]
pub struct Instruction {
    pub name: &'static str,
    pub op: Op,
    pub form: Form,
    pub taken: u32,
    pub given: u32,
    /// The number a short form carries in its first byte (x of SLDLx), else 0.
    pub value: i64,
    /// The static links a short form stands for (1 of SLOD1), else 0.
    pub links: u32,
}

/// "Every one of the 256 first bytes has its operand form, words taken and
/// words given in one table (marked if not carried; calls and returns take
/// and give 0)."  `None` is the mark.  Numbers are appendix B's.  What LDC gives
/// its operand says, so that here it gives 0 too.
pub fn instruction(first: u8) -> Option<Instruction> {
    use Form::*;
    use Op::*;
    let row = |name, op, form, taken, given| Instruction {
        name,
        op,
        form,
        taken,
        given,
        value: 0,
        links: 0,
    };
    // A short form: the number its first byte stands for.
    let short = |name, op, taken, given, value: u8| Instruction {
        value: i64::from(value),
        ..row(name, op, Nothing, taken, given)
    };
    let links = |links, instruction| Instruction { links, ..instruction };

    Some(match first {
        0..=31 => short("SLDC", PushValue, 0, 1, first),
        32..=47 => short("SLDL", LoadLocal, 0, 1, first - 31),
        48..=63 => short("SLDO", LoadGlobal, 0, 1, first - 47),
        96..=103 => short("SLLA", AddressLocal, 0, 1, first - 95),
        104..=111 => short("SSTL", StoreLocal, 1, 0, first - 103),
        120..=127 => short("SIND", LoadIndexed, 1, 1, first - 120),
        128 => row("LDCB", PushValue, Ub, 0, 1),
        129 => row("LDCI", PushValue, W, 0, 1),
        130 => row("LCO", PushPoolOffset, B, 0, 1),
        131 => row("LDC", PushPoolWords, UbBUb, 0, 0),
        132 => row("LLA", AddressLocal, B, 0, 1),
        133 => row("LDO", LoadGlobal, B, 0, 1),
        134 => row("LAO", AddressGlobal, B, 0, 1),
        135 => row("LDL", LoadLocal, B, 0, 1),
        136 => row("LDA", AddressIntermediate, DbB, 0, 1),
        137 => row("LOD", LoadIntermediate, DbB, 0, 1),
        138 => row("UJP", Jump, Sb, 0, 0),
        139 => row("JPL", Jump, W, 0, 0),
        140 => row("MPI", Multiply, Nothing, 2, 1),
        141 => row("DVI", Divide, Nothing, 2, 1),
        143 => row("MODI", Modulo, Nothing, 2, 1),
        144 => row("CPL", CallLocal, Ub, 0, 0),
        145 => row("CPG", CallGlobal, Ub, 0, 0),
        146 => row("CPI", CallIntermediate, DbUb, 0, 0),
        150 => row("RPU", Return, B, 0, 0),
        // "0 is NIL."
        152 => short("LDCN", PushValue, 0, 1, 0),
        156 => row("NOP", NoOperation, Nothing, 0, 0),
        160 => row("LOR", Or, Nothing, 2, 1),
        161 => row("LAND", And, Nothing, 2, 1),
        162 => row("ADI", Add, Nothing, 2, 1),
        163 => row("SBI", Subtract, Nothing, 2, 1),
        164 => row("STL", StoreLocal, B, 1, 0),
        165 => row("SRO", StoreGlobal, B, 1, 0),
        166 => row("STR", StoreIntermediate, DbB, 1, 0),
        173 => links(1, row("SLOD1", LoadIntermediate, B, 0, 1)),
        174 => links(2, row("SLOD2", LoadIntermediate, B, 0, 1)),
        176 => row("EQUI", Equal, Nothing, 2, 1),
        177 => row("NEQI", NotEqual, Nothing, 2, 1),
        178 => row("LEQI", LessOrEqual, Nothing, 2, 1),
        179 => row("GEQI", GreaterOrEqual, Nothing, 2, 1),
        180 => row("LEUSW", LessOrEqualUnsigned, Nothing, 2, 1),
        181 => row("GEUSW", GreaterOrEqualUnsigned, Nothing, 2, 1),
        189 => row("SWAP", Swap, Nothing, 2, 2),
        196 => row("STO", StoreIndirect, Nothing, 2, 0),
        203 => row("CHK", CheckSubrange, Nothing, 3, 1),
        212 => row("FJP", FalseJump, Sb, 1, 0),
        213 => row("FJPL", FalseJump, W, 1, 0),
        214 => row("XJP", CaseJump, B, 1, 0),
        224 => row("ABI", Absolute, Nothing, 1, 1),
        225 => row("NGI", Negate, Nothing, 1, 1),
        226 => row("DUP1", Duplicate, Nothing, 1, 2),
        229 => row("LNOT", Not, Nothing, 1, 1),
        230 => row("IND", LoadIndexed, B, 1, 1),
        237 => row("INCI", Increment, Nothing, 1, 1),
        238 => row("DECI", Decrement, Nothing, 1, 1),
        239 => links(1, row("SCPI1", CallIntermediate, Ub, 0, 0)),
        240 => links(2, row("SCPI2", CallIntermediate, Ub, 0, 0)),
        241 => row("TJP", TrueJump, Sb, 1, 0),
        // "No other byte is carried: no comparing jump, no Boolean NOT."
        _ => return None,
    })
}

/// An instruction with its operands, and the byte after it.
#[derive(Clone, Copy, Debug, PartialEq, Eq)]
pub struct Decoded {
    pub instruction: Instruction,
    /// DB, or the links of a short form.
    pub links: u32,
    /// UB, SB, B or W, or the number of a short form.
    pub value: i64,
    /// 000's UB_1 and UB_2 of LDC: the mode, and how many words; else 0.
    pub mode: u32,
    pub count: u32,
    /// "the byte after the instruction"
    pub next: u64,
}

/// The operands of an instruction, as in `Decoded`.
struct Operands {
    links: u32,
    value: i64,
    mode: u32,
    count: u32,
}

/// "The first byte is judged for 1 and 2 before its operands are fetched. All
/// operands are fetched before a DB is judged."  "A DB byte above 127 faults
/// with 2."  Request 8 of 02 moves the place of 1 alone: "A first byte out of
/// range gives the same place as before. All other faults keep theirs."
pub fn decode(segment: &Segment, counter: u64) -> Result<Decoded, Faulting> {
    let not_carried = Faulting { number: NOT_CARRIED, place: counter };
    let mut reader = Reader::at(segment, counter);
    let first = reader.byte()?;
    let instruction = instruction(first).ok_or(not_carried)?;
    let Operands { links, value, mode, count } = operands(&mut reader, &instruction)?;
    if links > 127 {
        return Err(not_carried);
    }
    Ok(Decoded { instruction, links, value, mode, count, next: reader.place })
}

/// The operands in the order of 000's entries.
fn operands(reader: &mut Reader, instruction: &Instruction) -> Result<Operands, Missing> {
    let (mut links, mut mode, mut count) = (instruction.links, 0, 0);
    let value = match instruction.form {
        Form::Nothing => instruction.value,
        Form::Ub => i64::from(reader.ub()?),
        Form::Sb => i64::from(reader.sb()?),
        Form::B => i64::from(reader.b()?),
        Form::W => i64::from(reader.w()?),
        Form::DbB => {
            links = reader.db()?;
            i64::from(reader.b()?)
        }
        Form::DbUb => {
            links = reader.db()?;
            i64::from(reader.ub()?)
        }
        Form::UbBUb => {
            mode = reader.ub()?;
            let offset = reader.b()?;
            count = reader.ub()?;
            i64::from(offset)
        }
    };
    Ok(Operands { links, value, mode, count })
}

/// What a step that does not fault does.
#[derive(Clone, Debug, PartialEq, Eq)]
pub enum Transition {
    /// "With M = 1 the session finishes, and all registers and memory stay".
    Finish,
    Go(Change),
}

/// The registers after the step and the words of the region it writes.
#[derive(Clone, Debug, PartialEq, Eq)]
pub struct Change {
    /// May be negative until it is judged for 4.
    pub sp: i64,
    pub m: u64,
    pub counter: u64,
    pub routine: u64,
    pub writes: Vec<(u64, u16)>,
}

/// What a step looks at; nothing here is changed.
#[derive(Clone, Copy, Debug)]
pub struct View<'a> {
    pub segment: &'a Segment<'a>,
    pub shared: &'a [u16],
    pub region: &'a [u16],
    pub session: Session,
}

/// A register to reckon with.  A sound one is far below the limit.
fn reckon(register: u64) -> i64 {
    i64::try_from(register).unwrap_or(i64::MAX / 2).min(i64::MAX / 2)
}

impl View<'_> {
    /// L
    fn length(&self) -> i64 {
        self.region.len() as i64
    }

    /// The lowest SP allowed, 6+G.
    fn floor(&self) -> i64 {
        6 + i64::from(self.segment.global_size())
    }

    /// A word of the region by its private address.
    fn private(&self, address: i64) -> u16 {
        usize::try_from(address).ok().and_then(|at| self.region.get(at)).copied().unwrap_or(0)
    }

    /// "Read from SP upward it is a list, top first": word 0 is TOS.
    fn stack(&self, index: u32) -> u16 {
        self.private(reckon(self.session.sp) + i64::from(index))
    }

    /// TOS and below as 16-bit two's complement integers.
    fn int(&self, index: u32) -> i16 {
        self.stack(index) as i16
    }

    /// "A session address is one word. 0 is NIL. 1..L-1 is a private word of
    /// its region; 32,768+i is shared word i, for i below S, and can only be
    /// read. All else faults."  Request 7 of 02: "Document 01's address rule
    /// reads with the window"; the shared words here are those of the window.
    fn read(&self, address: i64) -> Result<u16, Fault> {
        if (1..self.length()).contains(&address) {
            return Ok(self.private(address));
        }
        usize::try_from(address - 32_768)
            .ok()
            .and_then(|index| self.shared.get(index))
            .copied()
            .ok_or(BAD_ADDRESS)
    }

    /// The same for a store: shared words "can only be read".
    fn writable(&self, address: i64) -> Result<u64, Fault> {
        if (1..self.length()).contains(&address) {
            Ok(address as u64)
        } else {
            Err(BAD_ADDRESS)
        }
    }

    /// "An indexed address is the plain sum; a sum above 65,535 faults, and so
    /// does a base of NIL at any index."
    fn indexed(&self, base: u16, index: i64) -> Result<i64, Fault> {
        let sum = i64::from(base) + index;
        if base == 0 || sum > 65_535 {
            Err(BAD_ADDRESS)
        } else {
            Ok(sum)
        }
    }

    /// "Offset x of a record is word M+4+x.  [...] The only limit is that the
    /// word lies in 1..L-1, also where just its address is pushed; else fault
    /// 6."
    fn record_word(&self, record: u64, offset: i64) -> Result<u64, Fault> {
        self.writable(reckon(record) + 4 + offset)
    }

    /// "Globals are the record at 1, so offset x is word 5+x."
    fn global_word(&self, offset: i64) -> Result<u64, Fault> {
        self.record_word(1, offset)
    }

    /// "Following 0 static links stays; for DB above 0 it takes one link and
    /// then DB-1 more; a link outside 1..L-5 faults with 9."  MSSTAT is the
    /// first word of a mark, at M.
    fn follow(&self, record: u64, links: u32) -> Result<u64, Fault> {
        if links == 0 {
            return Ok(record);
        }
        let link = self.private(reckon(record));
        if !(1..=self.length() - 5).contains(&i64::from(link)) {
            return Err(BAD_LINK_OR_MARK);
        }
        self.follow(u64::from(link), links - 1)
    }

    /// Registers as they are, with the counter on the byte after.
    fn on(&self, decoded: &Decoded) -> Change {
        Change {
            sp: reckon(self.session.sp) + i64::from(decoded.instruction.taken)
                - i64::from(decoded.instruction.given),
            m: self.session.m,
            counter: decoded.next,
            routine: self.session.routine,
            writes: Vec::new(),
        }
    }

    /// Take the words taken and push the words given, listed top first.
    fn push(&self, decoded: &Decoded, given: &[u16]) -> Result<Transition, Fault> {
        let mut change = self.on(decoded);
        for (above, word) in given.iter().enumerate() {
            if let Ok(address) = u64::try_from(change.sp + above as i64) {
                change.writes.push((address, *word));
            }
        }
        Ok(Transition::Go(change))
    }

    /// Take the words taken and store one word.
    fn store(&self, decoded: &Decoded, address: u64, word: u16) -> Result<Transition, Fault> {
        let mut change = self.on(decoded);
        change.writes.push((address, word));
        Ok(Transition::Go(change))
    }

    /// "Comparisons push 1 or 0."
    fn compare(&self, decoded: &Decoded, holds: bool) -> Result<Transition, Fault> {
        self.push(decoded, &[u16::from(holds)])
    }

    /// "Jumps count from the byte after the instruction; the target of a jump
    /// not taken isn't judged."  In bytes (open question 1).
    fn jump(&self, decoded: &Decoded, taken: bool) -> Result<Transition, Fault> {
        if !taken {
            return Ok(Transition::Go(self.on(decoded)));
        }
        self.jump_by(decoded, decoded.value)
    }

    fn jump_by(&self, decoded: &Decoded, offset: i64) -> Result<Transition, Fault> {
        let mut change = self.on(decoded);
        let target = reckon(decoded.next) + offset;
        if !(22..2 * i64::from(self.segment.words)).contains(&target) {
            return Err(BAD_TARGET);
        }
        change.counter = target as u64;
        Ok(Transition::Go(change))
    }

    /// 000: "Push the UB_2 words starting at that offset onto the evaluation
    /// stack. If UB_1, the mode, is 2, and the current segment is of opposite
    /// byte sex from the host, swap the bytes of each word as it is pushed."
    /// Request 2 of 02: "our own sex is least-first".  They are pushed one by
    /// one, so that the last one is the top; no pool is 6 for no words too.
    fn push_pool_words(&self, decoded: &Decoded) -> Result<Transition, Fault> {
        if self.segment.pool == 0 {
            return Err(BAD_ADDRESS);
        }
        let swapped = decoded.mode == 2 && self.segment.sex == Sex::MostFirst;
        let mut change = self.on(decoded);
        for index in 0..i64::from(decoded.count) {
            let pair = self.segment.pool_bytes(decoded.value + index).ok_or(BAD_ADDRESS)?;
            let word = if swapped { u16::from_be_bytes(pair) } else { u16::from_le_bytes(pair) };
            change.sp -= 1;
            // Below 0 it is far below 6+G, which the check for 4 finds.
            change.writes.push((u64::try_from(change.sp).unwrap_or(0), word));
        }
        Ok(Transition::Go(change))
    }

    /// 000: "The first word, W1, with word offset B in the constant pool [...]
    /// is the minimum index of the table. The next word up, W2, is the maximum
    /// index. The case table is the next (W2 - W1) + 1 words. [...] If TOS, the
    /// actual index, is in the range W1 through W2, then jump [...]. Otherwise,
    /// do nothing."  In bytes, as every jump (open questions 1 and 2).
    fn case_jump(&self, decoded: &Decoded) -> Result<Transition, Fault> {
        let word = |offset: i64| self.segment.pool_word(offset).map(i64::from).ok_or(BAD_ADDRESS);
        let (least, most) = (word(decoded.value)?, word(decoded.value + 1)?);
        let index = i64::from(self.int(0));
        if !(least..=most).contains(&index) {
            return Ok(Transition::Go(self.on(decoded)));
        }
        self.jump_by(decoded, word(decoded.value + 2 + (index - least))?)
    }

    /// "A call to routine k: [...] The new M and SP are SP-5-DATASIZE. The
    /// mark holds the lexical parent's M [...], the caller's M, the byte after
    /// the call, 1, and the caller's routine number. Locals keep what their
    /// words held. [...] The current routine becomes k, the counter 2(e+1) of
    /// k."  The order of the mark: "MSSTAT, MSDYN, MSIPC, MSENDV, MSPROC, at M
    /// to M+4".
    fn call(&self, decoded: &Decoded, parent: u64) -> Result<Transition, Fault> {
        let number = u64::try_from(decoded.value).map_err(|_| BAD_ROUTINE)?;
        let routine =
            self.segment.routine(number).filter(Routine::is_linked).ok_or(BAD_ROUTINE)?;
        let sp = reckon(self.session.sp) - 5 - i64::from(routine.data_size);
        let mark = [parent, self.session.m, decoded.next, 1, self.session.routine];
        let mut writes = Vec::new();
        // Below 1 it is far below 6+G, which the check for 4 finds.
        let m = u64::try_from(sp).unwrap_or(0);
        for (address, word) in (m..).zip(mark) {
            writes.push((address, word as u16));
        }
        Ok(Transition::Go(Change { sp, m, counter: u64::from(routine.start), routine: number, writes }))
    }

    /// "A return with B drops the mark and B words above it: SP becomes M+5+B.
    /// With M = 1 the session finishes [...]; that return is checked no
    /// further. Otherwise, in this order, MSDYN must be in 1..L-5, MSPROC in
    /// 1..n, MSENDV 1, MSIPC in 22..2W, and the new SP in 6+G..L; else fault 9.
    /// They become M, routine number, counter and SP."
    fn give_back(&self, decoded: &Decoded) -> Result<Transition, Fault> {
        let m = reckon(self.session.m);
        if m == 1 {
            return Ok(Transition::Finish);
        }
        let [_msstat, msdyn, msipc, msendv, msproc] =
            [m, m + 1, m + 2, m + 3, m + 4].map(|at| i64::from(self.private(at)));
        let sp = m + 5 + decoded.value;
        let good = (1..=self.length() - 5).contains(&msdyn)
            && (1..=i64::from(self.segment.count())).contains(&msproc)
            && msendv == 1
            && (22..=2 * i64::from(self.segment.words)).contains(&msipc)
            && (self.floor()..=self.length()).contains(&sp);
        if !good {
            return Err(BAD_LINK_OR_MARK);
        }
        Ok(Transition::Go(Change {
            sp,
            m: msdyn as u64,
            counter: msipc as u64,
            routine: msproc as u64,
            writes: Vec::new(),
        }))
    }

    /// The instruction's own meaning, with the faults 9, 8, 5, 6, 7 and 10 it
    /// can give, in that order.
    fn meaning(&self, decoded: &Decoded) -> Result<Transition, Fault> {
        let session = self.session;
        let value = decoded.value;
        match decoded.instruction.op {
            // 000: SLDC "Push the opcode, with the high byte zero", LDCN "Push
            // NIL", LDCB "Push UB, with high byte zero", LDCI "Push W".
            Op::PushValue => self.push(decoded, &[value as u16]),

            // "LCO pushes pool pointer plus B, a word offset; it faults with 6
            // with no pool or at W or above."
            Op::PushPoolOffset => {
                let offset = i64::from(self.segment.pool) + value;
                if self.segment.pool == 0 || offset >= i64::from(self.segment.words) {
                    return Err(BAD_ADDRESS);
                }
                self.push(decoded, &[offset as u16])
            }

            Op::PushPoolWords => self.push_pool_words(decoded),

            // 000: "Fetch the word with offset B in the local activation
            // record and push it."
            Op::LoadLocal => {
                let address = self.record_word(session.m, value)?;
                self.push(decoded, &[self.private(reckon(address))])
            }
            // 000: "Calculate address of the word with offset B in the local
            // activation record and push it."
            Op::AddressLocal => {
                let address = self.record_word(session.m, value)?;
                self.push(decoded, &[address as u16])
            }
            // 000: "Store TOS into word with offset B in the local activation
            // record."
            Op::StoreLocal => {
                let address = self.record_word(session.m, value)?;
                self.store(decoded, address, self.stack(0))
            }
            // 000: the same three "in the global data area of the current
            // segment".
            Op::LoadGlobal => {
                let address = self.global_word(value)?;
                self.push(decoded, &[self.private(reckon(address))])
            }
            Op::AddressGlobal => {
                let address = self.global_word(value)?;
                self.push(decoded, &[address as u16])
            }
            Op::StoreGlobal => {
                let address = self.global_word(value)?;
                self.store(decoded, address, self.stack(0))
            }
            // 000: "DB indicates the number of static links to traverse to
            // find the activation record to use. Push the word at offset B in
            // that activation record."
            Op::LoadIntermediate => {
                let record = self.follow(session.m, decoded.links)?;
                let address = self.record_word(record, value)?;
                self.push(decoded, &[self.private(reckon(address))])
            }
            // 000: "Push the address of offset B in that record."
            Op::AddressIntermediate => {
                let record = self.follow(session.m, decoded.links)?;
                let address = self.record_word(record, value)?;
                self.push(decoded, &[address as u16])
            }
            // 000: "Store TOS at offset B in the activation record indicated
            // by DB."
            Op::StoreIntermediate => {
                let record = self.follow(session.m, decoded.links)?;
                let address = self.record_word(record, value)?;
                self.store(decoded, address, self.stack(0))
            }
            // 000: "TOS is the address of a record. Replace it with the Bth
            // word in the record."
            Op::LoadIndexed => {
                let address = self.indexed(self.stack(0), value)?;
                self.push(decoded, &[self.read(address)?])
            }
            // 000: "Store TOS into the word pointed to by TOS-1."
            Op::StoreIndirect => {
                let address = self.writable(i64::from(self.stack(1)))?;
                self.store(decoded, address, self.stack(0))
            }

            // "Integers wrap to 16 bits, two's complement."
            // 000: "Add TOS into TOS-1."
            Op::Add => self.push(decoded, &[self.int(1).wrapping_add(self.int(0)) as u16]),
            // 000: "Subtract TOS from TOS-1."
            Op::Subtract => self.push(decoded, &[self.int(1).wrapping_sub(self.int(0)) as u16]),
            // 000: "Multiply TOS by TOS-1."
            Op::Multiply => self.push(decoded, &[self.int(1).wrapping_mul(self.int(0)) as u16]),
            // 000: "Divide TOS-1 by TOS and push quotient."  01: "The quotient
            // is cut towards zero".
            Op::Divide => match self.int(0) {
                0 => Err(ZERO_DIVISOR),
                divisor => self.push(decoded, &[self.int(1).wrapping_div(divisor) as u16]),
            },
            // 000: "Divide TOS-1 by TOS and push the remainder."  01: "the
            // remainder takes the dividend's sign".
            Op::Modulo => match self.int(0) {
                0 => Err(ZERO_DIVISOR),
                divisor => self.push(decoded, &[self.int(1).wrapping_rem(divisor) as u16]),
            },
            // 000: "Take the two's complement of TOS."
            Op::Negate => self.push(decoded, &[self.int(0).wrapping_neg() as u16]),
            // 000: "Take absolute value of integer TOS."  -32,768 wraps to
            // itself (open question 6).
            Op::Absolute => self.push(decoded, &[self.int(0).wrapping_abs() as u16]),
            // 000: "Add 1 to TOS."
            Op::Increment => self.push(decoded, &[self.int(0).wrapping_add(1) as u16]),
            // 000: "Subtract 1 from TOS."
            Op::Decrement => self.push(decoded, &[self.int(0).wrapping_sub(1) as u16]),

            // 000: "integer comparison TOS-1 = TOS", "<>", "<=", ">=".
            Op::Equal => self.compare(decoded, self.int(1) == self.int(0)),
            Op::NotEqual => self.compare(decoded, self.int(1) != self.int(0)),
            Op::LessOrEqual => self.compare(decoded, self.int(1) <= self.int(0)),
            Op::GreaterOrEqual => self.compare(decoded, self.int(1) >= self.int(0)),
            // 000: "unsigned comparison TOS-1 <= TOS", ">=".
            Op::LessOrEqualUnsigned => self.compare(decoded, self.stack(1) <= self.stack(0)),
            Op::GreaterOrEqualUnsigned => self.compare(decoded, self.stack(1) >= self.stack(0)),

            // "AND, OR, NOT of all 16 bits".
            Op::And => self.push(decoded, &[self.stack(1) & self.stack(0)]),
            Op::Or => self.push(decoded, &[self.stack(1) | self.stack(0)]),
            Op::Not => self.push(decoded, &[!self.stack(0)]),

            // 000: "Duplicate one word on TOS."
            Op::Duplicate => self.push(decoded, &[self.stack(0), self.stack(0)]),
            // 000: "Swap TOS with TOS-1."
            Op::Swap => self.push(decoded, &[self.stack(1), self.stack(0)]),
            // 000: "Continue execution."
            Op::NoOperation => self.push(decoded, &[]),
            // 000: "Ensure that TOS-1 <= TOS-2 <= TOS, leaving TOS-2 on the
            // Stack. If conditions are not satisfied, cause a run-time error."
            Op::CheckSubrange => {
                if self.int(1) <= self.int(2) && self.int(2) <= self.int(0) {
                    self.push(decoded, &[self.stack(2)])
                } else {
                    Err(BAD_SUBRANGE)
                }
            }

            // "A conditional jump looks at bit 0 only."
            Op::Jump => self.jump(decoded, true),
            Op::FalseJump => self.jump(decoded, self.stack(0) & 1 == 0),
            Op::TrueJump => self.jump(decoded, self.stack(0) & 1 == 1),
            Op::CaseJump => self.case_jump(decoded),

            // "the lexical parent's M (current for a local call, 1 for a
            // global, the record reached by DB links for an intermediate)".
            Op::CallLocal => self.call(decoded, session.m),
            Op::CallGlobal => self.call(decoded, 1),
            Op::CallIntermediate => {
                let parent = self.follow(session.m, decoded.links)?;
                self.call(decoded, parent)
            }
            Op::Return => self.give_back(decoded),
        }
    }

    /// An instruction whose bytes were all fetched, with the faults left in
    /// 01's order of checks: 3, then 9, 8, 5, 6, 7, 10 (in `meaning`), then 4.
    fn judged(&self, decoded: &Decoded) -> Result<Transition, Fault> {
        // "The stack occupies SP..L-1".
        let on_stack = self.length() - reckon(self.session.sp);
        if on_stack < i64::from(decoded.instruction.taken) {
            return Err(TOO_FEW_WORDS);
        }
        let transition = self.meaning(decoded)?;
        if let Transition::Go(change) = &transition {
            if change.sp < self.floor() {
                return Err(STACK_FULL);
            }
        }
        Ok(transition)
    }
}

/// The step worked out: 1 and 2 with the places that `decode` gives them, and
/// for the other faults "the place is the instruction's first byte."
pub fn transition(view: &View) -> Result<Transition, Faulting> {
    let decoded = decode(view.segment, view.session.counter)?;
    view.judged(&decoded).map_err(|number| Faulting { number, place: view.session.counter })
}

/// One step of a ready session.  On a fault "only the session's kind changes":
/// the counter stays on the instruction, also where fault 1 has another place.
/// Request 3 of 02: "A step that faults doesn't move" the lowest SP; nor does
/// the return that finishes, with which "all registers and memory stay".
pub fn step(segment: &Segment, shared: &[u16], region: &mut [u16], session: &mut Session) {
    let view = View { segment, shared, region, session: *session };
    match transition(&view) {
        Err(Faulting { number, place }) => session.kind = Kind::Faulted { number, place },
        Ok(Transition::Finish) => session.kind = Kind::Finished,
        Ok(Transition::Go(change)) => {
            for (address, word) in change.writes {
                if let Some(place) = region.get_mut(address as usize) {
                    *place = word;
                }
            }
            session.sp = change.sp as u64;
            session.low = session.low.min(session.sp);
            session.m = change.m;
            session.counter = change.counter;
            session.routine = change.routine;
        }
    }
}

/// "A turn of k steps runs until k are done or the session is no longer ready.
/// It returns the steps done. A step that faults and the return that finishes
/// count. k = 0 and a session not ready give 0."
pub fn turn(
    segment: &Segment,
    shared: &[u16],
    region: &mut [u16],
    session: &mut Session,
    k: u64,
) -> u64 {
    let mut done = 0;
    while done < k && session.kind == Kind::Ready {
        step(segment, shared, region, session);
        done += 1;
    }
    done
}
