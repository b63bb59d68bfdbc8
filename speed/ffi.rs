//! The Rust baseline under a C name, for the harness: second/src/fast.rs (safe, one `match` in a loop, registers in locals, ordinary
//! bounds checks), which second's tests hold to its plain machine. The only unsafe lines: a slice is a pointer and a length.
#[path = "../second/src/fast.rs"]
pub mod fast;
#[path = "../second/src/machine.rs"]
pub mod machine;
#[path = "../second/src/segment.rs"]
pub mod segment;
use fast::{Code, End, Registers};

/// READY, FINISHED and FAULTED of pm.h.
const READY: u64 = 0;
const FINISHED: u64 = 1;
const FAULTED: u64 = 2;

#[no_mangle]
pub unsafe extern "C" fn turn_rust(mem: *mut u16, nmem: u64, seg: *const u8, nseg: u64, regs: *mut u64, k: u64) -> u64 {
    let mem = std::slice::from_raw_parts_mut(mem, nmem as usize);
    let seg = std::slice::from_raw_parts(seg, nseg as usize);
    turn(mem, seg, &mut *(regs as *mut [u64; 18]), k)
}

/// A turn of at most `k` steps; it returns the steps done. The numbers of `regs` are those of pm.h.
fn turn(mem: &mut [u16], seg: &[u8], regs: &mut [u64; 18], k: u64) -> u64 {
    let [base, l, s, w2, d, n, g, sex, sp, m, ipc, proc, low, kind, fault, place, pool, reals] = regs;
    if *kind != READY {
        return 0;
    }
    let code = Code {
        bytes: &seg[..*w2 as usize],
        dictionary: *d as usize,
        count: *n as usize,
        pool: *pool as usize,
        real_start: *reals as usize,
        globals: *g as usize,
        most_first: *sex != 0,
    };
    let (shared, rest) = mem.split_at_mut(*s as usize);
    let begin = (*base - *s) as usize;
    let region = &mut rest[begin..begin + *l as usize];
    let mut now =
        Registers { sp: *sp as usize, m: *m as usize, counter: *ipc as usize, routine: *proc as usize, low: *low as usize };
    let (done, end) = fast::run(&code, shared, region, &mut now, k);
    (*sp, *m, *ipc, *proc) = (now.sp as u64, now.m as u64, now.counter as u64, now.routine as u64);
    *low = now.low as u64;
    match end {
        End::OutOfSteps => {}
        End::Finished => *kind = FINISHED,
        End::Faulted { number, place: at } => (*kind, *fault, *place) = (FAULTED, u64::from(number), at as u64),
    }
    done
}
