/* The state of one session and its segment, as every implementation of the turn takes it.
   The segment has passed the checks of loading and the session is sound: nobody judges that again here. */
#ifndef PM_H
#define PM_H
#include <stdint.h>

/* Numbers of `regs`. What the caller sets, once: where the region starts in memory, L, S, the segment's bytes 2W,
   D, n, G (DATASIZE of routine 1), byte sex (0 least first, 1 most first), the pool pointer (0: no pool) and the word where the real
   pool starts (W where the pool has none, 0 with no pool): from there on no word of the pool is read.
   What a turn reads and writes: SP, M, the counter, the routine number, the lowest SP reached, the kind, and a fault with its place. */
enum {
    R_BASE, R_L, R_S, R_W2, R_D, R_N, R_G, R_SEX,
    R_SP, R_M, R_IPC, R_PROC, R_LOW, R_KIND, R_FAULT, R_PLACE,
    R_POOL, R_REALS, R_COUNT
};
enum { READY, FINISHED, FAULTED };

/* A turn of at most k steps; it returns the steps done. */
typedef uint64_t turn_fn(uint16_t *mem, uint64_t nmem, const uint8_t *seg, uint64_t nseg, uint64_t *regs, uint64_t k);

turn_fn turn_rust, turn_gcc, turn_clang, turn_rattle;
#endif
