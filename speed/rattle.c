/* The proved machine under the harness's type: the one file that knows the names and parameters that its archive exports.
   A slice is a pointer and then a length. Registers, kind, fault and place come back in `after`. Compile it with -DTURN=name, and with
   -Dpm_turn=name for an archive whose function has another name. With -DUNMARKED it is for an archive from before the lowest SP was kept
   (request 3): the function has no `low`, and R_LOW stays as it is. */
#include "pm.h"
#ifndef TURN
#define TURN turn_rattle
#endif
/* The parameter `low`, its argument, and where KIND is in `after`, behind the registers. */
#ifdef UNMARKED
#define LOW_PARAMETER
#define LOW_ARGUMENT
enum { A_KIND = 4 };
#else
#define LOW_PARAMETER uint64_t low,
#define LOW_ARGUMENT r[R_LOW],
enum { A_KIND = 5 };
#endif

extern uint64_t pm_turn(uint16_t *mem, uint64_t words, uint64_t at, uint64_t end, uint64_t s, const uint8_t *seg, uint64_t bytes,
    uint64_t sp, uint64_t m, uint64_t counter, uint64_t routine, LOW_PARAMETER uint64_t *after, uint64_t k);

uint64_t TURN(uint16_t *mem, uint64_t nmem, const uint8_t *seg, uint64_t nseg, uint64_t *r, uint64_t k) {
    uint64_t after[8] = { 0 };
    if (r[R_KIND] != READY) return 0;
    uint64_t done = pm_turn(mem, nmem, r[R_BASE], r[R_BASE] + r[R_L], r[R_S], seg, nseg,
        r[R_SP], r[R_M], r[R_IPC], r[R_PROC], LOW_ARGUMENT after, k);
    for (int i = 0; i < A_KIND; i++) r[R_SP + i] = after[i];
    r[R_KIND] = after[A_KIND];
    if (r[R_KIND] == FAULTED) { r[R_FAULT] = after[A_KIND + 1]; r[R_PLACE] = after[A_KIND + 2]; }
    return done;
}
