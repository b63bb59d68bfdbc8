/* The reports that every implementation of the turn runs, each a small segment with its fresh session. What they do is in
   programs.c; harness.c compares and times them, count.c counts their instructions, entries.c times a bench that runs one. Nothing here needs a
   C library. */
#ifndef PROGRAMS_H
#define PROGRAMS_H
#include "pm.h"

/* The bench: S shared words, one region of L words at BASE in a memory of N words. */
enum { S = 4096, BASE = 5000, L = 4000, N = 16384, SEGMENT = 4096, PROGRAMS = 8, ROUTINES = 255 };
extern const char *const PROGRAM[PROGRAMS];

/* The segment that was built last: its bytes, their number, the dictionary's word, the routines and the words of their
   entries (from 1), its pool pointer (0: none); `most_first` says in which byte sex to build the next one. */
extern uint8_t seg[SEGMENT];
extern uint32_t w2, dict, routines, entry[ROUTINES + 1], pool, most_first;
/* Its session before the first step, and the copy that a turn changes. */
extern uint16_t mem0[N], mem[N];
extern uint64_t regs0[R_COUNT], regs[R_COUNT];

void put(uint32_t k, uint32_t v);  /* word k of the segment becomes v */
uint32_t get(uint32_t k);          /* word k of the segment */
uint32_t reals(void);              /* the word where the real pool starts, as R_REALS has it */
void program(int p);               /* builds program p and its session */
void many(uint32_t n);             /* builds the first program with n routines in all, from 1 to ROUTINES */
void fresh(void);                  /* the session is at its beginning again */
#endif
