/* Runs every implementation on the programs of programs.c and on damaged segments, holds registers, words, counts and faults to those
   of the first, and times them alternately in one process, keeping the least of many short runs.
       bench [ROUNDS [K]]          compare, then time turns of K steps (default 300 rounds, K = 20000)
       bench IMPL PROGRAM STEPS    one turn and nothing else: for a profiler that counts instructions
   The implementations are in impls.h: #define IMPLS X(name) .. , the first the reference (Rust), the second C by clang. Compile it with
   -DUNMARKED where `before` is an earlier proved turn that keeps no lowest SP. */
#include "programs.h"
#include <math.h>
#include <stdio.h>
#include <stdlib.h>
#include <string.h>
#include <time.h>
#include <impls.h>
#define X(name) extern turn_fn turn_##name;
IMPLS
#undef X
#define X(name) { #name, turn_##name },
static const struct { const char *name; turn_fn *turn; } IMPL[] = { IMPLS };
#undef X
enum { NI = sizeof IMPL / sizeof *IMPL };
#ifndef DAMAGED
#define DAMAGED 240000
#endif

static uint16_t want_mem[N];
static uint64_t want[R_COUNT], want_done;

static uint64_t seed = 88172645463325252ull;
static uint32_t any(uint32_t below) {
    seed ^= seed << 13; seed ^= seed >> 7; seed ^= seed << 17;
    return (uint32_t)(seed >> 16) % below;
}
static uint16_t any_word(void) {
    static const uint16_t edge[] = { 0, 1, 2, 5, L - 5, L - 4, L - 1, L, 32767, 32768, 32768 + S - 1, 32768 + S, 65534, 65535 };
    uint32_t c = any(4);
    return c == 0 ? edge[any(sizeof edge / sizeof *edge)] : c == 1 ? any(65536) : c == 2 ? any(64) : any(L);
}
/* First bytes that are carried, so that damage reaches every instruction. */
static uint8_t any_opcode(void) {
    static const uint8_t long_form[] = { 128, 129, 130, 131, 132, 133, 134, 135, 136, 137, 138, 139, 140, 141, 143, 144, 145, 146, 150, 152, 156, 160, 161,
        162, 163, 164, 165, 166, 173, 174, 176, 177, 178, 179, 180, 181, 189, 196, 203, 212, 213, 214, 224, 225, 226, 229, 230, 237, 238, 239, 240, 241 };
    uint32_t c = any(10);
    return c == 0 ? any(64) : c == 1 ? 96 + any(16) : c == 2 ? 120 + any(8) : c == 3 ? any(256) : long_form[any(sizeof long_form)];
}
/* Whether a word of the segment is a number that loading judges: then no other may be put there. */
static int judged(uint32_t k) {
    for (uint32_t i = 1; i <= routines; i++) if (k == entry[i] || k == entry[i] - 1) return 1;
    return k < 11 || (k >= dict && k <= dict + routines);
}
/* The pool is left, moved or taken away, and its words often replaced by small ones, so that there are case tables; its first word stays lawful. */
static void damaged_pool(void) {
    const uint32_t w = w2 / 2;
    if (any(3)) pool = any(3) ? 11 + any(w - 11) : 0;
    uint32_t small = any(2) ? 2 + any(12) : 0;
    for (uint32_t i = 1; i < small && pool && pool + i < w; i++) if (!judged(pool + i)) put(pool + i, any(8) - 2);
    if (pool && !judged(pool)) {
        if (any(2) || get(pool) >= w - pool) put(pool, any(2) && w - pool > 1 ? 1 + any(w - pool - 1) : 0);
    }
    if (pool && get(pool) >= w - pool) pool = 0;
    put(7, pool);
    regs0[R_POOL] = pool; regs0[R_REALS] = reals();
}
/* A program with some of its code bytes, its pool, its registers and its words replaced, and some routines not linked; segment and session stay sound. */
static void damaged(int it) {
    most_first = any(2);
    program(it % PROGRAMS);
    uint32_t hits = any(9);
    for (uint32_t i = 0; i < hits; i++) seg[28 + any(2 * dict - 28)] = any(3) ? any_opcode() : any(256);
    for (uint32_t k = 2; k <= routines; k++) {
        put(entry[k] - 1, 30); put(entry[k], any(4) ? any(8) : any(32768));
        if (any(8) == 0) put(dict + k, 0);
    }
    /* bytes behind the dictionary, so that the segment's end cuts instructions */
    uint32_t more = any(3) ? 0 : 2 * (1 + any(2));
    for (uint32_t i = 0; i < more; i++) seg[w2++] = any(3) ? any_opcode() : any(256);
    regs0[R_W2] = w2;
    damaged_pool();
    uint32_t floor = 6 + regs0[R_G];
    if (any(3) == 0) regs0[R_SP] = floor + any(12);
    if (any(3) == 0) regs0[R_SP] = L - any(4);
    /* the lowest SP so far: 6+G, SP, or between */
    uint32_t deep = any(3);
    regs0[R_LOW] = deep == 0 ? floor : deep == 1 ? regs0[R_SP] : floor + any(regs0[R_SP] - floor + 1);
    if (any(4) == 0) regs0[R_M] = 1 + any(L - 5);
    if (any(4) == 0) regs0[R_IPC] = 22 + any(w2 - 21);
    if (more && any(2)) regs0[R_IPC] = w2 - 1 - any(4);
    if (any(8) == 0) regs0[R_PROC] = 1 + any(routines);
    for (uint32_t i = 0; i < 12; i++) {
        if (any(2)) mem0[BASE + 1 + i] = any_word();
        if (regs0[R_SP] + i < L) mem0[BASE + regs0[R_SP] + i] = any_word();
        if (i < 5 && any(8)) mem0[BASE + regs0[R_M] + i] = i == 3 ? 1 : i == 4 ? 1 + any(routines) : i == 2 ? 22 + any(w2 - 21) : 1 + any(L - 5);
    }
}
static int is_before(int i) { return !strcmp(IMPL[i].name, "before"); }
static int same(int i, uint64_t done, const char *on, int it) {
#ifdef UNMARKED
    if (is_before(i)) regs[R_LOW] = want[R_LOW];
#endif
    if (done == want_done && !memcmp(mem, want_mem, sizeof mem) && !memcmp(regs, want, sizeof regs)) return 1;
    printf("%s differs from %s on %s %d: done %lu/%lu, fault %lu/%lu, place %lu/%lu, lowest SP %lu/%lu, first byte %d\n", IMPL[i].name, IMPL[0].name, on, it,
        (unsigned long)done, (unsigned long)want_done, (unsigned long)regs[R_FAULT], (unsigned long)want[R_FAULT],
        (unsigned long)regs[R_PLACE], (unsigned long)want[R_PLACE], (unsigned long)regs[R_LOW], (unsigned long)want[R_LOW], seg[want[R_IPC]]);
    return 0;
}
static void keep(uint64_t done) { want_done = done; memcpy(want_mem, mem, sizeof mem); memcpy(want, regs, sizeof regs); }

/* An earlier proved turn may not carry what a later program uses: there it is neither compared nor timed. */
static int left_out[NI][PROGRAMS];

/* The programs, in seven turns of growing length: none of them ends or faults. */
static int compare_programs(void) {
    int good = 1;
    for (int p = 0; p < PROGRAMS; p++) {
        program(p);
        for (int i = 0; i < NI; i++) {
            fresh();
            uint64_t done = 0;
            for (int t = 0; t < 7; t++) done += IMPL[i].turn(mem, N, seg, w2, regs, t * 9001);
            if (i == 0) keep(done);
            left_out[i][p] = is_before(i) && regs[R_KIND] == FAULTED;
            good &= left_out[i][p] || same(i, done, PROGRAM[p], p);
        }
        good &= want[R_KIND] == READY;
    }
    return good;
}
/* The reference goes step by step, to see which first bytes were run without a fault; the others go in one turn. An earlier proved turn is not among
   them: a request may have changed what it answers here. */
static int compare_damaged(long *faults, long *stepped, long *cut, long *deeper) {
    int good = 1;
    for (int it = 0; it < DAMAGED && good; it++) {
        damaged(it);
        fresh();
        uint64_t done = 0;
        while (done < 60 && regs[R_KIND] == READY) {
            uint32_t op = regs[R_IPC] < w2 ? seg[regs[R_IPC]] : 0;
            done += IMPL[0].turn(mem, N, seg, w2, regs, 1);
            stepped[op] += regs[R_KIND] != FAULTED;
        }
        keep(done);
        faults[regs[R_FAULT]]++;
        *cut += regs[R_FAULT] == 1 && regs[R_PLACE] != regs[R_IPC];
        *deeper += regs[R_LOW] < regs0[R_LOW];
        for (int i = 0; i < NI && good; i++) {
            if (is_before(i)) continue;
            fresh();
            good &= same(i, IMPL[i].turn(mem, N, seg, w2, regs, 60), "damaged", it);
        }
    }
    most_first = 0;
    return good;
}
static int compare(void) {
    static long faults[11], stepped[256], cut, deeper;
    int reached = 0, good = compare_programs();
    good = compare_damaged(faults, stepped, &cut, &deeper) && cut > 0 && deeper > 0 && deeper < DAMAGED && good;
    for (int op = 0; op < 256; op++) reached += stepped[op] > 0;
    printf("agree: %s, on %d programs and %d damaged segments; %d first bytes run without a fault, %ld cut off, the lowest SP fell in %ld; faults:", good ? "yes" : "NO", PROGRAMS, DAMAGED, reached, cut, deeper);
    for (int f = 1; f < 11; f++) printf(" %d:%ld", f, faults[f]);
    puts("");
    return good;
}

static double now(void) { struct timespec t; clock_gettime(CLOCK_MONOTONIC, &t); return t.tv_sec * 1e9 + t.tv_nsec; }
static double best[NI][PROGRAMS];
/* One short run, of some 20,000 steps: ns a step. */
static double timed(int i, uint64_t k) {
    fresh();
    double start = now();
    uint64_t done = 0;
    while (done < 20000) done += IMPL[i].turn(mem, N, seg, w2, regs, k);
    return (now() - start) / done;
}
static void measure(int rounds, uint64_t k) {
    for (int p = 0; p < PROGRAMS; p++) {
        program(p);
        for (int i = 0; i < NI; i++) best[i][p] = 1e18;
        for (int t = 0; t < rounds; t++) for (int i = 0; i < NI; i++) {
            if (left_out[i][p]) continue;
            double ns = timed(i, k);
            if (ns < best[i][p]) best[i][p] = ns;
        }
    }
}
/* A row an implementation: ns a step, or with `base` its ratio to that implementation and their geometric mean; a dash if it is left out. */
static void table(const char *what, int base) {
    printf("%-12s", what);
    for (int p = 0; p < PROGRAMS; p++) printf("%9s", PROGRAM[p]);
    puts(base < 0 ? "" : "     mean");
    for (int i = 0; i < NI; i++) {
        double mean = 0;
        int timed_on = 0;
        printf("  %-10s", IMPL[i].name);
        for (int p = 0; p < PROGRAMS; p++) {
            if (left_out[i][p]) { printf("%9s", "-"); continue; }
            double x = base < 0 ? best[i][p] : best[i][p] / best[base][p];
            printf("%9.3f", x);
            mean += log(x);
            timed_on++;
        }
        if (base < 0) puts(""); else printf("%9.3f\n", exp(mean / timed_on));
    }
}

int main(int argc, char **argv) {
    if (argc == 4) {
        program(atoi(argv[2]));
        fresh();
        for (int i = 0; i < NI; i++) if (!strcmp(IMPL[i].name, argv[1])) printf("%lu\n", (unsigned long)IMPL[i].turn(mem, N, seg, w2, regs, atol(argv[3])));
        return 0;
    }
    if (!compare()) return 1;
    fflush(stdout);
    measure(argc > 1 ? atoi(argv[1]) : 300, argc > 2 ? atol(argv[2]) : 20000);
    table("ns a step", -1);
    for (int base = 0; base < 2 && base < NI; base++) {
        char what[32];
        snprintf(what, sizeof what, "of %s", IMPL[base].name);
        table(what, base);
    }
    return 0;
}
