/* Times the entries of a bench, on a small one and on full ones, and those of its archive: ns a request, the least of many runs. speed/entries builds and
   runs it.
   A run builds a bench and asks it the same request ROUNDS times; the time of a run that only builds is taken off. A new entry is one row of
   REQUEST here and one arm of `ask` in crate export_bench, which has the numbers of the requests. */
#include "programs.h"
#include <stdio.h>
#include <time.h>

/* The proved entries: a slice is a pointer and then a length. It answers how many requests were not refused. */
extern uint64_t bench_asked(uint16_t *memory, uint64_t words, const uint8_t *store, uint64_t bytes, uint64_t slots, uint64_t sessions,
    uint64_t len, uint64_t what, uint64_t n, uint64_t rounds);
/* The same of an archive, which is the memory's first `shared` words: crate export_archive. */
extern uint64_t archive_asked(uint16_t *memory, uint64_t words, const uint8_t *store, uint64_t bytes, uint64_t shared, uint64_t what, uint64_t farm,
    uint64_t rounds);

enum { LEN = 1000, WORDS = 16 * LEN, SHARED = 32768, FARMS = 12, ROUNDS = 200, RUNS = 40 };
/* What is asked, with its number and its operand; `fills` says which the request needs one of: a slot or a session. */
enum { NOTHING, SLOT, SESSION };
static const struct { const char *name; uint64_t what, n; int fills; } REQUEST[] = {
    { "turn, k = 0", 3, 0, NOTHING }, { "turn, k = 1", 3, 1, NOTHING }, { "turn, k = 100", 3, 100, NOTHING },
    { "turn, k = 65535", 3, 65535, NOTHING }, { "open", 0, LEN, SESSION }, { "close", 1, 0, NOTHING }, { "load", 2, 0, SLOT },
};
/* The benches: loaded slots, routines of each one's segment, open sessions. */
static const struct { uint32_t slots, routines, sessions; } BENCH[] = { { 1, 10, 1 }, { 16, 20, 16 }, { 16, 100, 16 }, { 16, 255, 16 } };
enum { REQUESTS = sizeof REQUEST / sizeof *REQUEST, BENCHES = sizeof BENCH / sizeof *BENCH };

/* Records of an archive; what is asked of it, with its number. */
static const uint64_t RECORDS[] = { 0, 12, 1024, SHARED / 4 };
static const struct { const char *name; uint64_t what; } FARM[] = { { "find a farm", 0 }, { "open for a farm", 1 } };
enum { ARCHIVES = sizeof RECORDS / sizeof *RECORDS, FARM_REQUESTS = sizeof FARM / sizeof *FARM };

static uint16_t memory[SHARED + WORDS];
static double now(void) { struct timespec t; clock_gettime(CLOCK_MONOTONIC, &t); return t.tv_sec * 1e9 + t.tv_nsec; }

/* One run: ROUNDS requests r on bench or archive b, or none; it answers how many were done. */
static uint64_t on_bench(int r, int b, uint64_t rounds) {
    uint32_t slots = BENCH[b].slots, sessions = BENCH[b].sessions;
    if (slots == 16 && REQUEST[r].fills == SLOT) slots--;
    if (sessions == 16 && REQUEST[r].fills == SESSION) sessions--;
    return bench_asked(memory, WORDS, seg, w2, slots, sessions, LEN, REQUEST[r].what, REQUEST[r].n, rounds);
}

static uint64_t on_archive(int r, int b, uint64_t rounds) {
    uint64_t shared = 4 * RECORDS[b];
    return archive_asked(memory, shared + WORDS, seg, w2, shared, FARM[r].what, FARMS / 2, rounds);
}

/* The least time of many runs, and how many requests of the last were done. */
static double least(uint64_t (*run)(int, int, uint64_t), int r, int b, uint64_t rounds, uint64_t *done) {
    double best = 1e18;
    for (int i = 0; i < RUNS; i++) {
        double start = now();
        *done = run(r, b, rounds);
        double ns = now() - start;
        if (ns < best) best = ns;
    }
    return best;
}

/* Prints ns a request, or that it was refused; answers whether it was done. */
static int told(uint64_t (*run)(int, int, uint64_t), int r, int b, uint64_t rounds) {
    uint64_t built, done;
    double build = least(run, r, b, 0, &built), all = least(run, r, b, rounds, &done);
    if (done == rounds) printf("  %28.0f", (all - build) / rounds); else printf("  %28s", "refused");
    return done == rounds;
}

/* The archive's entries, on archives of so many records, those of all farms in their order. */
static int archives(void) {
    int good = 1;
    many(10);
    printf("%-18s", "ns a request");
    for (int a = 0; a < ARCHIVES; a++) printf("  %20u records", (unsigned)RECORDS[a]);
    puts("");
    for (int r = 0; r < FARM_REQUESTS; r++) {
        printf("  %-16s", FARM[r].name);
        for (int a = 0; a < ARCHIVES; a++) {
            for (uint64_t i = 0; i < RECORDS[a]; i++) memory[4 * i] = i * FARMS / RECORDS[a];
            good &= told(on_archive, r, a, ROUNDS);
        }
        puts("");
    }
    return good;
}

int main(void) {
    int good = 1;
    printf("%-18s", "ns a request");
    for (int b = 0; b < BENCHES; b++) printf("  %2u slots of %3u, %2u sessions", BENCH[b].slots, BENCH[b].routines, BENCH[b].sessions);
    puts("");
    for (int r = 0; r < REQUESTS; r++) {
        uint64_t rounds = REQUEST[r].n > 1000 && REQUEST[r].what == 3 ? 4 : ROUNDS;
        printf("  %-16s", REQUEST[r].name);
        for (int b = 0; b < BENCHES; b++) {
            many(BENCH[b].routines);
            good &= told(on_bench, r, b, rounds);
        }
        puts("");
    }
    good &= archives();
    return !good;
}
