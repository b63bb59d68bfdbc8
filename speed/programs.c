/* The reports of programs.h, as bytes of the p-machine, and the segment and session that are built of them. A routine is written as
   its instructions in order; the mnemonics are the manual's. A displacement counts from the byte after its jump. */
#include "programs.h"
#include <string.h>

const char *const PROGRAM[PROGRAMS] = { "sum", "fib", "scan", "mixed", "records", "choice", "totals", "units" };
uint8_t seg[SEGMENT];
uint32_t w2, dict, routines, entry[ROUTINES + 1], pool, most_first;
uint16_t mem0[N], mem[N];
uint64_t regs0[R_COUNT], regs[R_COUNT];

/* A word of the segment, in its byte sex. */
void put(uint32_t k, uint32_t v) {
    seg[2 * k] = most_first ? v >> 8 : v;
    seg[2 * k + 1] = most_first ? v : v >> 8;
}
uint32_t get(uint32_t k) {
    return most_first ? seg[2 * k] << 8 | seg[2 * k + 1] : seg[2 * k + 1] << 8 | seg[2 * k];
}
uint32_t reals(void) {
    if (pool == 0) return 0;
    return get(pool) == 0 ? w2 / 2 : pool + get(pool);
}

/* Building: begin, then each routine in order, the pool if there is one, then session. The first routine's entry is word 13. */
static uint32_t at;
static void begin(void) {
    memset(seg, 0, sizeof seg);
    put(6, 1);
    at = 12;
    routines = 0;
    pool = 0;
}
/* The next routine: its EXITIC (any byte of the code), DATASIZE and bytes. */
static void routine(const uint8_t *bytes, uint32_t n, uint32_t size) {
    entry[++routines] = at + 1;
    put(at, 30);
    put(at + 1, size);
    memcpy(seg + 2 * (at + 2), bytes, n);
    at += 2 + (n + 1) / 2;
}
#define ROUTINE(bytes, size) routine(bytes, sizeof bytes, size)
/* The dictionary behind the code and the pool, and a fresh session of routine 1, whose DATASIZE is `globals`. */
static void session(uint32_t globals) {
    dict = at;
    put(0, dict);
    put(dict, routines);
    for (uint32_t k = 1; k <= routines; k++) put(dict + k, entry[k]);
    w2 = 2 * (dict + routines + 1);
    put(7, pool);
    memset(mem0, 0, sizeof mem0);
    for (uint32_t i = 0; i < S; i++) mem0[i] = i * 2654435761u >> 7;
    const uint64_t r[R_COUNT] = { BASE, L, S, w2, dict, routines, globals, most_first, L, 1, 2 * (entry[1] + 1), 1, L, READY, 0, 0,
        pool, reals() };
    memcpy(regs0, r, sizeof r);
}
void fresh(void) {
    memcpy(mem, mem0, sizeof mem);
    memcpy(regs, regs0, sizeof regs);
}

static const uint8_t STUB[] = { 150, 0 };                   /* RPU 0 */

/* sum: 1000 + 999 + .. over two locals, for ever; here with n - 1 routines that do nothing. */
static void sum_of(uint32_t n) {
    static const uint8_t b[] = {
        129, 0xe8, 3, 105, 0, 104,                          /* LDCI 1000, SSTL 2; SLDC 0, SSTL 1 */
        32, 33, 162, 104, 33, 1, 163, 105,                  /* SLDL 1, SLDL 2, ADI, SSTL 1; SLDL 2, SLDC 1, SBI, SSTL 2 */
        33, 0, 178, 212, 256 - 13, 138, 256 - 21 };         /* SLDL 2, SLDC 0, LEQI, FJP to the second line; UJP to the first */
    ROUTINE(b, 4);
    while (routines < n) ROUTINE(STUB, 0);
    session(4);
}
static void sum(void) { sum_of(2); }

/* fib: the recursive function of 15, for ever. */
static void fib(void) {
    static const uint8_t b1[] = { 0, 128, 15, 144, 2, 165, 1, 138, 256 - 9 };  /* SLDC 0, LDCB 15, CPL 2, SRO 1, UJP */
    static const uint8_t b2[] = {
        32, 1, 178, 212, 4, 32, 105, 150, 1,                /* SLDL 1, SLDC 1, LEQI, FJP to the next line; SLDL 1, SSTL 2, RPU 1 */
        0, 32, 1, 163, 144, 2, 0, 32, 2, 163, 144, 2,       /* SLDC 0, SLDL 1, SLDC 1, SBI, CPL 2; the same with 2 */
        162, 105, 150, 1 };                                 /* ADI, SSTL 2, RPU 1 */
    ROUTINE(b1, 4); ROUTINE(b2, 0); session(4);
}

/* scan: the sum of the shared words, for ever. */
static void scan(void) {
    static const uint8_t b[] = {
        129, 0, 128, 105, 0, 104,                           /* LDCI 32768, SSTL 2; SLDC 0, SSTL 1 */
        32, 33, 120, 162, 104, 33, 237, 105,                /* SLDL 1, SLDL 2, SIND 0, ADI, SSTL 1; SLDL 2, INCI, SSTL 2 */
        33, 129, 0, 144, 176, 212, 256 - 15,                /* SLDL 2, LDCI 36864, EQUI, FJP to the second line */
        134, 3, 32, 196, 138, 256 - 27 };                   /* LAO 3, SLDL 1, STO; UJP to the first */
    ROUTINE(b, 4); ROUTINE(STUB, 0); session(4);
}

/* mixed: a product, a subrange check, stores through addresses, a call that reads and writes its parent's record. */
static void mixed(void) {
    static const uint8_t b1[] = {
        128, 200, 105, 0, 104,                              /* LDCB 200, SSTL 2; SLDC 0, SSTL 1 */
        32, 33, 140, 7, 162, 104,                           /* SLDL 1, SLDL 2, MPI, SLDC 7, ADI, SSTL 1 */
        33, 0, 129, 0xe8, 3, 203, 105,                      /* SLDL 2, SLDC 0, LDCI 1000, CHK, SSTL 2 */
        134, 3, 32, 196, 134, 2, 230, 1, 165, 4,            /* LAO 3, SLDL 1, STO; LAO 2, IND 1, SRO 4 */
        144, 2, 33, 238, 226, 105, 0, 179, 241, 256 - 33,   /* CPL 2; SLDL 2, DECI, DUP1, SSTL 2, SLDC 0, GEQI, TJP to the second line */
        138, 256 - 40 };                                    /* UJP to the first */
    static const uint8_t b2[] = { 173, 1, 5, 160, 166, 1, 5, 150, 2 };  /* SLOD1 1, SLDC 5, LOR, STR 1 5, RPU 2 */
    ROUTINE(b1, 6); ROUTINE(b2, 2); session(6);
}

/* records: a report as one was written. It calls `farm`, farm its nested `tank`, and tank for each of 60 records its nested `reading`, which
   follows tank's address p (one link up), checks the field against farm's low and high (two links up) and stores through the address:
       p^.shown := p^.value checked in low..high;  seen := seen + 1;  total := total + p^.shown
   A record is four words from global 5 on: the second is its value, the fourth shown. */
static void records(void) {
    static const uint8_t report[] = { 144, 2, 138, 256 - 4 };  /* CPL 2 farm; UJP back, for ever */
    static const uint8_t farm[] = {                         /* locals: 1 low, 2 high, 3 seen */
        0, 104, 129, 0xe8, 3, 105, 0, 106,                  /* SLDC 0, SSTL 1; LDCI 1000, SSTL 2; SLDC 0, SSTL 3 */
        144, 3, 150, 3 };                                   /* CPL 3 tank; RPU 3 */
    static const uint8_t tank[] = {                         /* locals: 1 p, 2 left, 3 total */
        134, 5, 104, 128, 60, 105, 0, 106,                  /* LAO 5, SSTL 1; LDCB 60, SSTL 2; SLDC 0, SSTL 3 */
        32, 237, 33, 196, 144, 4,                           /* SLDL 1, INCI, SLDL 2, STO: p^.value := left; CPL 4 reading */
        32, 4, 162, 104, 33, 238, 105,                      /* SLDL 1, SLDC 4, ADI, SSTL 1; SLDL 2, DECI, SSTL 2 */
        33, 0, 178, 212, 256 - 18, 150, 3 };                /* SLDL 2, SLDC 0, LEQI, FJP to the second line; RPU 3 */
    static const uint8_t reading[] = {
        173, 1, 3, 162, 173, 1, 230, 1,                     /* SLOD1 1, SLDC 3, ADI: the address of shown; SLOD1 1, IND 1: value */
        174, 1, 137, 2, 2, 203, 196,                        /* SLOD2 1, LOD 2 2, CHK, STO */
        137, 2, 3, 237, 166, 2, 3,                          /* LOD 2 3, INCI, STR 2 3 */
        173, 3, 173, 1, 123, 162, 166, 1, 3, 150, 0 };      /* SLOD1 3, SLOD1 1, SIND 3, ADI, STR 1 3; RPU 0 */
    ROUTINE(report, 250); ROUTINE(farm, 3); ROUTINE(tank, 3); ROUTINE(reading, 0); session(250);
}

/* choice: a CASE over five bits of each shared word, as a compiler without a jump table writes it: twelve arms for one value each, four for a
   range, and the other values. An arm is a comparison, a jump over it, its statement and a long jump to the end. */
enum { ARMS = 16, SINGLE = 12, ARM = 10, HEAD = 9, TAIL = 16 };
static uint32_t choice_arm(uint8_t *b, uint32_t i) {
    const uint32_t to = ARM * (ARMS - 1 - i) + 2;           /* from behind the arm to the end: the arms left, and the other values */
    const uint8_t arm[ARM] = {
        32, i < SINGLE ? i : 4 * i - 32,                    /* SLDL 1, SLDC: 0 to 11 for one value, 16 20 24 28 for the end of a range */
        i < SINGLE ? 176 : 178, 212, 5,                     /* EQUI or LEQI, FJP to the next arm */
        i + 1, 105, 139, to & 255, to >> 8 };               /* SLDC, SSTL 2: chosen := the arm's number; UJPL to the end */
    memcpy(b, arm, ARM);
    return ARM;
}
static void choice(void) {
    static const uint8_t head[HEAD] = {
        129, 0, 128, 106,                                   /* LDCI 32768, SSTL 3: the first shared word */
        34, 120, 31, 161, 104 };                            /* SLDL 3, SIND 0, SLDC 31, LAND, SSTL 1: the value */
    const uint32_t next = 65536 - (5 + ARM * ARMS + 2 + 11), first = next - 4 - 3;
    const uint8_t tail[TAIL] = {
        0, 105,                                             /* SLDC 0, SSTL 2: the other values */
        34, 237, 226, 106, 129, 0, 144,                     /* the end: SLDL 3, INCI, DUP1, SSTL 3, LDCI 36864 */
        176, 213, next & 255, next >> 8,                    /* EQUI, FJPL to the next value */
        139, first & 255, first >> 8 };                     /* UJPL to the first */
    uint8_t b[HEAD + ARM * ARMS + TAIL];
    uint32_t n = HEAD;
    memcpy(b, head, HEAD);
    for (uint32_t i = 0; i < ARMS; i++) n += choice_arm(b + n, i);
    memcpy(b + n, tail, TAIL);
    ROUTINE(b, 4); ROUTINE(STUB, 0); session(4);
}

/* totals: a season's totals. For each record of eight shared words, readings that nearly all use both bytes, the product of the eight is added
   to the total. A product's right factor, the top of the stack, is a reading each time. */
static void totals(void) {
    static const uint8_t b[] = {
        129, 0, 128, 105, 0, 104,                           /* LDCI 32768, SSTL 2: the first record; SLDC 0, SSTL 1: total */
        32, 33, 120, 33, 121, 140, 33, 122, 140,            /* SLDL 1, SLDL 2, SIND 0; SLDL 2, SIND 1, MPI; the same with 2 */
        33, 123, 140, 33, 124, 140, 33, 125, 140,           /* the same with 3, 4, 5 */
        33, 126, 140, 33, 127, 140, 162, 104,               /* the same with 6, 7; ADI, SSTL 1 */
        33, 8, 162, 226, 105,                               /* SLDL 2, SLDC 8, ADI, DUP1, SSTL 2: the next record */
        129, 0, 144, 176, 212, 256 - 37,                    /* LDCI 36864, EQUI, FJP to the second line */
        138, 256 - 45 };                                    /* UJP to the first */
    ROUTINE(b, 4); ROUTINE(STUB, 0); session(4);
}

/* units: a report that prints its readings' units from the constant pool. A record is four shared words; for each a CASE over three bits, whose
   table the pool has, chooses one of six units or, for 0 and 7, the other values. An arm loads its block of two to four words: characters
   as they lie (mode 0), which it stores in the line, or numbers (mode 2), which it adds up. One step in 6.7 is LDC or XJP. */
enum { FIELDS = 4, KINDS = 6, TABLE = 2 + KINDS, CHARACTERS = 1 + FIELDS * TABLE, NUMBERS = CHARACTERS + 18, REALS = NUMBERS + 18 };
/* The unit that kind i has, from 0: its words, and where they lie behind the first unit's. */
static uint32_t unit_words(uint32_t i) { return 2 + i % 3; }
static uint32_t unit_place(uint32_t i) { return 9 * (i / 3) + (i % 3 == 0 ? 0 : i % 3 == 1 ? 2 : 5); }

/* An arm with a jump to the end, `to` bytes behind it; the bytes it has. */
static uint32_t units_arm(uint8_t *b, uint32_t field, uint32_t i, uint32_t to) {
    const uint32_t numbers = (field + i) % 2, n = unit_words(i);
    uint32_t k = 0;
    b[k++] = 131; b[k++] = numbers ? 2 : 0;                 /* LDC */
    b[k++] = (numbers ? NUMBERS : CHARACTERS) + unit_place(i); b[k++] = n;
    for (uint32_t j = n; j > 0; j--)
        b[k++] = !numbers ? 105 + j : j > 1 ? 162 : 105;    /* SSTL n+2 down to 3; or ADI as often as it goes, SSTL 2 */
    b[k++] = 138; b[k++] = to;                              /* UJP to the end */
    return k;
}
/* The CASE over one field of the record, with its table in `table`; the bytes it has. */
static uint32_t units_case(uint8_t *b, uint32_t field, uint16_t *table) {
    const uint8_t head[] = { 32, 120 + field, 7, 161, 214, 1 + field * TABLE };  /* SLDL 1, SIND, SLDC 7, LAND, XJP */
    uint32_t k = sizeof head, end = sizeof head + 5;
    memcpy(b, head, sizeof head);
    for (uint32_t i = 0; i < KINDS; i++) end += 6 + unit_words(i);
    table[0] = 1; table[1] = KINDS;
    const uint8_t other[] = { 39, 237, 111, 138, end - (k + 5) };  /* the other values: SLDL 8, INCI, SSTL 8, UJP to the end */
    memcpy(b + k, other, sizeof other);
    k += sizeof other;
    for (uint32_t i = 0; i < KINDS; i++) {
        table[2 + i] = k - sizeof head;
        k += units_arm(b + k, field, i, end - (k + 6 + unit_words(i)));
    }
    return k;
}
/* The pool behind the code: its tables, the units' characters, which lie alike in both byte sexes, their numbers, and a real pool of one number. */
static void units_pool(const uint16_t *tables) {
    static const char characters[37] = "mg/lmmol/lg per l ppm %     degrees ";
    pool = at;
    put(pool, REALS);
    for (uint32_t i = 0; i < FIELDS * TABLE; i++) put(pool + 1 + i, tables[i]);
    memcpy(seg + 2 * (pool + CHARACTERS), characters, 36);
    for (uint32_t i = 0; i < 18; i++) put(pool + NUMBERS + i, 1000 * i + 1);
    put(pool + REALS, 1);
    at = pool + REALS + 4;
}
static void units(void) {
    static const uint8_t head[] = { 129, 0, 128, 104 };     /* LDCI 32768, SSTL 1: the first record */
    uint16_t tables[FIELDS * TABLE];
    uint8_t b[400];
    uint32_t n = sizeof head;
    memcpy(b, head, n);
    for (uint32_t field = 0; field < FIELDS; field++) n += units_case(b + n, field, tables + field * TABLE);
    const uint32_t next = sizeof head - (n + 12), first = 0 - (n + 15);
    const uint8_t tail[] = {
        32, 4, 162, 226, 104, 129, 0, 144, 176,             /* SLDL 1, SLDC 4, ADI, DUP1, SSTL 1: the next record; LDCI 36864, EQUI */
        213, next & 255, next >> 8 & 255,                   /* FJPL to the next record */
        139, first & 255, first >> 8 & 255 };               /* UJPL to the first */
    memcpy(b + n, tail, sizeof tail);
    routine(b, n + sizeof tail, 8);
    ROUTINE(STUB, 0);
    units_pool(tables);
    session(8);
}

void program(int p) {
    static void (*const builds[PROGRAMS])(void) = { sum, fib, scan, mixed, records, choice, totals, units };
    begin();
    builds[p]();
}
void many(uint32_t n) {
    begin();
    sum_of(n);
}
