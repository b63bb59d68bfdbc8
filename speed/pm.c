/* The C baseline: one switch in a loop, registers in locals, the checks that the documented faults ask and no others.
   Compile it with -DTURN=name to give the function another name. Three GNU forms are used: case ranges, labels for leaving, and noinline. */
#include "pm.h"
#ifndef TURN
#define TURN turn_clang
#endif

/* Word k of the segment, in its own byte sex. */
static inline uint32_t seg_word(const uint8_t *seg, uint32_t k, int most_first) {
    uint32_t a = seg[2 * k], b = seg[2 * k + 1];
    return most_first ? a << 8 | b : b << 8 | a;
}

/* The words of an LDC, pushed one after another; the new SP. Apart from the loop, since within it the loop over the words takes registers from every step. */
static __attribute__((noinline)) uint32_t push_block(uint16_t *reg, uint32_t sp, const uint8_t *from, uint32_t count, int swapped) {
    for (; count > 0; count--, from += 2) reg[--sp] = seg_word(from, 0, swapped);
    return sp;
}

/* Every check below leaves the step by FAULT; their order in a case is the documented order of faults. */
#define FAULT(n) do { fault = (n); goto faulted; } while (0)

/* Operands: UB, B and W, fetched at `at`, which moves on, but stays on a byte that is not there. */
#define UB(v) do { if (at >= w2) FAULT(1); v = seg[at++]; } while (0)
#define BIG(v) do { UB(v); if (v & 128) { uint32_t second; UB(second); v = (v & 127) << 8 | second; } } while (0)
#define WORD(v) do { uint32_t high; UB(v); UB(high); v |= high << 8; } while (0)
#define DB(v) do { if (v > 127) FAULT(2); } while (0)

/* The stack: words taken, and one word given. Where SP falls it may be the lowest reached. */
#define FELL() do { if (sp < low) low = sp; } while (0)
#define NEED(n) do { if (l - sp < (n)) FAULT(3); } while (0)
#define PUSH(v) do { uint32_t word_ = (v); if (sp <= floor) FAULT(4); reg[--sp] = word_; FELL(); } while (0)
#define UNARY(e) do { NEED(1); uint16_t a = reg[sp]; reg[sp] = (e); } while (0)
#define BINARY(e) do { NEED(2); uint16_t b = reg[sp], a = reg[sp + 1]; reg[++sp] = (e); } while (0)
#define DIVIDE(e) do { NEED(2); int32_t b = (int16_t)reg[sp], a = (int16_t)reg[sp + 1]; if (b == 0) FAULT(5); reg[++sp] = (e); } while (0)

/* Records: the one that DB links lead to, and the word at an offset of one. */
#define LINKS(n) do { rec = m; for (uint32_t i_ = (n); i_ > 0; i_--) { rec = reg[rec]; if (rec < 1 || rec > l - 5) FAULT(9); } } while (0)
#define PLACE(r, x) do { place = (r) + 4 + (x); if (place >= l) FAULT(6); } while (0)
#define LOAD(r, x) do { PLACE(r, x); PUSH(reg[place]); } while (0)
#define ADDRESS(r, x) do { PLACE(r, x); PUSH(place); } while (0)
#define STORE(r, x) do { NEED(1); PLACE(r, x); reg[place] = reg[sp]; sp++; } while (0)
#define INDIRECT(x) do { NEED(1); place = reg[sp]; if (place == 0) FAULT(6); place += (x); \
        if (place < l) reg[sp] = reg[place]; \
        else if (place >= 32768 && place - 32768 < s) reg[sp] = mem[place - 32768]; \
        else FAULT(6); } while (0)

/* Jumps count from the byte after the instruction. */
#define JUMP(d) do { int32_t to_ = (int32_t)at + (d); if (to_ < 22 || to_ >= (int32_t)w2) FAULT(7); at = to_; } while (0)
#define JUMP_IF(bit, d) do { NEED(1); if ((reg[sp] & 1) == (bit)) JUMP(d); sp++; } while (0)

/* A call of routine k whose lexical parent is `parent`: the mark is MSSTAT, MSDYN, MSIPC, MSENDV, MSPROC. */
#define CALL(k, parent) do { \
        if ((k) < 1 || (k) > n) FAULT(8); \
        uint32_t entry_ = seg_word(seg, d + (k), most_first); \
        if (entry_ == 0) FAULT(8); /* declared, not linked */ \
        uint32_t size_ = seg_word(seg, entry_, most_first); \
        if (sp < floor + 5 + size_) FAULT(4); \
        sp -= 5 + size_; FELL(); \
        reg[sp] = (parent); reg[sp + 1] = m; reg[sp + 2] = at; reg[sp + 3] = 1; reg[sp + 4] = proc; \
        m = sp; proc = (k); at = 2 * (entry_ + 1); } while (0)

uint64_t TURN(uint16_t *mem, uint64_t nmem, const uint8_t *seg, uint64_t nseg, uint64_t *r, uint64_t k) {
    (void)nmem; (void)nseg;
    if (r[R_KIND] != READY) return 0;
    const uint32_t l = r[R_L], s = r[R_S], w2 = r[R_W2], d = r[R_D], n = r[R_N], floor = 6 + r[R_G];
    const uint32_t pool = r[R_POOL], reals = r[R_REALS];
    const int most_first = r[R_SEX] != 0;
    uint16_t *const reg = mem + r[R_BASE];
    uint32_t sp = r[R_SP], m = r[R_M], ipc = r[R_IPC], proc = r[R_PROC], low = r[R_LOW];
    uint32_t at, x, db, rec, place, fault = 0;
    uint64_t done = 0;

    while (done < k) {
        done++;
        at = ipc;
        if (at < 22 || at >= w2) FAULT(1);
        uint32_t op = seg[at++];
        switch (op) {
        case 0 ... 31: PUSH(op); break;                                        /* SLDC */
        case 32 ... 47: LOAD(m, op - 31); break;                               /* SLDL */
        case 48 ... 63: LOAD(1, op - 47); break;                               /* SLDO */
        case 96 ... 103: ADDRESS(m, op - 95); break;                           /* SLLA */
        case 104 ... 111: STORE(m, op - 103); break;                           /* SSTL */
        case 120 ... 127: INDIRECT(op - 120); break;                           /* SIND */
        case 128: UB(x); PUSH(x); break;                                       /* LDCB */
        case 129: WORD(x); PUSH(x); break;                                     /* LDCI */
        case 130: BIG(x); if (pool == 0 || pool + x >= w2 / 2) FAULT(6); PUSH(pool + x); break; /* LCO */
        case 131: {                                                            /* LDC */
            uint32_t mode, count;
            UB(mode); BIG(x); UB(count);
            x += pool;
            if (pool == 0 || (count > 0 && x + count > reals)) FAULT(6);
            if (sp < floor + count) FAULT(4);
            sp = push_block(reg, sp, seg + 2 * x, count, mode == 2 && most_first); FELL();
            break;
        }
        case 132: BIG(x); ADDRESS(m, x); break;                                /* LLA */
        case 133: BIG(x); LOAD(1, x); break;                                   /* LDO */
        case 134: BIG(x); ADDRESS(1, x); break;                                /* LAO */
        case 135: BIG(x); LOAD(m, x); break;                                   /* LDL */
        case 136: UB(db); BIG(x); DB(db); LINKS(db); ADDRESS(rec, x); break;   /* LDA */
        case 137: UB(db); BIG(x); DB(db); LINKS(db); LOAD(rec, x); break;      /* LOD */
        case 138: UB(x); JUMP((int8_t)x); break;                               /* UJP */
        case 139: WORD(x); JUMP((int16_t)x); break;                            /* UJPL */
        case 140: BINARY((uint32_t)a * b); break;                              /* MPI */
        case 141: DIVIDE(a / b); break;                                        /* DVI */
        case 143: DIVIDE(a % b); break;                                        /* MODI */
        case 144: UB(x); CALL(x, m); break;                                    /* CPL */
        case 145: UB(x); CALL(x, 1); break;                                    /* CPG */
        case 146: UB(db); UB(x); DB(db); LINKS(db); CALL(x, rec); break;       /* CPI */
        case 150: {                                                            /* RPU */
            BIG(x);
            if (m == 1) goto finished;
            uint32_t dyn = reg[m + 1], back = reg[m + 2], endv = reg[m + 3], caller = reg[m + 4], to = m + 5 + x;
            if (dyn < 1 || dyn > l - 5 || caller < 1 || caller > n || endv != 1) FAULT(9);
            if (back < 22 || back > w2 || to < floor || to > l) FAULT(9);
            sp = to; m = dyn; at = back; proc = caller;
            FELL(); /* a forged mark can lead down */
            break;
        }
        case 152: PUSH(0); break;                                              /* LDCN */
        case 156: break;                                                       /* NOP */
        case 160: BINARY(a | b); break;                                        /* LOR */
        case 161: BINARY(a & b); break;                                        /* LAND */
        case 162: BINARY(a + b); break;                                        /* ADI */
        case 163: BINARY(a - b); break;                                        /* SBI */
        case 164: BIG(x); STORE(m, x); break;                                  /* STL */
        case 165: BIG(x); STORE(1, x); break;                                  /* SRO */
        case 166: UB(db); BIG(x); DB(db); NEED(1); LINKS(db); STORE(rec, x); break; /* STR */
        case 173: BIG(x); LINKS(1); LOAD(rec, x); break;                       /* SLOD1 */
        case 174: BIG(x); LINKS(2); LOAD(rec, x); break;                       /* SLOD2 */
        case 176: BINARY(a == b); break;                                       /* EQUI */
        case 177: BINARY(a != b); break;                                       /* NEQI */
        case 178: BINARY((int16_t)a <= (int16_t)b); break;                     /* LEQI */
        case 179: BINARY((int16_t)a >= (int16_t)b); break;                     /* GEQI */
        case 180: BINARY(a <= b); break;                                       /* LEUSW */
        case 181: BINARY(a >= b); break;                                       /* GEUSW */
        case 189: NEED(2); x = reg[sp]; reg[sp] = reg[sp + 1]; reg[sp + 1] = x; break; /* SWAP */
        case 196: {                                                            /* STO */
            NEED(2);
            place = reg[sp + 1];
            if (place < 1 || place >= l) FAULT(6);
            reg[place] = reg[sp]; sp += 2;
            break;
        }
        case 203: {                                                            /* CHK */
            NEED(3);
            int16_t most = reg[sp], least = reg[sp + 1], v = reg[sp + 2];
            if (v < least || v > most) FAULT(10);
            sp += 2;
            break;
        }
        case 212: UB(x); JUMP_IF(0, (int8_t)x); break;                         /* FJP */
        case 213: WORD(x); JUMP_IF(0, (int16_t)x); break;                      /* FJPL */
        case 214: {                                                            /* XJP */
            BIG(x); NEED(1);
            x += pool;
            if (x + 2 > reals) FAULT(6); /* with no pool that is so for any x */
            int32_t index = (int16_t)reg[sp], least = (int16_t)seg_word(seg, x, most_first);
            if (index >= least && index <= (int16_t)seg_word(seg, x + 1, most_first)) {
                x += 2 + (index - least);
                if (x >= reals) FAULT(6);
                JUMP((int16_t)seg_word(seg, x, most_first));
            }
            sp++;
            break;
        }
        case 224: UNARY((int16_t)a < 0 ? -a : a); break;                       /* ABI */
        case 225: UNARY(-a); break;                                            /* NGI */
        case 226: NEED(1); PUSH(reg[sp]); break;                               /* DUP1 */
        case 229: UNARY(~a); break;                                            /* LNOT */
        case 230: BIG(x); INDIRECT(x); break;                                  /* IND */
        case 237: UNARY(a + 1); break;                                         /* INCI */
        case 238: UNARY(a - 1); break;                                         /* DECI */
        case 239: UB(x); LINKS(1); CALL(x, rec); break;                        /* SCPI1 */
        case 240: UB(x); LINKS(2); CALL(x, rec); break;                        /* SCPI2 */
        case 241: UB(x); JUMP_IF(1, (int8_t)x); break;                         /* TJP */
        default: FAULT(2);
        }
        ipc = at;
    }
    goto out;
finished:
    r[R_KIND] = FINISHED;
    goto out;
faulted:
    /* the place is the instruction's first byte, but of fault 1 the byte that was not there: chosen here, so that no other step pays for it */
    r[R_KIND] = FAULTED; r[R_FAULT] = fault; r[R_PLACE] = fault == 1 ? at : ipc;
out:
    r[R_SP] = sp; r[R_M] = m; r[R_IPC] = ipc; r[R_PROC] = proc; r[R_LOW] = low;
    return done;
}
