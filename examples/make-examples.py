#!/usr/bin/env python3
# Makes the example files beside it (small.seg is document 01's and is not made): an archive of two farms' records as a spreadsheet exports it, the same in a
# wrong order, as text and as bytes, the farms' reports on it, a report that takes one record too many, the two reports of the spring accident, a mean that divides by the number of readings, a report with a
# routine that was never linked, a segment that is refused, a report that finds the units of its readings in a constant pool, in both byte sexes, a report that
# calls itself, and one that keeps a number by its address.
# `make-examples.py --demo` prints the bytes that stand as constants in crates/pond_demo/src/bytes.rt.
import os
import sys

LEAST, MOST = 'little', 'big'


def segment(name, datasize, code, sex=LEAST):
    """One routine: dictionary at word 11, its EXITIC and DATASIZE at words 13 and 14, its code from byte 30 on."""
    length = len(code)
    code = bytes(code) + (b'' if length % 2 == 0 else b'\x9c')  # NOP
    words = 15 + len(code) // 2
    exitic = 30 + length - 2  # the RPU
    head = [11, 0, None, None, None, None, 1, 0, 2, 0, 0, 1, 14, exitic, datasize]
    out = b''
    for at, word in enumerate(head):
        if word is None:
            continue
        if at == 6:
            out += name.ljust(8).encode()
        out += word.to_bytes(2, sex)
    out += code
    assert len(out) == 2 * words
    return out


# A record is four words: farm, pond, day, concentration. A report that is opened for its farm finds its first record at the first address of its window.
WINDOW = 32768
RECORD = 4
CONCENTRATION = 3


# Globals: 1 sum, 2 highest, 3 count and then mean, 4 address of the next reading, 5 scrap.
def report():
    """The sum, the highest and the mean of the concentrations of four records, the first at word 0 of the window."""
    address = WINDOW + CONCENTRATION
    start = [0x81, address % 256, address // 256, 0xA5, 4]      # LDCI address, SRO 4
    loop = [
        0x33, 0x78,             # SLDO4 SIND0: the reading
        0xE2, 0x30, 0xA2, 0xA5, 1,   # DUP1 SLDO1 ADI SRO 1: into the sum
        0xE2, 0x31, 0xB2,       # DUP1 SLDO2 LEQI: at most the highest?
        0xF1, 4,                # TJP: then it is dropped
        0xA5, 2, 0x8A, 2,       # SRO 2, UJP: else it is the highest
        0xA5, 5,                # SRO 5
        0x33, RECORD, 0xA2, 0xA5, 4,    # SLDO4 SLDC4 ADI SRO 4: the next record
        0x32, 0xED, 0xE2, 0xA5, 3,   # SLDO3 INCI DUP1 SRO 3: one more
        0x04, 0xB0,             # SLDC4 EQUI: all four?
    ]
    loop += [0xD4, 256 - (len(loop) + 2)]                        # FJP to the loop's start
    mean = [0x30, 0x04, 0x8D, 0xA5, 3]                          # SLDO1 SLDC4 DVI SRO 3
    return start + loop + mean + [0x96, 0]                       # RPU 0


# The mean of a week: shared word 0 is the number of readings, shared word 1 their sum.
MEAN = [
    0x81, 1, 0x80, 0x78,    # LDCI 32769 SIND0: the sum
    0x81, 0, 0x80, 0x78,    # LDCI 32768 SIND0: the number
    0x8D, 0xA5, 1,          # DVI SRO 1
    0x96, 0,                # RPU 0
]


def two_routines(name, entries, code):
    """Routine 1 with one global and its code from byte 32 on; routine 2 is declared. Their entries are 15 and 0 where only routine 1 is linked."""
    words = [11, 0, None, None, None, None, 1, 0, 2, 0, 0, 2, *entries, 32 + len(code) - 2, 1]
    out = b''.join(b'..' if word is None else word.to_bytes(2, LEAST) for word in words)
    return out[:4] + name.ljust(8).encode() + out[12:] + bytes(code)


# The sum of two readings, and then a routine that is to print it.
PRINTED = [
    12, 15, 0xA2, 0xA5, 1,  # SLDC12 SLDC15 ADI SRO 1
    0x91, 2,                # CPG 2
    0x9C, 0x96, 0,          # NOP RPU 0
]


# A report on readings of several kinds. Shared word 0 is their number; then each has two words, its kind and its value. For each of them three words go
# into the report's own: the value in whole units, and the unit's four letters.
#
# A segment with a pool cannot be turned, so it is made in both byte sexes here. The pool holds two sorts of constants, and the mode of an LDC says which
# it reads. A number is a word: it is written in the segment's byte sex, and mode 2 reads it so. Letters are bytes, two to a word, and their order is the
# same in every file: any other mode takes them as they stand. So both files leave the same words.
BYTES, NUMBERS = 0, 2
UNITS = ['C   ', 'mg/l', 'pH  ', '?   ']                        # the kinds 1, 2 and 3, and every other
POOL_UNIT = [1, 3, 5, 7]                                        # where in the pool a unit's two words stand; word 0 says that there is no real pool
POOL_TEN, POOL_ONE, POOL_TABLE = 9, 10, 11                      # two numbers to divide by; the case table: its lowest index, its highest, its distances


def units():
    """The code, and the distances of its case table. Globals: 1 address of the next reading, 2 readings left, 3 address of the next line, 4 and 5 letters,
    6 what to divide by, and the lines from 7 on."""
    start = [
        0x81, 0, 0x80, 0x78, 0xA5, 2,   # LDCI 32768 SIND0 SRO 2
        0x81, 1, 0x80, 0xA5, 1,         # LDCI 32769 SRO 1
        0x86, 7, 0xA5, 3,               # LAO 7 SRO 3
    ]
    test = [0x31, 0x00, 0xB1]           # SLDO2 SLDC0 NEQI: is one left?
    chosen = [0x30, 0x78, 0xD6, POOL_TABLE]                     # SLDO1 SIND0 XJP: by its kind

    def arm(unit, divisor):
        return [0x83, BYTES, POOL_UNIT[unit], 2, 0x83, NUMBERS, divisor, 1]     # LDC of the letters, LDC of the number

    store = [
        0xA5, 6, 0xA5, 5, 0xA5, 4,      # SRO 6 SRO 5 SRO 4
        0x32, 0x30, 0x79, 0x35, 0x8D, 0xC4,     # SLDO3 SLDO1 SIND1 SLDO6 DVI STO: the value
        0x32, 0xED, 0x33, 0xC4,         # SLDO3 INCI SLDO4 STO: the first two letters
        0x32, 0xED, 0xED, 0x34, 0xC4,   # SLDO3 INCI INCI SLDO5 STO: the other two
        0x32, 0x03, 0xA2, 0xA5, 3,      # SLDO3 SLDC3 ADI SRO 3: the next line
        0x30, 0x02, 0xA2, 0xA5, 1,      # SLDO1 SLDC2 ADI SRO 1: the next reading
        0x31, 0xEE, 0xA5, 2,            # SLDO2 DECI SRO 2: one less
    ]
    # the other kinds come first, since an index out of the table's range goes on with the next instruction; each arm but the last jumps over those behind it
    divisors = [POOL_ONE, POOL_TEN, POOL_TEN, POOL_TEN]
    arms = [arm(unit, divisor) for unit, divisor in zip([3, 0, 1, 2], divisors)]
    size = len(arms[0]) + 2
    body = []
    for k, one in enumerate(arms):
        left = len(arms) - 1 - k
        body += one + ([0x8A, size * left - 2] if left else [])                 # UJP
    distances = [size * k for k in (1, 2, 3)]
    loop = chosen + body + store
    back = len(test) + 2 + len(loop) + 2
    loop += [0x8A, 256 - back]                                  # UJP to the test
    return start + test + [0xD4, len(loop)] + loop + [0x96, 0], distances       # FJP to the RPU 0


def with_pool(name, datasize, code, pool, sex):
    """The same segment with a constant pool behind the code. In the pool a number stands for a word of the segment's byte sex, and a text for its bytes."""
    out = bytearray(segment(name, datasize, code, sex))
    out[14:16] = (len(out) // 2).to_bytes(2, sex)
    for part in pool:
        out += part.encode() if isinstance(part, str) else part.to_bytes(2, sex)
    return bytes(out)


def report_with_units(sex):
    code, distances = units()
    return with_pool('UNITS', 18, code, [0, *UNITS, 10, 1, 1, 3, *distances], sex)


KINDS = [4, 1, 173, 2, 92, 9, 5, 3, 71]     # 17.3 C, 9.2 mg/l, 5 of a kind that the report does not know, 7.1 pH


def calling(name, *routines):
    """Several routines: for each its DATASIZE and its code, which ends with its RPU."""
    words = [11, 0, None, None, None, None, 1, 0, 2, 0, 0, len(routines), *[0] * len(routines)]
    out = bytearray(b''.join(b'..' if word is None else word.to_bytes(2, LEAST) for word in words))
    out[4:12] = name.ljust(8).encode()
    for k, (datasize, code) in enumerate(routines):
        entry = len(out) // 2 + 1
        out[24 + 2 * k:26 + 2 * k] = entry.to_bytes(2, LEAST)
        out += (2 * entry + len(code)).to_bytes(2, LEAST) + datasize.to_bytes(2, LEAST) + bytes(code) + bytes([0x9C] * (len(code) % 2))
    return bytes(out)


# The stock of a pond after so many months, which is shared word 0. In each month there are as many pairs as in the month before, and those of the month
# before that have young: stock(n) = stock(n - 1) + stock(n - 2), and 1 in months 0 and 1. It names no word of its own by its address.
STOCK = [
    0x00,                       # SLDC0: room for the answer
    0x81, 0, 0x80, 0x78,        # LDCI 32768 SIND0: the months
    0x91, 2,                    # CPG 2
    0xA5, 1,                    # SRO 1
    0x96, 0,                    # RPU 0
]
YOUNG = [0x01, 0x69, 0x8A, 13]  # SLDC1 SSTL2, UJP to the RPU
OLDER = [
    0x00, 0x20, 0xEE, 0x91, 2,          # SLDC0 SLDL1 DECI CPG 2: the month before
    0x00, 0x20, 0x02, 0xA3, 0x91, 2,    # SLDC0 SLDL1 SLDC2 SBI CPG 2: the one before that
    0xA2, 0x69,                         # ADI SSTL2
]
# local 1 is the month, local 2 the answer; RPU drops the month
MONTH = [0x20, 0x01, 0xB2, 0xD4, len(YOUNG)] + YOUNG + OLDER + [0x96, 1]    # SLDL1 SLDC1 LEQI, FJP to OLDER
assert YOUNG[-1] == len(OLDER)

KEPT = [0x81, 20, 0, 0x07, 0xC4, 0x96, 0]                       # LDCI 20 SLDC7 STO RPU 0: a 7 in word 20

# The concentration of the record behind the four of the farm: LDCI SIND0 SRO 1 RPU 0
FIFTH = WINDOW + 4 * RECORD + CONCENTRATION
BEYOND = [0x81, FIFTH % 256, FIFTH // 256, 0x78, 0xA5, 1, 0x96, 0]

STALE = 70
READS = [0x81, STALE, 0, 0x78, 0xA5, 1, 0x96, 0]                # LDCI 70 SIND0 SRO 1 RPU 0
WRITES = [0x81, STALE, 0, 0x00, 0xC4, 0x96, 0]                  # LDCI 70 SLDC0 STO RPU 0

# North is farm 12, South is farm 17; each has two ponds
RECORDS = [(12, 1, 1, 12), (12, 1, 2, 15), (12, 2, 1, 11), (12, 2, 2, 18), (17, 1, 1, 31), (17, 1, 2, 29), (17, 2, 1, 40), (17, 2, 2, 35)]
UNSORTED = RECORDS[:3] + RECORDS[4:] + RECORDS[3:4]


def sheet(records):
    return ('farm,pond,day,concentration\n' + ''.join(','.join(map(str, record)) + '\n' for record in records)).encode()


FILES = {
    'farms.csv': sheet(RECORDS),
    'unsorted.csv': sheet(UNSORTED),
    'unsorted.words': b''.join(w.to_bytes(2, LEAST) for record in UNSORTED for w in record),
    'north.seg': segment('NORTH', 5, report()),
    'south.seg': segment('SOUTH', 5, report(), MOST),
    'beyond.seg': segment('BEYOND', 1, BEYOND),
    'reads.seg': segment('READS', 5, READS),
    'writes.seg': segment('WRITES', 5, WRITES),
    'mean.seg': segment('MEAN', 1, MEAN),
    'unlinked.seg': two_routines('UNLINKED', [15, 0], PRINTED),
    'no-start.seg': two_routines('NO-START', [0, 15], PRINTED),
    'units.seg': report_with_units(LEAST),
    'units-most.seg': report_with_units(MOST),
    'stock.seg': calling('STOCK', (1, STOCK), (0, MONTH)),
    'stock.words': (12).to_bytes(2, LEAST),
    'stock-next.words': (15).to_bytes(2, LEAST),
    'by-address.seg': segment('ADDRESS', 1, KEPT),
    'empty.words': bytes(4),
    'units.words': b''.join(w.to_bytes(2, LEAST) for w in KINDS),
}

if __name__ == '__main__':
    here = os.path.dirname(os.path.abspath(__file__))
    if '--demo' in sys.argv:
        print(list(b''.join(FILES[name] for name in ['north.seg', 'south.seg', 'beyond.seg', 'reads.seg', 'writes.seg'])))
        print(FILES['farms.csv'])
    else:
        for name, data in FILES.items():
            with open(os.path.join(here, name), 'wb') as f:
                f.write(data)
