#!/usr/bin/env python3
# Writes data/, the files that the gate runs pond on; run it in this folder. What it writes is kept beside it. stdin has the commands, with
# bytes that no keyboard gives and lines of 100,000 bytes; a remark in it says what document 01 asks of the command below it. stdout was
# read against document 01 line by line.
import os

SMALL = bytes.fromhex('0B000000504F4E442020202001000000020000000000' '01000E001E0000000507')
TURNED = bytes.fromhex('000B0000504F4E442020202000010000000200000000' '0001000E001E00000507')
DICT, RELOC, POOL, REAL = 0, 1, 7, 8


def put(seg, *pairs):
    seg = bytearray(seg)
    for at, value in pairs:
        seg[2 * at:2 * at + 2] = value.to_bytes(2, 'little')
    return seg


# document 01's small segment with other words; with other sex bytes
def small(*pairs):
    return put(SMALL, *pairs)


def sex(first, second):
    return bytes(SMALL[:12]) + bytes([first, second]) + bytes(SMALL[14:])


# a segment of so many words, its dictionary at d, with EXITIC 22 and DATASIZE 1 for each entry; an entry of 0 is a routine that is not linked
def many(words, d, entries):
    seg = put(SMALL[:22].ljust(2 * words, b'\0'), (DICT, d), (d, len(entries)))
    for k, e in enumerate(entries):
        seg = put(seg, (d + 1 + k, e), *([(e - 1, 22), (e, 1)] if e else []))
    return seg


TWO = many(20, 11, [15, 17])


# a segment that runs: for each routine its DATASIZE and its code, the dictionary at word 11; EXITIC is the routine's last RPU, or its first byte
def program(*routines):
    seg = put(SMALL[:22] + bytes(2 + 2 * len(routines)), (11, len(routines)))
    for k, (data, code) in enumerate(routines):
        e = len(seg) // 2 + 1
        start = 2 * (e + 1)
        back = code.rfind(bytes([RPU]))
        seg += (start + max(back, 0)).to_bytes(2, 'little') + data.to_bytes(2, 'little') + code + bytes(len(code) % 2)
        seg = put(seg, (12 + k, e))
    return seg


LDCI, UJP, DVI, CPG, SCPI1, RPU, ADI, SBI, SRO, NEQI, DECI, TJP = 129, 138, 141, 145, 239, 150, 162, 163, 165, 177, 238, 241
SLDL1, SLDO1, SLDO2, SSTL1, SIND0 = 32, 48, 49, 104, 120

# the sum of 10 to 1 in global 1, -7 in global 2, and 42 in global 4 by a call of routine 2: 4 + 10 * 11 + 4 + 1 + 7 + 1 = 127 steps
SUM = program(
    (4, bytes([0, SRO, 1, 10, SRO, 2] + [SLDO1, SLDO2, ADI, SRO, 1, SLDO2, DECI, SRO, 2, SLDO2, 0, NEQI, TJP, 256 - 14] +
              [0, 7, SBI, SRO, 2, CPG, 2, RPU, 0])),
    (1, bytes([21, SSTL1, SLDL1, SLDL1, ADI, SRO, 4, RPU, 1])))
# shared word 2 to global 1, in 4 steps; a division by zero in step 3; a loop without end; 900 globals; 10 globals, and one word on the stack
READS = program((1, bytes([LDCI, 2, 128, SIND0, SRO, 1, RPU, 0])))
DIVIDES = program((0, bytes([5, 0, DVI, RPU, 0])))
LOOPS = program((0, bytes([UJP, 256 - 2, RPU, 0])))
WIDE = program((900, bytes([7, SRO, 0x83, 0x84, RPU, 0])))
TEN = program((10, bytes([5, SRO, 1, RPU, 0])))

# a call of routine 2, which is not linked: with room, with a full stack, and through a broken link
def unlinked(*code):
    return put(program((0, bytes([*code, RPU, 0])), (0, bytes([RPU, 0]))), (13, 0))


# what is not carried, by appendix B: instructions with operands of every form, an unused number, what is told of native code, native code;
# and one that the end of the segment cuts off
CXI, LSL, NAT, NAT_INFO, EQBYT, MOV, LDM, EFJ, IXA, ASTR = 149, 153, 168, 169, 185, 197, 208, 210, 215, 235
OUTSIDE = program(
    (0, bytes([ASTR, 2, 129, LDM, 1, CXI, 1, 2, 3, EQBYT, 0, 1, 9, LSL, 1, EFJ, 254, IXA, 0x80, 77, 64, NAT_INFO, 3, SLDL1, SLDL1, SLDL1, RPU, 0])),
    (0, bytes([5, NAT, RPU, 0, 200, 200])),
    (0, bytes([5, NAT_INFO, 99, RPU, 0, 0])),
    (0, bytes([RPU, 0, 7, MOV])))


# a constant pool behind a program of one routine, in either byte sex: a number is a word, bytes are as they stand
def pooled(seg, order, *pool):
    seg = bytearray(seg)
    seg[2 * POOL:2 * POOL + 2] = (len(seg) // 2).to_bytes(2, 'little')
    if order == 'big':
        for at in (0, 1, 6, 7, 8, 9, 10, 11, 12, 13, 14):
            seg[2 * at:2 * at + 2] = seg[2 * at:2 * at + 2][::-1]
    return seg + b''.join(part if isinstance(part, bytes) else (part % 65536).to_bytes(2, order) for part in pool)


# LDC in every way that a listing tells apart: words of both modes, more than a line shows, none, one, a real's word, words behind the segment
LDC, XJP = 131, 214
BYTES, NUMBERS = 0, 2
CONSTANTS = program((0, bytes(
    [LDC, BYTES, 1, 2, LDC, NUMBERS, 1, 2, LDC, NUMBERS, 3, 8, LDC, NUMBERS, 3, 9, LDC, NUMBERS, 2, 0, LDC, NUMBERS, 12, 1, LDC, NUMBERS, 13, 1] +
    [LDC, NUMBERS, 11, 3, LDC, NUMBERS, 16, 1, LDC, NUMBERS, 14, 0x81, LDC, NUMBERS, 0xFF, 0xFF, 255, RPU, 0])))
WORDS = [13, b'mg/l', 1, 2, -1, -32768, 32767, 6, 7, 8, 9, 10, 11, 12, 13]

# XJP in every way: one index, several and a target out of the code, negative ones, none in range, more than are listed, 65,536 of them, words of
# the table that are a real's, one such word, bounds that are, bounds behind the segment
CASES = program((0, bytes(
    [XJP, 1, XJP, 4, XJP, 9, XJP, 14, XJP, 16, XJP, 58, XJP, 60, XJP, 64, XJP, 66, XJP, 67, XJP, 68, XJP, 0xFF, 0xFF, RPU, 0])))
TABLES = [67, 3, 3, 0, 1, 3, 0, 1000, -100, -2, 0, 0, 2, 4, 5, 4, 1, 40, *range(0, 80, 2), -32768, 32767, 7, 10, 0, 2, 1, 2, 0, 5, 6]

FILES = {
    'constants': pooled(CONSTANTS, 'little', *WORDS), 'constants-most': pooled(CONSTANTS, 'big', *WORDS),
    'cases': pooled(CASES, 'little', *TABLES), 'cases-most': pooled(CASES, 'big', *TABLES),
    'small': SMALL, 'turned': TURNED,
    'length0': b'', 'length1': b'\0', 'length30': SMALL[:30], 'length31': SMALL[:31], 'length33': SMALL + b'\0', 'length34': SMALL + b'\0\0',
    'length65534': many(32767, 32764, [12, 32762]), 'length65535': bytes(65535), 'length65536': bytes(65536), 'length70000': bytes(70000),
    'sex0000': sex(0, 0), 'sex0101': sex(1, 1), 'sex0001': sex(0, 1), 'sex0200': sex(2, 0),
    'reloc1': small((RELOC, 1)), 'reloc65535': small((RELOC, 65535)),
    'pool10': small((POOL, 10)), 'pool11': small((POOL, 11)), 'pool15': small((POOL, 15), (15, 0)), 'pool16': small((POOL, 16)), 'pool65535': small((POOL, 65535)),
    'first1': small((POOL, 14), (14, 1)), 'first2': small((POOL, 14), (14, 2)), 'first65535': small((POOL, 15), (15, 65535)), 'first0705': small((POOL, 15)),
    'first1-most': TURNED[:14] + b'\0\x0e' + TURNED[16:28] + b'\0\1' + TURNED[30:], 'first256-most': TURNED[:14] + b'\0\x0e' + TURNED[16:28] + b'\1\0' + TURNED[30:],
    'real65535': small((REAL, 65535), (9, 65535), (10, 65535)),
    'dict0': small((DICT, 0)), 'dict10': small((DICT, 10), (10, 1)), 'dict14': small((DICT, 14), (12, 22), (13, 7), (14, 1), (15, 13)),
    'dict15': small((DICT, 15), (15, 1)), 'dict16': small((DICT, 16)), 'dict65535': small((DICT, 65535)),
    'count0': small((11, 0)), 'count4': small((11, 4), (12, 14), (13, 22)), 'count5': small((11, 5)),
    'count255': many(300, 11, [268] * 255), 'count256': many(300, 11, [269] * 256), 'count65535': small((11, 65535)),
    'entry0': small((12, 0)), 'entry11': small((12, 11)), 'entry12': small((DICT, 14), (11, 22), (12, 5), (14, 1), (15, 12)),
    'entry15': small((12, 15)), 'entry65535': small((12, 65535)),
    'data32767': small((14, 32767)), 'data32768': small((14, 32768)), 'data65535': small((14, 65535)),
    'exit21': small((13, 21)), 'exit22': small((13, 22)), 'exit31': small((13, 31)), 'exit32': small((13, 32)), 'exit65535': small((13, 65535)),
    'two': TWO, 'second0': put(TWO, (13, 0)), 'second1': put(TWO, (13, 1)), 'second11': put(TWO, (13, 11)), 'second65535': put(TWO, (13, 65535)),
    'unlinked254': many(300, 11, [268] + [0] * 254), 'last11': put(many(300, 11, [268] + [0] * 254), (11 + 255, 11)), 'after0': put(many(20, 11, [16, 0, 18]), (14, 11)),
    'calls2': unlinked(CPG, 2), 'full2': unlinked(*[1] * 10, CPG, 2), 'broken2': unlinked(SCPI1, 2), 'calls3': unlinked(CPG, 3),
    'second6': put(TWO, (13, 19)), 'second7': put(TWO, (17, 32768)), 'second8': put(TWO, (16, 40)), 'first8': put(TWO, (14, 21), (13, 0)),
    'order2': put(sex(0, 0), (RELOC, 1)), 'order3': small((RELOC, 1), (POOL, 10), (DICT, 10)), 'order4': small((POOL, 10), (DICT, 10)),
    'same': many(20, 11, [15, 15]), 'shares': small((12, 12)),
    'inside': put(SMALL[:22].ljust(80, b'\0'), (DICT, 12), (12, 22), *[(w, 13) for w in range(13, 35)]),
    'sum': SUM, 'reads': READS, 'divides': DIVIDES, 'loops': LOOPS, 'wide': WIDE, 'ten': TEN, 'outside': OUTSIDE,
    'name': SMALL[:4] + b'A\tB\x1b\x7f\x80\xff~' + SMALL[12:],
}

OTHERS = {
    'way.seg.pond-new': b'left by a run that was cut short\n',
    'archive': b''.join(w.to_bytes(2, 'little') for w in (1, 2, 300, 65535, 0, 0, 0, 32768)),
    'archive7': bytes(range(1, 8)), 'archive18': bytes(range(1, 19)), 'archive0': b'', 'archive2': b'\x39\x30',
    'folder/keep': b'a folder where a file is asked for\n',
}

# records as text: every way of writing them that is taken, and a file for each that is not
SHEETS = {
    'good': b'farm;pond;day;concentration\r\n# North\r\n12;1;1;12\r\n\r\n  12 1\t2 , 15\r\n;;;\r\n65535;0;0;65535',
    'bare': b'\xef\xbb\xbf0 1 2 3\n0 1 3 4\n',
    'quoted': b'"farm","pond (no.)","day","NH3"\n7,1,1,1\n',
    'three': b'12,1,1,12\n12,1,2\n', 'five': b'12,1,1,12\n\n12,1,2,15,16\n', 'past': b'# a remark\n12,1,1,65536\n', 'wide': b'12,1,1,12\n12,1,2,99999999999999999999999\n',
    'letters': b'farm,pond,day,concentration\nO12,1,1,12\n', 'minus': b'12,1,1,-3\n', 'point': b'12,1,1,1.5\n', 'empty-field': b'12,,1,2,3\n', 'quotes': b'12,1,1,2\n"12","1","2","3"\n',
    'second-heading': b'farm,pond,day,concentration\nfarm,pond,day,concentration\n12,1,1,12\n', 'falls': b'12,1,1,12\n17,1,1,31\n\n12,1,2,15\n',
    'none': b'', 'heading': b'farm,pond,day,concentration\n', 'bytes': bytes(range(256)) * 4, 'long': b'12,1,1,' + b'7' * 5000 + b'\n', 'many-fields': b'1,' * 3000 + b'\n',
    'farm0': b'0,1,1,1\n', 'most': b'3,2,1,0\n' * 8192, 'too-many': b'3,2,1,0\n' * 8193,
}
# the same as bytes, where farm numbers fall at record 1, and at record 2
OTHERS['falls1'] = b''.join(w.to_bytes(2, 'little') for w in (1, 0, 0, 0, 0, 0, 0, 0))
OTHERS['falls2'] = b''.join(w.to_bytes(2, 'little') for w in (7, 1, 1, 1, 65535, 2, 2, 2, 65534, 3, 3, 3))
for name, body in SHEETS.items():
    OTHERS[f'{name}.csv'] = body

os.makedirs('data/folder', exist_ok=True)
for name, body in FILES.items():
    open(f'data/{name}.seg', 'wb').write(bytes(body))
for name, body in OTHERS.items():
    open(f'data/{name}', 'wb').write(body)
