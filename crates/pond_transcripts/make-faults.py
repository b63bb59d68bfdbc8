#!/usr/bin/env python3
# Writes data/faults/, a segment for each fault of document 01 and each way to it that a listing tells apart, and one that is refused; run it in this folder.
# What it writes is kept beside it. The transcript of their runs is in stdout, read against document 01 and request 2 line by line.
import os

HEAD = bytes.fromhex('0B00 0000 4641554C5420202 0 0100 0000 0200 0000 0000'.replace(' ', ''))


def segment(*routines):
    """The dictionary at word 11; for each routine its DATASIZE and its code."""
    out = bytearray(HEAD) + len(routines).to_bytes(2, 'little') + bytes(2 * len(routines))
    for k, (datasize, code) in enumerate(routines):
        entry = len(out) // 2 + 1
        out[24 + 2 * k:26 + 2 * k] = entry.to_bytes(2, 'little')
        start = 2 * (entry + 1)
        out += start.to_bytes(2, 'little') + datasize.to_bytes(2, 'little') + bytes(code) + bytes([0x9C] * (len(code) % 2))
    return bytes(out)


def pooled(code, *pool):
    """One routine, and behind it a constant pool. Its first word says how many words on the real pool starts, or is 0."""
    out = bytearray(segment((0, code)))
    out[14:16] = (len(out) // 2).to_bytes(2, 'little')
    return bytes(out) + b''.join((word % 65536).to_bytes(2, 'little') for word in pool)


FAULTS = {
    '1-end': [(0, [0x05, 0x07])],                               # SLDC5 SLDC7, and nothing after them
    '1-cut': [(0, [0x9C, 0x9C, 0x81, 0x34])],                   # LDCI without its second byte
    '1-links': [(0, [0x88, 200])],                              # LDA 200 without its B: 1 comes before 2
    '1-return': [(0, [0x96])],                                  # RPU, whose B is a padding byte that says two bytes
    '2-byte': [(0, [0x9A])],                                    # LDE
    '2-last': [(0, [0x9C, 0x9A])],                              # LDE as the segment's last byte
    '2-links': [(0, [0x89, 200, 1])],                           # LOD 200 1
    '3': [(0, [0x05, 0xA2])],                                   # SLDC5 ADI
    '4-push': [(0, [0x05, 0x8A, 0xFD])],                        # SLDC5, UJP to it
    '4-call': [(3, [0x91, 1])],                                 # CPG 1
    '5': [(0, [0x05, 0x00, 0x8D])],                             # SLDC5 SLDC0 DVI
    '6-local': [(0, [0x87, 0x81, 0xF4])],                       # LDL 500
    '6-global': [(0, [0x05, 0xA5, 0x81, 0xF4])],                # SLDC5 SRO 500
    '6-nil': [(0, [0x98, 0x7B])],                               # LDCN SIND3
    '6-above': [(0, [0x81, 0xFF, 0xFF, 0xE6, 5])],              # LDCI 65535 IND 5
    '6-word': [(0, [0x81, 100, 0, 0x78])],                      # LDCI 100 SIND0
    '6-pool': [(0, [0x82, 3])],                                 # LCO 3
    '6-shared': [(0, [0x81, 0x4C, 0x81, 0x7A])],                # LDCI 33100 SIND2
    '6-store': [(0, [0x81, 2, 0x80, 0x00, 0xC4])],              # LDCI 32770 SLDC0 STO
    '7-after': [(0, [0x8A, 100])],                              # UJP
    '7-before': [(0, [0x8B, 0x18, 0xFC])],                      # JPL
    '8': [(0, [0x90, 9])],                                      # CPL 9
    '9-link': [(0, [0x89, 1, 1])],                              # LOD 1 1 from the globals
    '9-msproc': [(0, [0x90, 2]), (0, [0x00, 0xA4, 0, 0x96, 0])],            # CPL 2: SLDC0 STL 0 RPU 0
    '9-msdyn': [(0, [0x90, 2]), (0, [0x84, 0, 0xEE, 0xEE, 0xEE, 0x00, 0xC4, 0x96, 0])],  # CPL 2: LLA 0 DECI DECI DECI SLDC0 STO RPU 0
    '9-sp': [(0, [0x90, 2]), (0, [0x96, 100])],                 # CPL 2: RPU 100
    '10': [(0, [0x1F, 0x01, 0x1E, 0xCB])],                      # SLDC31 SLDC1 SLDC30 CHK
    '6-no-pool': [(0, [0x83, 2, 1, 3])],                        # LDC 2 1 3
    '6-no-table': [(0, [0x03, 0xD6, 1])],                       # SLDC3 XJP 1
}

POOLED = {
    '6-past': pooled([0x83, 2, 3, 3], 0, 75, 109, 47, 32),                      # LDC 2 3 3: two words are there
    '6-real-pool': pooled([0x83, 2, 3, 3], 5, 75, 109, 47, 32, 16256, 0),       # the same, and its third word is a real's
    '6-one-real': pooled([0x83, 2, 5, 1], 5, 75, 109, 47, 32, 16256, 0),        # LDC 2 5 1: a real's first word
    '6-table': pooled([0x03, 0xD6, 4], 5, 75, 109, 47, 1, 16256, 0),            # SLDC3 XJP 4: its highest index would be a real's word
    '6-table-past': pooled([0x03, 0xD6, 4], 0, 75, 109, 47, 1),                 # the same at the segment's end
    '6-arm': pooled([0x03, 0xD6, 1], 5, 1, 4, 2, 2, 16256, 0),                  # SLDC3 XJP 1: 1 to 4, and the words of 3 and 4 would be a real's
    '6-arm-past': pooled([0x03, 0xD6, 1], 0, 1, 4, 2, 2),                       # the same at the segment's end
    '7-case': pooled([0x03, 0xD6, 1], 0, 1, 3, 0, 0, 667),                      # SLDC3 XJP 1
    '7-case-before': pooled([0x81, 0xFE, 0xFF, 0xD6, 1], 0, -3, -1, 0, -100, 0),    # LDCI -2 XJP 1
    '4-constants': pooled([0x83, 2, 1, 20, 0x83, 2, 1, 20], 0, *range(101, 121)),   # LDC 2 1 20, twice
    'refused-4': pooled([0x83, 2, 1, 1], 3, 75, 109),                           # its first word points to the word behind the segment
}

os.makedirs('data/faults', exist_ok=True)
for name, routines in FAULTS.items():
    with open(f'data/faults/{name}.seg', 'wb') as f:
        f.write(segment(*routines))
for name, data in POOLED.items():
    with open(f'data/faults/{name}.seg', 'wb') as f:
        f.write(data)
