#!/usr/bin/env python3
"""Write run sheets, and the lines a program must write for them, into a folder.

    python3 tools/make_cases.py FOLDER          the roll program that knows f, o, s and h
    python3 tools/make_cases.py --carousel FOLDER   the carousel program's
    python3 tools/make_cases.py --ten FOLDER    sheets that need all ten calls

For each sheet NAME.sheet and NAME.lines are written as bytes, CR LF kept. Each row is put
down here together with what its line must say, worked out by hand. The model is then played
over the sheet, and nothing is written unless it says the same.
"""

from __future__ import annotations

import argparse
from pathlib import Path

import model

CRLF = b"\r\n"


# ---------------------------------------------------------------- rows with their outcome

def ok(row: str, answer: int):
    """A row that is granted."""
    return row, (0, 0, 0, answer)


def no(row: str, number: int, inside: int = 0):
    """A row that the floor refuses."""
    return row, (5, number, inside, 0)


def bad(row: str, number: int):
    """A row that the floor never sees."""
    return row, (number, 0, 0, 0)


def all_bad(number: int, *rows: str):
    return [bad(row, number) for row in rows]


# ---------------------------------------------------------------- sheet questions, start

CASES_A = [
    # Nothing is granted before the start, whatever else is wrong.
    no("s,0", 2), no("o,0,1,l,5", 2), no("h,0,0", 2), no("o,8,1,l,200001", 2),
    no("h,999999999,8", 2),
    # Members 0 or above 255 (257 and 256 also as a byte would be), and the leader's place.
    no("f,0,0", 4), no("f,256,0", 4), no("f,257,0", 4), no("f,999999999,0", 4),
    no("f,6,0", 4), no("f,1,1", 4), no("f,127,7", 4), no("f,255,8", 4), no("f,1,8", 4),
    no("f,1,32", 4), no("f,1,256", 4), no("f,255,999999999", 4), no("f,256,8", 4),
    # S1: a byte below 33 or above 126, anywhere, before all else.
    *all_bad(1, "s 0", "s,0 ", " s,0", " ", "s,\t0", "f,3,0\x7f", "f,3,\x80", "\xff", "q,\x00",
             "o,0,1,z,\x1f", "f,3,0\n", "\nf,3,0", "f,3\r,0", "f,3,0\r", "f,3,0\nf,3,0"),
    # S2: the first field is not one letter that is known.
    *all_bad(2, "!", "~", "q", "", ",", ",3,0", "ff,3,0", "fo,3,0", "start,3,0", "F,3,0",
             "O,0,1,l,5", "S,0", "H,0,0", "3,0", "r,0", "b,0", "w,0", "p,0,3,0", "a,0", "x,0",
             "l,5", "q,a,b,c,d,e,f,g"),
    # S2: a command letter that is there and not known, whatever the count of fields.
    *all_bad(2, "o,0,1,q,5", "o,0,1,L,5", "o,0,1,t,5", "o,0,1,,5", "o,0,1,ll,5", "o,0,1,5,l",
             "o,0,1,l5", "o,0,1,5", "o,0,1,z", "o,,,", "o,0,1,z,5,6", "o,a,b,c,d,e,f"),
    # S3: too few or too many fields, the command letter missing among them.
    *all_bad(3, "f", "f,3", "f,3,0,", "f,3,0,0", "s", "s,0,0", "s,,", "s,a,b", "h", "h,0",
             "h,0,1,", "h,0,1,2", "o", "o,0", "o,0,1", "o,,", "o,0,1,l", "o,0,1,d",
             "o,0,1,l,5,", "o,0,1,l,5,6", "o,a,b,l"),
    # S4: empty, ten digits, signs, letters, other marks.
    *all_bad(4, "f,,0", "f,3,", "f,,", "s,", "h,,0", "h,0,", "o,,1,l,5", "o,0,,l,5", "o,0,1,l,",
             "o,,,l,", "s,0000000000", "s,1234567890", "f,0000000003,0", "o,0,1,l,5000000000",
             "s,+0", "s,-0", "o,+0,1,l,5", "o,0,-1,l,5", "o,0,1,d,-1", "s,a", "s,l", "f,3,l",
             "h,0,O", "s,0x0", "s,1.0", "s,1e3", "s,!", "s,~", "s,/", "s,:"),
    # Leading zeros are digits. After this the floor is started for good.
    ok("f,000000003,000000000", 1), no("f,3,0", 2), no("f,0,9", 2), no("f,000000003,0", 2),
    bad("f,3", 3), bad("f,3,x", 4),
    ok("o,0000,00007,l,000005000", 5000), ok("o,0,000000008,d,01200", 3800),
    no("h,000000001,00000001", 9), ok("h,000000000,00000001", 0), ok("h,0002,0", 0),
    ok("s,00", 1), ok("h,3,1", 1), no("h,3,1", 8), no("o,0,8,d,10", 10),
    no("o,0,9,d,4000", 12, 2), bad("q", 2),
]


# ---------------------------------------------------------------- the roll, serials, 64 places

# Members 0 and 7, led by 7. Entry k is sent as envelope k.
CASES_B = [
    ok("f,129,7", 1),
    # Out of range before all else; only a leader orders, whatever it orders.
    no("o,8,1,l,5", 3), no("o,255,1,l,5", 3), no("o,999999999,1,d,0", 3),
    no("o,0,1,l,5", 7), no("o,3,1,l,5", 7), no("o,0,1,l,200001", 7),
    # Nothing is on the roll: a draw in range is too much, one out of range is out of range.
    no("o,7,1,d,1", 12, 2), no("o,7,1,d,20000", 12, 2), no("o,7,1,d,0", 12, 1),
    no("o,7,1,d,20001", 12, 1), no("o,7,1,l,200001", 12, 1), no("o,7,1,l,999999999", 12, 1),
    # No refused order has kept its serial.
    ok("o,7,1,l,200000", 200000), ok("o,7,2,d,20000", 180000), ok("o,7,3,d,1", 179999),
    no("o,7,4,d,20001", 12, 1), no("o,7,4,d,0", 12, 1), no("o,7,4,d,999999999", 12, 1),
    ok("o,7,4,l,0", 0), no("o,7,5,d,1", 12, 2),
    ok("o,7,5,l,20000", 20000), ok("o,7,6,d,20000", 0), no("o,7,7,d,1", 12, 2),
    ok("o,7,7,l,19999", 19999), no("o,7,8,d,20000", 12, 2), ok("o,7,8,d,19999", 0),
    ok("o,7,9,l,1", 1), no("o,7,10,d,2", 12, 2), ok("o,7,10,d,1", 0),
    # A serial stands in the list once, as a number; this is asked before the service is.
    no("o,7,1,l,5", 10), no("o,7,001,l,5", 10), no("o,7,1,d,0", 10), no("o,7,10,d,1", 10),
    ok("o,7,0,l,7", 7), ok("o,7,999999999,l,8", 8), no("o,7,000000000,l,8", 10),
    no("o,7,999999999,d,1", 10),
    # Twelve entries so far; the 13th to the 63rd, the 64th, and no 65th.
    *[ok(f"o,7,{serial},l,{serial}", serial) for serial in range(13, 64)],
    ok("o,7,64,d,63", 0), no("o,7,65,l,5", 11), no("o,7,65,d,0", 11), no("o,7,64,l,5", 10),
    # The follower takes all 64; its HELD of k + 1 is envelope 64 + k.
    no("s,7", 8), no("h,63,0", 9), no("h,64,7", 3),
    *[ok(f"h,{k},0", 0) for k in range(64)],
    no("h,63,0", 8), no("h,0,0", 8), no("h,128,0", 3), no("s,7", 8),
    # The 64th HELD alone tells it all. COMMIT is envelope 128.
    ok("h,127,7", 0), no("h,126,7", 8), no("h,64,7", 8), no("h,127,7", 8),
    ok("s,7", 64), no("s,7", 8), ok("h,128,0", 64), no("h,128,0", 8), ok("h,128,7", 64),
    no("h,128,7", 8), no("h,129,7", 3), no("o,7,65,l,5", 11), no("o,7,1,l,5", 10),
]


# ---------------------------------------------------------------- hands in every order

# Members 0, 1 and 2, led by 1. In brackets: what is sent, with its number.
CASES_C = [
    ok("f,7,1", 1),
    # The leader was told 0 by each, and has nothing itself.
    no("s,1", 8), no("s,0", 7), no("s,5", 7), no("s,8", 3), no("s,999999999", 3),
    no("h,0,0", 3), no("h,0,8", 3), no("o,2,11,l,5", 7), no("o,6,11,l,5", 7),
    ok("o,1,11,l,1000", 1000),                  # [0 ACCEPT at 0]
    ok("o,1,12,d,300", 700),                    # [1 ACCEPT at 1]
    ok("o,1,13,d,700", 0),                      # [2 ACCEPT at 2]
    # Not to the leader, nor to a controller that is no member, nor out of range.
    no("h,0,1", 6), no("h,0,3", 6), no("h,2,7", 6), no("h,0,8", 3), no("h,3,0", 3),
    no("h,3,8", 3), no("h,999999999,0", 3), no("h,0,999999999", 3),
    # ACCEPT in sequence only: early is 9, again or late is 8.
    no("h,2,0", 9), no("h,1,0", 9),
    ok("h,0,0", 0),                             # [3 HELD 1 by 0]
    no("h,0,0", 8), no("h,2,0", 9),
    ok("h,1,0", 0),                             # [4 HELD 2 by 0]
    no("h,0,0", 8), no("h,1,0", 8),
    # HELD goes to the leader alone; a later one first makes the earlier one late.
    no("h,3,0", 6), no("h,3,2", 6), no("h,4,7", 6), no("s,1", 8),
    ok("h,4,1", 0), no("h,3,1", 8), no("h,4,1", 8),
    # Two of three hold two places: no majority settles.
    no("s,1", 8),
    ok("h,0,2", 0),                             # [5 HELD 1 by 2]
    no("s,1", 8), ok("h,5,1", 0),
    ok("s,1", 1),                               # [6 COMMIT 1]
    no("s,1", 8), no("h,6,3", 6), no("h,6,7", 6),
    ok("h,1,2", 0),                             # [7 HELD 2 by 2]
    ok("h,2,2", 0),                             # [8 HELD 3 by 2]
    ok("h,8,1", 0), no("h,7,1", 8), no("h,5,1", 8),
    ok("s,1", 2),                               # [9 COMMIT 2]
    no("s,1", 8),
    # COMMIT 2 before COMMIT 1 delivers both at once; in sequence one each.
    ok("h,9,0", 2), no("h,6,0", 8), no("h,9,0", 8),
    ok("h,6,2", 1), no("h,6,2", 8), ok("h,9,2", 1), no("h,9,2", 8),
    ok("h,6,1", 1), ok("h,9,1", 1), no("h,6,1", 8), no("h,2,2", 8),
    ok("h,2,0", 0),                             # [10 HELD 3 by 0]
    ok("h,10,1", 0),
    ok("s,1", 3),                               # [11 COMMIT 3]
    ok("h,11,2", 1), ok("h,11,1", 1), ok("h,11,0", 1), no("h,9,0", 8),
    # Delivered entries still hold their serials, and the drawn roll is empty.
    no("o,1,11,l,1", 10), no("o,1,14,d,1", 12, 2), no("o,0,14,l,50", 7),
    ok("o,1,14,l,50", 50),                      # [12 ACCEPT at 3]
    no("h,12,1", 6), no("s,1", 8),
    ok("h,12,0", 0),                            # [13 HELD 4 by 0]
    ok("h,12,2", 0),                            # [14 HELD 4 by 2]
    ok("h,14,1", 0), no("s,1", 8), ok("h,13,1", 0),
    ok("s,1", 4),                               # [15 COMMIT 4]
    ok("h,15,1", 1), no("h,16,1", 3), no("f,7,1", 2),
]

# All eight, led by 3. What one lacks, none settles.
OTHERS = [0, 1, 2, 4, 5, 6, 7]
CASES_D = [
    ok("f,255,3", 1),
    ok("o,3,1,l,100", 100), ok("o,3,2,d,40", 60),              # [0, 1 ACCEPT at 0, 1]
    *[ok(f"h,0,{f}", 0) for f in OTHERS],                      # [2 to 8 HELD 1]
    *[ok(f"h,1,{f}", 0) for f in OTHERS[:-1]],                 # [9 to 14 HELD 2, not by 7]
    *[no(f"h,{9 + i},{f}", 6) for i, f in enumerate(OTHERS[:-1])],
    *[ok(f"h,{9 + i},3", 0) for i in range(6)],
    no("s,3", 8), *[no(f"h,{2 + i},3", 8) for i in range(6)],
    ok("h,8,3", 0), ok("s,3", 1), no("s,3", 8),                # [15 COMMIT 1]
    ok("h,15,7", 1), no("h,15,8", 3),
    ok("h,1,7", 0), ok("h,16,3", 0), ok("s,3", 2),             # [16 HELD 2 by 7, 17 COMMIT 2]
    ok("h,17,7", 1), ok("h,17,4", 2), no("h,15,4", 8), ok("h,17,3", 2), no("h,17,3", 8),
    ok("h,15,0", 1), ok("h,17,0", 1), no("s,0", 7), no("o,7,3,l,1", 7),
    ok("o,3,3,d,60", 0), no("o,3,4,d,1", 12, 2),
]


# ---------------------------------------------------------------- a sole member

# Only COMMITs are sent, so they are numbered from 0.
SOLE = [
    ok("f,32,5", 1), no("s,5", 8), no("s,0", 7),
    ok("o,5,1,l,10", 10), no("h,0,5", 3),
    ok("s,5", 1), no("s,5", 8), ok("o,5,2,d,10", 0), no("o,5,3,d,1", 12, 2),
    ok("s,5", 2), no("h,2,5", 3), no("h,1,0", 6),
    ok("h,1,5", 2), no("h,0,5", 8), no("h,1,5", 8),
    no("o,0,3,l,1", 7), no("o,5,2,l,1", 10),
    *[ok(f"o,5,{serial},l,{200000 - serial}", 200000 - serial) for serial in range(3, 65)],
    no("o,5,65,l,1", 11), ok("s,5", 64), no("s,5", 8), ok("h,2,5", 62), no("h,3,5", 3),
]


# ---------------------------------------------------------------- bytes

def one_byte(value: int):
    """A row of one byte: unlawful, a call without its fields, or no known letter."""
    row = chr(value)
    if not 33 <= value <= 126:
        return bad(row, 1)
    return bad(row, 3 if row in "fosh" else 2)


BYTES = [
    *[one_byte(value) for value in range(256)],
    # Rows without fields, and fields without anything in them.
    *all_bad(2, "", "", ",", ",,", ",,,,,,,,", "o,,,", "o,,,,"),
    *all_bad(3, "f", "f,", "f,,,", "o,", "o,,", "s,,", "h,", "h,,,"),
    *all_bad(4, "f,,", "s,", "h,,", "o,,,l,", "o,,,d,"),
    # A CR or an LF alone is a byte of its row, also right before the pair.
    *all_bad(1, "\r", "\n", "\r\r", "\n\n", "\n\r", "s,\r0", "s,\n0", "s\r,0", "s\n,0", "\rs,0",
             "\ns,0", "s,0\r", "s,0\n", "s,0\n\r", "f,1,0\rf,1,0", "f,1,0\nf,1,0"),
    # The floor is reached with nine digits and not with ten.
    no("s,999999999", 2), bad("s,1000000000", 4), no("s,000000000", 2), bad("s,0000000000", 4),
    no("f,999999999,000000000", 4), bad("f,0000000001,0", 4), bad("f,1,0000000000", 4),
    # Other bytes among lawful ones.
    *[bad("s," + chr(value), 1) for value in (0, 9, 11, 32, 127, 128, 160, 255)],
    *all_bad(4, "s,\"0\"", "s,;", "s,'", "s,$", "s,^", "s,0;", "h,0;0,0", "f,{,}"),
    *all_bad(1, "f,\xc3\xa4,0", "\xef\xbb\xbff,1,0", "s,\xb2"),
    ok("f,1,0", 1), ok("o,0,999999999,l,000200000", 200000), no("o,0,999999999,l,1", 10),
    bad("o,0,1000000000,l,1", 4), ok("o,0,000000000,d,000020000", 180000),
    bad("", 2), ok("s,0", 2), ok("h,0,0", 2), bad("", 2), bad("\r", 1), bad("\n", 1),
    ok("o,0,1,d,1", 179999),                    # the last row, without its CR LF
]


# ---------------------------------------------------------------- sizes

def full(size: int):
    """A sheet of `size` bytes whose last row is granted."""
    head = [
        ok("f,3,0", 1), ok("o,0,1,l,5000", 5000),
        bad("s," + "0" * 20_000, 4), bad("," * 10_000, 2), bad("f" + "," * 5_000, 3),
        *[bad("", 2)] * 2_000,
        ok("h,0,1", 0), *[no("h,0,1", 8)] * 3_000,
        ok("h,1,0", 0), ok("s,0", 1), *[no("s,0", 8)] * 100,
    ]
    tail = [ok("h,2,0", 1), ok("h,2,1", 1), ok("o,0,2,d,1", 4999)]
    rest = size - len(sheet_of(head + tail)) - len(CRLF)
    return head + [bad("~" * rest, 2)] + tail


# ---------------------------------------------------------------- all ten calls

# Members 0, 1 and 2, led by 0; 2 is stopped. In brackets: what is sent, with its number.
CHANGE = [
    ok("f,7,0", 1), ok("o,0,1,l,100", 100), ok("h,0,1", 0),    # [0 ACCEPT, 1 HELD 1 by 1]
    ok("x,2", 0), no("h,0,2", 5), no("x,2", 5), no("x,8", 3), no("o,2,2,l,1", 5),
    ok("o,0,2,d,40", 60), ok("h,2,1", 0), ok("h,1,0", 0),      # [2 ACCEPT, 3 HELD 2 by 1]
    no("s,0", 8),
    # Epoch 2: members 1 and 3, led by 1.
    no("b,4", 3), ok("b,0", 2), no("b,0", 7), no("w,0", 7),    # [4 PROBE(2, 1)]
    no("p,0,3,1", 7), no("p,0,0,1", 4), no("p,4,0,9", 3), no("p,1,3,1", 7),
    no("h,4,3", 6), no("h,4,2", 5),
    ok("h,4,1", 0), ok("h,4,1", 0), no("h,5,1", 6),            # [5, 6 ANSWER yes by 1]
    no("r,4", 6), no("r,99", 3), ok("r,5", 1), no("r,6", 8), no("w,0", 7),
    no("p,0,10,3", 7), ok("p,0,10,1", 2), no("a,0", 7), no("r,5", 7),    # [7 NEWCONFIG(2)]
    no("h,7,3", 6), ok("h,7,1", 0), no("h,7,1", 7),            # [8 NEWSTATE(2)]
    # The new leader has been told nothing yet, but may order.
    no("s,1", 7), no("o,1,1,l,5", 10), no("o,1,3,d,61", 12, 2),
    ok("o,1,3,d,60", 0), no("h,9,3", 7),                       # [9 ACCEPT(2) at 2]
    ok("h,8,3", 0), no("h,8,3", 7), ok("h,9,3", 0),            # [10 HELD 2 by 3, 11 HELD 3]
    ok("h,11,1", 0), no("h,10,1", 8), ok("s,1", 3),            # [12 COMMIT(2) 3]
    ok("h,12,3", 3), ok("h,12,1", 3), no("h,12,0", 6), no("h,2,1", 7),
    # The old leader goes on in epoch 1, alone.
    ok("h,3,0", 0), ok("o,0,5,d,1", 59), no("h,13,1", 7),      # [13 ACCEPT(1) at 2]
    # Epoch 3: members 0 and 3, led by 3. The old leader follows and drops what it had.
    ok("b,1", 3), ok("h,14,3", 0), ok("r,15", 1),              # [14 PROBE(3, 2), 15 ANSWER]
    ok("p,1,9,3", 3), ok("h,16,3", 0), ok("h,17,0", 0),        # [16, 17 NEWSTATE(3), 18 HELD]
    no("h,3,0", 7), no("h,1,0", 7), no("s,0", 7), no("o,0,6,l,1", 7), no("h,4,0", 7),
    no("h,12,3", 7), ok("h,18,3", 0), no("h,18,3", 8),
    # Epoch 4 (0 and 4, led by 0) is stored; its leader hears of it late.
    ok("b,2", 4), ok("h,19,0", 0), ok("h,19,3", 0), ok("r,20", 1),       # [19 PROBE(4, 3)]
    ok("p,2,17,0", 4),                                         # [20, 21 ANSWER, 22 NEWCONFIG(4)]
    ok("b,2", 5), ok("h,23,4", 0), ok("r,24", 0), no("r,24", 8),         # [23, 24 ANSWER no]
    ok("w,2", 3), no("r,24", 8), no("w,2", 7),                 # [25 PROBE(5, 3)]
    ok("h,25,3", 0), ok("r,26", 1),                            # [26 ANSWER yes by 3]
    ok("h,22,0", 0), no("h,27,4", 7),                          # [27 NEWSTATE(4)]
    # Epoch 5: 3 alone. The other seat then comes too late.
    ok("b,3", 5), ok("p,2,8,3", 5), ok("h,29,3", 0),           # [28 PROBE(5, 4), 29 NEWCONFIG]
    ok("o,3,9,l,7", 7), no("h,30,3", 3), ok("s,3", 4), ok("h,30,3", 1),  # [30 COMMIT(5) 4]
    ok("h,28,0", 0), ok("r,31", 1), no("p,3,1,0", 14, 2),      # [31 ANSWER yes by 0]
    ok("a,3", 0), no("a,3", 7),
    # Epoch 6, again 3 alone: it works on from the state it has committed, 7 left.
    ok("b,0", 6), ok("h,32,3", 0), ok("r,33", 1), ok("p,0,8,3", 6), ok("h,34,3", 0),
    # In a new epoch nothing is settled yet, though what was delivered stays delivered.
    ok("s,3", 4), no("s,3", 8), no("h,35,3", 8), no("o,3,10,d,8", 12, 2),
    ok("o,3,10,d,7", 0), ok("s,3", 5), ok("h,36,3", 1), no("h,30,3", 7),
    ok("x,3", 0), no("o,3,10,l,1", 5), no("s,3", 5), no("x,3", 5), no("h,30,3", 5),
]


def epochs():
    """A sole member goes through all epochs; a 33rd configuration is refused."""
    rows = [ok("f,1,0", 1)]
    for new in range(2, 33):
        probe = 3 * (new - 2)
        rows += [ok("b,0", new), ok(f"h,{probe},0", 0), ok(f"r,{probe + 1}", 1),
                 ok("p,0,1,0", new), ok(f"h,{probe + 2},0", 0)]
    return rows + [ok("b,0", 33), ok("h,93,0", 0), ok("r,94", 1), no("p,0,1,0", 14, 3),
                   no("p,0,1,0", 14, 3), ok("a,0", 0)]


# Every hand of a PROBE sends an ANSWER, until the bag is full.
BAG = [
    ok("f,1,0", 1), ok("b,0", 2), *[ok("h,0,0", 0)] * 1_023, no("h,0,0", 13),
    no("h,1024,0", 3), ok("o,0,1,l,5", 5), no("s,0", 13), no("b,1", 13), no("b,0", 7),
    no("p,0,1,0", 7), ok("r,1023", 1), no("p,0,1,0", 13), ok("a,0", 0), ok("x,0", 0),
]


# ---------------------------------------------------------------- the carousel on the triple

# The leader's speculative carousel stands behind each fetch, station by station.
CAROUSEL = [
    no("o,0,1,t,3", 2), ok("f,3,0", 1),
    ok("o,0,1,t,3", 3),   # 3 1 2 0 4 5 6 7
    ok("o,0,2,t,3", 0),   # as it was
    ok("o,0,3,t,0", 3),   # 0 1 2 3 4 5 6 7
    ok("o,0,4,t,7", 7),   # 7 1 2 3 4 5 6 0
    ok("o,0,5,t,5", 5),   # 5 1 2 3 4 7 6 0
    ok("o,0,6,t,0", 7),   # 0 1 2 3 4 7 6 5
    ok("o,0,7,t,7", 5),   # 7 1 2 3 4 0 6 5
    ok("o,0,8,t,5", 7),   # 5 1 2 3 4 0 6 7
    ok("o,0,9,t,0", 5),   # 0 1 2 3 4 5 6 7
    ok("o,0,10,t,6", 6),  # 6 1 2 3 4 5 0 7
    no("o,0,11,t,8", 12, 1), no("o,0,11,t,999999999", 12, 1), ok("o,0,11,t,006", 0),
    no("o,0,1,t,3", 10), no("o,0,1,t,8", 10), no("o,1,12,t,2", 7), no("o,8,12,t,2", 3),
    *all_bad(2, "o,0,12,l,5", "o,0,12,d,5", "o,0,12,T,5", "o,0,12,tt,5", "o,0,12,,5"),
    *all_bad(3, "o,0,12", "o,0,12,t", "o,0,12,t,1,1"), *all_bad(4, "o,0,12,t,", "o,0,12,t,+1"),
    # Envelopes 0 to 10 are the ACCEPTs; HELD and COMMIT follow in turn.
    no("h,1,1", 9), ok("h,0,1", 0), no("h,0,1", 8), ok("h,11,0", 0), ok("s,0", 1),
    ok("h,12,1", 1), ok("h,12,0", 1), no("h,12,0", 8), no("s,0", 8),
    ok("h,1,1", 0), ok("h,2,1", 0), ok("h,14,0", 0), no("h,13,0", 8), ok("s,0", 3),
    ok("h,15,0", 2), ok("h,15,1", 2), ok("o,0,12,t,1", 1),
]


# ---------------------------------------------------------------- writing

def sheet_of(cases, last_ended: bool = True) -> bytes:
    sheet = b"".join(row.encode("latin-1") + CRLF for row, _ in cases)
    return sheet if last_ended else sheet[:-len(CRLF)]


def lines_of(cases) -> bytes:
    return b"".join(b"%d,%d,%d,%d,%d\r\n" % (number, *outcome)
                    for number, (_, outcome) in enumerate(cases, start=1))


def of(cases, last_ended: bool = True) -> tuple[bytes, bytes]:
    return sheet_of(cases, last_ended), lines_of(cases)


def four_call_sheets():
    """The sheets for the program that knows f, o, s and h, each with its lines."""
    return {
        "cases_a": of(CASES_A), "cases_b": of(CASES_B), "cases_c": of(CASES_C),
        "cases_d": of(CASES_D), "sole": of(SOLE), "bytes": of(BYTES, last_ended=False),
        "full": of(full(model.SHEET_BYTES)),
        "over": (sheet_of(full(model.SHEET_BYTES + 1)), b"0,6,0,0,0\r\n"),
        "empty": of([]), "pair": of([bad("", 2)]), "tail": (b"f,1,0\r", b"1,1,0,0,0\r\n"),
        "most": of([bad("", 2)] * (model.SHEET_BYTES // len(CRLF))),
    }


def carousel_sheets():
    return {"carousel": of(CAROUSEL)}


def ten_call_sheets():
    return {"change": of(CHANGE), "epochs": of(epochs()), "bag": of(BAG)}


def check(name: str, sheet: bytes, stated: bytes, letters: str, service: str) -> None:
    """Stop unless the model says what is put down here."""
    rows, played = model.rows_of(sheet), model.play(sheet, service, letters)
    if played == stated:
        return
    for number, (was, should) in enumerate(zip(played.split(CRLF), stated.split(CRLF))):
        if was != should:
            raise SystemExit(f"{name}: {rows[number]!r}: model {was!r}, stated {should!r}")
    raise SystemExit(f"{name}: model has {len(played)} bytes, {len(stated)} are stated")


def main() -> None:
    parser = argparse.ArgumentParser(description="Write run sheets and their lines.")
    parser.add_argument("folder", type=Path)
    parser.add_argument("--ten", action="store_true", help="the sheets that need all ten calls")
    parser.add_argument("--carousel", action="store_true", help="the carousel program's sheets")
    given = parser.parse_args()
    sheets, letters, service = four_call_sheets(), "fosh", "roll"
    if given.carousel:
        sheets, service = carousel_sheets(), "carousel"
    if given.ten:
        sheets, letters = ten_call_sheets(), model.LETTERS
    for name, (sheet, lines) in sheets.items():
        check(name, sheet, lines, letters, service)
    given.folder.mkdir(parents=True, exist_ok=True)
    for name, (sheet, lines) in sheets.items():
        (given.folder / f"{name}.sheet").write_bytes(sheet)
        (given.folder / f"{name}.lines").write_bytes(lines)
        rows = len(model.rows_of(sheet))
        print(f"{name}: {len(sheet)} bytes, {rows} rows, {lines.count(CRLF)} lines")


if __name__ == "__main__":
    main()
