#!/usr/bin/env python3
"""Writes the fixed input of the cue program: crates/cue_answers/stdin is this script's output, byte for byte."""
import sys

STORE = 65_536
CUT = b"MIC 7 TO LSP 31 GAIN -120"  # good also when cut to GAIN -12 or GAIN -1

EDGES = [
    # document 01's three lines
    CUT, b"MIC 65 TO LSP 1 GAIN 0", b"MIC 7 TO LSP",
    # blanks, other bytes that print nothing, bytes over 127, 80 and 81 characters
    b"", b"   ", b"  MIC  7  TO  LSP  31  GAIN  -120  ", b"MIC\t7 TO LSP 31 GAIN -120", CUT + b"\r", b"MIC 7\0 TO LSP 31 GAIN 0", b"MIC 7 TO LSP 31 GAIN 0\xff",
    b"\xff", CUT + b" " * 55, CUT + b" " * 56, b" " * 55 + CUT, b" " * 56 + CUT, b" " * 80, b" " * 81, CUT + b" " * 55 + b"\x80", b"\x80" + CUT, b"\x7f",
    b"\0", b"\t", b"\r", CUT + b"\0", CUT + b"\t", b"\t" + CUT, b"MIC 7 TO\0LSP 31 GAIN 0", b"MIC 7 TO LSP 31 GAIN\t0", b"\x0b" + CUT, CUT + b"\x0c",
    # words
    CUT + b" 0", b"mic 7 TO LSP 31 GAIN 0", b"MIC 7 to LSP 31 GAIN 0", b"MIC 7 TO LSPS 31 GAIN 0", b"MIC 7 TO LSP 31 GAI 0", b"MIC 7 TO LSP 31 GAIN",
    b"MIC TO LSP 31 GAIN 0", b"MIC7 TO LSP 31 GAIN 0", b"MIC 7 TO LSP 31 GAIN0", b"MIC 7 8 TO LSP 31 GAIN 0",
    b"TO 7 MIC LSP 31 GAIN 0", b"MICMIC 7 TO LSP 31 GAIN 0",
    # range ends of the matrix and the gain
    b"MIC 64 TO LSP 128 GAIN 120", b"MIC 1 TO LSP 1 GAIN -960", b"MIC 1 TO LSP 129 GAIN 0", b"MIC 1 TO LSP 0 GAIN 0", b"MIC 1 TO LSP 1 GAIN 121",
    b"MIC 1 TO LSP 1 GAIN -961", b"MIC 0 TO LSP 1 GAIN 0", b"MIC -1 TO LSP 1 GAIN 0", b"MIC 1 TO LSP -1 GAIN 0", b"MIC 65543 TO LSP 1 GAIN 0",
    b"MIC 257 TO LSP 257 GAIN 256", b"MIC 4294967297 TO LSP 1 GAIN 0", b"MIC -0 TO LSP 1 GAIN 0",
    # numbers: 7 and 8 from the left, then 12
    b"MIC x TO LSP 34359738368 GAIN 0", b"MIC 34359738368 TO LSP x GAIN 0", b"MIC 65 TO LSP x GAIN 0", b"MIC 65 TO LSP 1 GAIN 34359738368",
    b"MIC 34359738367 TO LSP 1 GAIN 0", b"MIC -34359738368 TO LSP 1 GAIN 0", b"MIC -34359738369 TO LSP 1 GAIN 0", b"MIC 1 TO LSP 1 GAIN -34359738369",
    b"MIC 18446744073709551623 TO LSP 1 GAIN 0", b"MIC 7 TO LSP 340282366920938463463374607431768211457 GAIN 0", b"MIC 1 TO LSP 1 GAIN -99999999999999999999",
    b"MIC 99999999999x TO LSP 1 GAIN 0", b"MIC - TO LSP 1 GAIN 0", b"MIC 7 TO LSP -- GAIN 0", b"MIC 7 TO LSP 31 GAIN --1", b"MIC 7 TO LSP 31 GAIN 1-",
    b"MIC +7 TO LSP 31 GAIN 0", b"MIC 7 TO LSP 31 GAIN +1", b"MIC 7 TO LSP 31 GAIN -12.5", b"MIC 7, TO LSP 31 GAIN 0",
    b"MIC 0x7 TO LSP 31 GAIN 0", b"MIC 7_0 TO LSP 31 GAIN 0",
    b"MIC / TO LSP : GAIN 0", b"MIC 7 TO LSP 3: GAIN 0", b"MIC 7 TO LSP 31 GAIN /",
    b"MIC 0000007 TO LSP 00031 GAIN -0", b"MIC 7 TO LSP 31 GAIN -" + b"0" * 54 + b"120", b"MIC " + b"0" * 55 + b"7 TO LSP 31 GAIN -12",
]

FAULTS = [
    b"MIC 65 TO LSP 1 GAIN -120", b"MIC 1 TO LSP 129 GAIN 12", b"MIC 12 TO LSP 12 GAIN 121", b"MIC 12 TO LSP 12 GAIN -961", b"MIC 12 TO LSP 12 GAIN -12x",
    b"MIC 1x TO LSP 12 GAIN 99", b"MIC 34359738368 TO LSP 1 GAIN 0", b"MIC 1 TO LSP 1 GAIN -34359738369", b"MIC 12 TO LSP 12 GAIN", b"MIC 1 TO LSP 1 GAIN 1 1",
    b"MIC 12 TO LSP 12 GAIN -12\x80", b"MIC 12 TO LSP 12 GAI -120",
]


def spread(words, blanks, places):
    """The words parted by one blank each, and more blanks put in at the places: 0 is in front of word 0, 7 is behind word 6."""
    gaps = [b""] + [b" "] * (len(words) - 1) + [b""]
    for k in range(blanks):
        gaps[places[k % len(places)] % len(gaps)] += b" "
    return b"".join(gap + word for gap, word in zip(gaps, words + [b""]))


def ordinary(i):
    """Cue i of a long row that meets every microphone, loudspeaker and gain; one in nine is faulty."""
    if i % 9 == 8:
        return FAULTS[i // 9 % len(FAULTS)].split()
    return (b"MIC %d TO LSP %d GAIN %d" % (i % 64 + 1, i * 5 % 128 + 1, i * 7 % 1081 - 960)).split()


def wide():
    """4,096 lines of 33 bytes: as 33 is odd, they end once at every offset of a piece of 4,096 bytes, and twice at every offset of one of 2,048.
    Three of four have no blank behind the gain, so that a cut gain looks like a whole one."""
    for i in range(4096):
        words = ordinary(i)
        blanks = 32 - len(b" ".join(words))
        yield spread(words, blanks, [i * 3 % 8, i * 5 % 8] if i % 4 == 3 else [i % 7, i // 7 % 7, i // 49 % 7])


def loose(i):
    """Line i of many lengths: leading zeros, and up to 38 blanks more than needed."""
    words = ordinary(i * 11)
    if i % 3 == 0:
        words[1] = words[1].rjust(2 + i % 5, b"0")
    return spread(words, i * i % 39, [i % 8, i * 3 % 8, 6])


def across(place):
    """Loose lines from the place in the input on; at each end of a piece of 2,048 bytes stands CUT, with a line of blanks in front to bring it there.
    The end of a piece parts it after 1 to 26 bytes; at 20 to 26 once at the end of a piece of 4,096 bytes too."""
    i = 0
    for part in [part for part in range(26, 19, -1) for _ in range(2)] + list(range(19, 0, -1)):
        while True:
            line, left = loose(i), 2048 - place % 2048
            if len(line) + 1 > left - part - 1:
                break
            yield line
            place += len(line) + 1
            i += 1
        yield b" " * (left - part - 1)
        yield CUT
        place += left - part + len(CUT) + 1


def long():
    """Lines too long for a cue, each a good cue but for its length, up to the store's limit and past it; a byte over 127 at the front, within, or last.
    Short lines stand between and behind them."""
    for size in (81, 2_047, 2_048, 2_049, 4_095, 4_096, 4_097):
        yield CUT.ljust(size)
        yield CUT.ljust(size - 1) + b"\x80" if size % 2 else b"\xff" + CUT.rjust(size - 1)
        yield CUT
    for size, place in ((STORE - 1, STORE // 2), (STORE, STORE - 1), (STORE + 1, 0)):
        line = CUT.ljust(size) if size % 2 else CUT.rjust(size)
        yield line
        yield b"MIC 12 TO LSP 12 GAIN -12"
        yield line[:place] + b"\x80" + line[place + 1 :]
        yield b"MIC 12 TO LSP"


def lines():
    front = EDGES + list(wide())
    yield from front
    yield from across(sum(len(line) + 1 for line in front))
    yield from long()
    yield from EDGES
    yield from [b""] * 12_000  # answered with the most bytes that a piece can ask for
    yield CUT
    yield b"MIC 64 TO LSP 128 GAIN -120"  # not ended


if __name__ == "__main__":
    sys.stdout.buffer.write(b"\n".join(lines()))
