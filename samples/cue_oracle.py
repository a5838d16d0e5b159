#!/usr/bin/env python3
"""What the cue program writes for the bytes on standard input, from document 01 alone.

"Cue lines and labels" has the line, the order of its refusals, how lines end and the program's text; "Numbers" has base 10 and its range (no blank can
stand in a word); "Refusal numbers" has 3 and then 2 before a call's own numbers.
"""
import re
import sys

STORE = 65_536
RANGE = range(-34_359_738_368, 34_359_738_368)
MICROPHONES, LOUDSPEAKERS, GAINS = range(1, 65), range(1, 129), range(-960, 121)


def answer(line):
    """The answer to one line, without the line's number in front."""
    if len(line) > STORE:
        return "refused 3"
    if not line.isascii():
        return "refused 2"
    if len(line) > 80:
        return "refused 11"
    words = [word for word in line.split(b" ") if word]
    if len(words) != 7 or [words[0], words[2], words[3], words[5]] != [b"MIC", b"TO", b"LSP", b"GAIN"]:
        return "refused 11"
    numbers = []
    for word in (words[1], words[4], words[6]):
        if not re.fullmatch(rb"-?[0-9]+", word):
            return "refused 7"
        if int(word) not in RANGE:
            return "refused 8"
        numbers.append(int(word))
    n, m, g = numbers
    if n not in MICROPHONES or m not in LOUDSPEAKERS or g not in GAINS:
        return "refused 12"
    return f"ok {n} {m} {g}"


def text(given, ended=True):
    """The program's text for the bytes given; where their end isn't the end of the input, the text so far: nothing on the unended line, and no total."""
    *lines, last = given.split(b"\n")
    if ended and last:
        lines.append(last)
    answers = [answer(line) for line in lines]
    listing = ["cue answers"] + [f"{i} {a}" for i, a in enumerate(answers, 1)]
    if ended:
        ok = sum(a.startswith("ok") for a in answers)
        listing.append(f"total {len(lines)} ok {ok} refused {len(lines) - ok}")
    return "".join(line + "\n" for line in listing).encode()


if __name__ == "__main__":
    sys.stdout.buffer.write(text(sys.stdin.buffer.read()))
