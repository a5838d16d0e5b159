#!/usr/bin/env python3
"""Brings this repository's own names to the spelling of the library: run once, behind the kit's port.py, at the top.

Definitions, lemmas, fields and constructors of specs/ and proofs/ are in snake case, and the proof of a function f is
f_spec. Functions of src/, exported names and strings keep theirs. A lemma that would have another name of its file gets _lem
behind it. It prints names that would fall together and stops.
"""
import collections
import os
import re
import sys

WORD = re.compile(r"[A-Za-z_][A-Za-z0-9_'₀-₉≢]*(?:-[A-Za-z0-9_'₀-₉≢]+)*")
# names that the checker makes or asks for
MADE = re.compile(r"^(invariant|decreases|ghost|loop|overflow|bounds|slice_bounds|nonzero)-|-(init|preserved|smaller|requires)$")
KEPT = {"returns"}


def snake(name):
    name = name.replace("-", "_")
    name = re.sub(r"([a-z0-9])([A-Z])", r"\1_\2", name)
    return name.lower()


def files(*ends):
    for folder, dirs, names in os.walk("crates"):
        dirs[:] = sorted(d for d in dirs if d not in ("out", "must-fail"))
        for n in sorted(names):
            if n.endswith(ends):
                yield os.path.join(folder, n)


def read(p):
    with open(p, encoding="utf-8") as f:
        return f.read()


def own():
    """The names that specs/ and proofs/ declare, each with the files that do."""
    at = collections.defaultdict(set)
    for p in files(".antt"):
        for line in read(p).split("\n"):
            m = re.match(r"\s*(?:abbrev |unfoldable )?(?:pub )?(?:data |record |ruleset )?([^\s:(){}=]+)(?: [^:(){}=]*)? *[:=](?:\s|$)", line)
            if m and not line.lstrip().startswith(("--", "use ", "where")):
                at[m.group(1)].add(p)
            m = re.match(r"\s*(?:abbrev |unfoldable )?(?:pub )?(?:abbrev |unfoldable )?(?:data |record |ruleset )(\S+)", line)
            if m:
                at[m.group(1)].add(p)
    return at


def functions():
    found = set()
    for p in files(".rt"):
        found |= set(re.findall(r"\bfn ([a-z0-9_]+)", read(p)))
        found |= set(re.findall(r"\blet (?:mut )?([a-z0-9_]+)", read(p)))
    return found


def table():
    at = own()
    to = {}
    for n in at:
        if MADE.search(n) or n in KEPT or not re.match(r"^[a-z]", n):
            continue
        if "-" in n or re.search(r"[a-z0-9][A-Z]", n):
            to[n] = snake(n)
    for f in functions():
        if "_" in f:
            to.setdefault(f.replace("_", "-"), f)
    return at, to


def turned(text, to, rust):
    out = []
    for line in text.split("\n"):
        mark = "//" if rust else "--"
        code, sep, note = line, "", ""
        i = line.find(mark)
        if i >= 0 and (i == 0 or line[i - 1] == " "):
            code, sep, note = line[:i], mark, line[i + len(mark):]
        if rust:
            code = WORD.sub(lambda m: to.get(m.group(0), m.group(0)) if "-" not in m.group(0) or "ghost use" in code else m.group(0), code)
        else:
            code = WORD.sub(lambda m: to.get(m.group(0), m.group(0)), code)
        # in a comment a word with a dash may be English
        note = WORD.sub(lambda m: to.get(m.group(0), m.group(0)) if "-" not in m.group(0) else m.group(0), note)
        note = re.sub(r"`([^`]*)`", lambda m: "`" + WORD.sub(lambda w: to.get(w.group(0), w.group(0)), m.group(1)) + "`", note)
        out.append(code + sep + note)
    return "\n".join(out)


def together(at, to):
    """Files in which two names become one."""
    bad = set()
    for p in files(".antt", ".rt"):
        seen = collections.defaultdict(set)
        for w in WORD.findall(read(p)):
            seen[to.get(w, w)].add(w)
        for new, olds in seen.items():
            # a folder of proofs/ has its function's name
            if len(olds) > 1 and any(o in at for o in olds) and not p.endswith("/Proof.antt") and not p.endswith(".rt"):
                bad.add((p, new, tuple(sorted(olds))))
    return sorted(bad)


def main(look):
    at, to = table()
    to.update(APART)
    bad = [b for b in together(at, to) if b[1] not in SAME]
    for p, new, olds in bad:
        print(f"{p}: {', '.join(olds)} would both be {new}")
    if look:
        print(len(to), "names")
        return 0
    if bad:
        return 1
    for p in files(".antt", ".rt"):
        was = read(p)
        now = was
        for n in APART_IN.get(p, []):
            now = re.sub(r"\b%s\b" % n, n + "_lem", now)
        now = turned(now, to, p.endswith(".rt"))
        if p.endswith("/Proof.antt"):
            f = os.path.basename(os.path.dirname(p))
            now = re.sub(r"\b%s[-_]spec\b" % re.escape(f).replace("_", "[-_]"), f + "_spec", now)
        if now != was:
            with open(p, "w", encoding="utf-8") as it:
                it.write(now)
    return 0


# names that would fall together with another: a lemma beside the word or the function of its name
APART = {
    n: snake(n) + "_lem"
    for n in (
        "bit-and", "bit-or", "comparison-before", "decided-before", "decision-before", "rule-before", "unequal-before",
        "in-range", "are-digits", "record-size", "root-to", "flat-with", "can-resume", "before-run", "is-sized", "counted-in",
    )
}
# lemmas that port.py gave the spelling of another name of their crate, by the files that have them
APART_IN = {
    "crates/cutting/proofs/Making.antt": ["between_in"],
    "crates/cutting/proofs/Goodness.antt": ["between_in"],
    "crates/cutting/proofs/Slicing.antt": ["slice_cut"],
    "crates/joining/proofs/Filling.antt": ["next_place"],
    "crates/number/proofs/ReadBack.antt": ["is_digit"],
}
# one name of two spellings, which is meant
SAME = {"between_in", "slice_cut", "next_place", "is_digit"}

if __name__ == "__main__":
    raise SystemExit(main("--look" in sys.argv))
