#!/usr/bin/env python3
"""The places that docs/DESIGN-PASS.md counts, by its points 1 to 8: python3 tools/design.py [POINT..]

Prints each place of a point, then their number. A place is a line, a group of functions or a group of clauses: what a point asks about,
whether or not it is to change. --counts prints the numbers alone."""

import collections
import glob
import re
import sys

SOURCES = sorted(glob.glob("crates/*/src/*.rt"))
FUNCTION = re.compile(r"^( *)(?:pub(?:\(crate\))? )?(?:extern \"C\" )?fn (\w+)(.*?)^\1\}", re.M | re.S)


def functions():
    """Every function of src/: its file, its name, its signature up to the clauses, its clauses, its body."""
    for path in SOURCES:
        text = open(path).read()
        for found in FUNCTION.finditer(text):
            head, brace, body = found[3].partition("\n" + found[1] + "{\n")
            if not brace:
                head, _, body = found[3].partition("{\n")
            signature = re.split(r"\n\s+(?:requires|ensures)\b", head)[0]
            yield path, found[2], signature, head[len(signature):], body


def lines(pattern):
    """The lines of src/ that a pattern fits, without comments."""
    for path in SOURCES:
        for n, line in enumerate(open(path), 1):
            if re.search(pattern, line.split("//")[0]):
                yield f"{path}:{n}: {line.strip()}"


def options():
    """1: a flag or a refusal beside a value, 0 for none, numbers for refusals and kinds, own enums."""
    yield from lines(r"^\s*pub (refusal: Refusal|(present|outstanding|started|found|logged|fine|done): bool|cause: u8|number: u8)")
    yield from lines(r"(number|cause|end|next|from|n|want|reached) (==|!=) 0 \{")
    yield from lines(r"^\s*(pub )?(\(crate\) )?enum ")
    yield from lines(r"Refusal::none\(\)|const \w+: u8 = \d+;")
    yield from lines(r"^\s*(\d+|\d+\.\.=\d+) => ")


def shape(text):
    """A text without what twins differ in: names, numbers, strings."""
    text = re.sub(r"//[^\n]*", "", text)
    text = re.sub(r'b?"(?:[^"\\]|\\.)*"', "S", text)
    text = re.sub(r"\b(?!(?:if|else|while|for|in|let|mut|match|return|as|fn|true|false|self)\b)[A-Za-z_]\w*", "N", text)
    text = re.sub(r"\b\d\w*", "0", text)
    text = re.sub(r"(?:N(?:::|\.))+N", "N", text)
    return re.sub(r"\s+", " ", text)


def twins():
    """2: functions of one crate, or of two, whose signatures and bodies have one shape, names and numbers left out."""
    groups = collections.defaultdict(list)
    for path, name, signature, _, body in functions():
        crate = path.split("/")[1]
        groups[shape(signature), shape(body)].append(f"{crate}::{name}")
    for (_, body), members in groups.items():
        if len(members) > 1 and len(body) > 8:
            yield ", ".join(members)


def loops():
    """3: loops."""
    yield from lines(r"^\s*while ")


def by_hand():
    """4: equality, order, conversion and printing in functions of their own."""
    yield from lines(r"\bfn (same\w*|is_(done|cancel|identity|channel|first)|at_least|exceeds|\w+_of|of_\w+|\w+_to|\w+_from|from_\w+|kind|low|high|pair|flag\w*|number\w*|put\w*)\b")


def repeated():
    """5: a clause in three or more functions, two parameters side by side in three or more."""
    clauses = collections.defaultdict(list)
    pairs = collections.defaultdict(list)
    for path, name, signature, contract, _ in functions():
        where = f"{path.split('/')[1]}::{name}"
        for clause in re.findall(r"requires(?: \w+)? \{ (.*?) \}\n", contract + "\n"):
            clauses[clause].append(where)
        parameters = re.findall(r"(\w+: [^,()]+?)(?=,|\)|$)", signature.split("->")[0].strip(" ()\n"))
        for one, two in zip(parameters, parameters[1:]):
            pairs[one.strip(), two.strip()].append(where)
    for clause, where in clauses.items():
        if len(where) > 2:
            yield f"{clause}: {', '.join(where)}"
    for pair, where in pairs.items():
        if len(where) > 2:
            yield f"{'; '.join(pair)}: {', '.join(where)}"


def buffers():
    """6: an array or a buffer with a length beside it, parallel arrays, places in place of parts."""
    yield from lines(r"^\s*pub (count|length|size|wrote): (usize|u8)|\b(types|stamps): &?\[")
    yield from lines(r"\b(len|count|length|n): (usize|u8)\b.*(->|\{|,)")


def switches():
    """7: a match whose arms call one function each."""
    for path, name, _, _, body in functions():
        arms = re.findall(r"=> \w+(?:::\w+)?\(", body)
        if len(arms) > 2:
            yield f"{path}: {name}, {len(arms)} arms"


def answers():
    """8: answers of one text in three or more proofs, and imports of the older library's modules."""
    groups = collections.defaultdict(list)
    for path in sorted(glob.glob("crates/*/proofs/**/Answers.antt", recursive=True)):
        for found in re.finditer(r"^pub (\S+) : goal\S*\n(?:unfolding .*\n)?\1 (.*?)(?=^\S|\Z)", open(path).read(), re.M | re.S):
            groups[re.sub(r"\s+", " ", found[2]).strip()].append(f"{path.split('/proofs/')[0][7:]}::{path.split('/')[-2]}")
    for text, where in groups.items():
        if len(where) > 2:
            yield f"{text[:80]}: {len(where)} answers in {len(set(where))} proofs"
    for path in sorted(glob.glob("crates/*/proofs/**/*.antt", recursive=True)):
        if re.search(r"^use (mathlib|lib|borrow|native|Prim)\.", open(path).read(), re.M):
            yield f"{path}: imports of the older library's modules"


POINTS = [options, twins, loops, by_hand, repeated, buffers, switches, answers]


def main():
    counts = "--counts" in sys.argv
    wanted = [int(word) for word in sys.argv[1:] if word.isdigit()] or range(1, len(POINTS) + 1)
    for point in wanted:
        places = list(POINTS[point - 1]())
        if not counts:
            print("\n".join(places))
        print(f"{point}: {len(places)} places ({POINTS[point - 1].__doc__.split(': ', 1)[1]})")


main()
