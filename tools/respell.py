#!/usr/bin/env python3
"""Brings the repository's own names to today's spelling, once, after the kit's own script.

Definitions, fields and constructors of antt in camel case become snake case; a lemma's name keeps its dash
between two names and has an underscore before and behind a plain word; an alias has no middle dot and no
dash. Names that come from the library, and what Rattle generates (the labels of a Proof.antt), stay.

    tools/respell.py            at the top of the repository
"""
import collections
import glob
import os
import re
import sys

SIGNATURE = re.compile(
    r"\s*(?:(?:abbrev|unfoldable|pub|data|record|ghost)\s+)*([^\s(){}.,;:=]+)"
    r"(?:\s+\{[^}]*\})*(?:\s+\([^)]*\))*\s*:(?!:)"
)
TOKEN = re.compile(r"[A-Za-z_][\w']*(?:[·-][\w']+)*")
# words of the library that are names for the dash
LIBRARY = set(
    "length take drop map append set get_or filter min reverse sum replicate cond not suc zero fold".split()
)


def antt_files():
    found = glob.glob("crates/*/specs/**/*.antt", recursive=True)
    return sorted(found + glob.glob("crates/*/proofs/**/*.antt", recursive=True))


def code(line):
    return line.split("--")[0]


def snake(name):
    return re.sub(r"(?<=[a-z0-9])([A-Z])", lambda m: "_" + m.group(1).lower(), name)


def is_camel(name):
    return re.match(r"[a-z][a-z0-9]*[A-Z][A-Za-z0-9]*'*$", name) is not None


def gather(files):
    """Own names by where they are defined, names imported from elsewhere, and every token."""
    defined, laws, foreign, tokens = set(), set(), set(), collections.Counter()
    for path in files:
        for line in open(path):
            text = code(line).rstrip()
            tokens.update(TOKEN.findall(text))
            use = re.match(r"(?:ghost )?use\s+([\w.·+-]+?)\.\{(.*)\}", text)
            if use and not own_module(use.group(1)):
                foreign.update(n.split(" as ")[-1].strip() for n in use.group(2).split(","))
            if path.endswith("/Proof.antt"):
                continue
            sig = SIGNATURE.match(text)
            if sig:
                (defined if "/specs/" in path else laws).add(sig.group(1))
    return defined, laws, foreign, tokens


def own_crates():
    return {os.path.basename(p) for p in glob.glob("crates/*")}


CRATES = own_crates()


def own_module(path):
    parts = path.split(".")
    return parts[0] == "Rattle" and len(parts) > 1 and parts[1] in CRATES


def segment(name, names):
    """A lemma's name: a dash between two names, else an underscore."""
    parts = re.split(r"[-_]", name)
    out, at, was_name = "", 0, None
    while at < len(parts):
        end = next((j for j in range(len(parts), at, -1) if "_".join(parts[at:j]) in names), None)
        word = "_".join(parts[at : end or at + 1])
        if out:
            out += "-" if was_name and end else "_"
        out += word
        was_name, at = end is not None, end or at + 1
    return out


def renaming(files):
    defined, laws, foreign, tokens = gather(files)
    table = {}
    camel = set(t for t in tokens if is_camel(t))
    for name in camel:
        if name not in foreign:
            table[name] = snake(name)
    names = {table.get(n, n) for n in defined if re.match(r"[a-z]", n)} | LIBRARY
    taken = set(tokens) | set(table.values())
    for name in sorted(laws):
        if "-" not in name or not re.match(r"[a-z][a-z0-9_-]*'*$", name) or name in foreign:
            continue
        new = segment(name, names)
        if new != name and new not in taken:
            table[name] = new
            taken.add(new)
    for token in tokens:
        if "·" in token:
            first, last = token.split("·")
            table[token] = f"{snake(first[0].lower() + first[1:])}_{snake(last)}"
        alias = re.match(r"([A-Z]\w*)-as-([A-Z]\w*)$", token)
        if alias:
            table[token] = alias.group(1) + alias.group(2)
    for token, new in table.items():
        if ("·" in token or "-as-" in token) and new in set(tokens):
            sys.exit(f"respell: {token} would become {new}, which stands already")
    return table


def apply(text, table):
    return TOKEN.sub(lambda m: table.get(m.group(0), m.group(0)), text)


# a clause of a contract, or a line that brings antt's names into scope
def respell_source(text, table):
    out, depth, inside = [], 0, False
    for line in text.split("\n"):
        starts = re.match(r"\s*(?:requires|ensures|ghost|invariant)\b", line)
        if starts or inside:
            line = apply(line, table)
            depth = (0 if starts and not inside else depth) + line.count("{") - line.count("}")
            inside = depth > 0
        elif line.lstrip().startswith("//"):
            line = apply_camel(line, table)
        out.append(line)
    return "\n".join(out)


def apply_camel(text, table):
    return TOKEN.sub(lambda m: table.get(m.group(0), m.group(0)) if is_camel(m.group(0)) else m.group(0), text)


# in a page only what stands in back quotes is a name
def respell_page(text, table, tokens):
    return re.sub(r"`[^`\n]*`", lambda m: apply(m.group(0), with_known(m.group(0), table, tokens)), text)


# a page and an edit still have the older form of the names that the kit's script has brought over
def with_known(text, table, tokens):
    known = dict(table)
    for name in TOKEN.findall(text):
        if name in table or name in tokens:
            continue
        for new in (snake(name), name.replace("-", "_")):
            if new != name and new in tokens:
                known[name] = new
    return known


def main():
    files = antt_files()
    table = renaming(files)
    if "--table" in sys.argv:
        for old, new in sorted(table.items()):
            print(old, new)
        return
    for path in files:
        rewrite(path, lambda t: apply(t, table))
    for path in glob.glob("crates/*/src/**/*.rt", recursive=True):
        rewrite(path, lambda t: respell_source(t, table))
    tokens = gather(antt_files())[3]
    for path in glob.glob("crates/*/must-fail/*.edit"):
        rewrite(path, lambda t: respell_edit(t, with_known(t, table, tokens)))
    for path in ["README.md"] + glob.glob("docs/*.md") + glob.glob("docs/changes/*.md"):
        rewrite(path, lambda t: respell_page(t, table, tokens))


def respell_edit(text, table):
    out, antt = [], False
    for line in text.split("\n"):
        if line.startswith("file:"):
            antt = line.rstrip().endswith(".antt")
        elif line.startswith(("old:", "new:")) and antt:
            line = apply(line, table)
        elif line.startswith(("old:", "new:")) or line.startswith("#"):
            line = apply_camel(line, table)
        out.append(line)
    return "\n".join(out)


def rewrite(path, change):
    old = open(path).read()
    new = change(old)
    if new != old:
        open(path, "w").write(new)


if __name__ == "__main__":
    main()
