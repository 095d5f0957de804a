#!/usr/bin/env python3
"""Brings the repository's own definitions and lemmas to snake case: usage: tools/respell.py [--dry]
A part of a name in lower camel case gets underscores. A definition, a constructor or a field joined by dashes gets underscores too; lemmas keep
their dashes, which join names. Names of src/ functions, strings, inputs and outputs stay. Run once, behind port.py; it knows the names by their
declarations in crates/*/specs and crates/*/proofs. In documents and edits the names are turned where they stand in code."""
import collections
import os
import re
import sys

ROOT = os.path.join(os.path.dirname(os.path.realpath(__file__)), "..")
# Names that would fall together with another name of theirs, and what is written instead.
APART = {"takeAll": "take_everything"}
# Lemmas whose name a definition takes: (crates in which the lemma stands or is cited, old, new).
LEMMAS = [
    (("supervisor",), "good_start", "good_start_lem"),
    (("both_claims",), "top_set", "top_set_lem"),
    (("counters_claims",), "one_more", "one_more_lem"),
    (("both_claims",), "at_set", "at_set_lem"),
    (("both_claims",), "seen_all", "seen_all_lem"),
    (("both_claims",), "past_equal", "past_equal_lem"),
    (("supervisor_claims",), "whole_room", "whole_room_lem"),
]
NAME = re.compile(r"[A-Za-z_][\w'₀-₉]*(?:-[\w'₀-₉+*<≤≡]+)*")
CAMEL = re.compile(r"^[a-z][a-z0-9]*(?:[A-Z][A-Za-z0-9]*)+$")


def snake(part):
    if part in APART:
        return APART[part]
    part = re.sub(r"([A-Z]+)([A-Z][a-z])", r"\1_\2", part)
    return re.sub(r"([a-z0-9])([A-Z])", r"\1_\2", part).lower()


def files(top, ends):
    for folder, dirs, names in os.walk(os.path.join(ROOT, top)):
        dirs[:] = sorted(d for d in dirs if d not in ("out", ".git", "target"))
        for n in sorted(names):
            if n.endswith(ends):
                yield os.path.join(folder, n)


def declared():
    """The definitions, constructors and fields that are joined by dashes, but for what answers goals."""
    found = set()
    for p in files("crates", ".antt"):
        rest = p.split("/proofs/")
        if len(rest) == 2 and rest[1].endswith("/Proof.antt"):
            continue
        mode = None
        for l in open(p, encoding="utf-8"):
            if l.startswith("--"):
                continue
            m = re.match(r"^(?:unfoldable|abbrev)\s+(?:pub\s+)?([^\s:]+)\s*:", l)
            if m:
                found.add(m[1])
                mode = None
                continue
            if re.match(r"^(?:pub\s+)?(?:record|data)\s+[^\s:]+", l):
                mode = True
                continue
            if l[:1] in " \t":
                m = re.match(r"^\s+(?:pub\s+)?([^\s:(){}]+)\s*:", l)
                if mode and m:
                    found.add(m[1])
            elif l.strip():
                mode = None
    return {n for n in found if "-" in n and NAME.fullmatch(n)} - imported()


def imported():
    """The names that files take from the kit."""
    found = set()
    for p in files("crates", (".antt", ".rt")):
        for m in re.finditer(r"\buse ([\w.]+)\.\{([^}]*)\}", open(p, encoding="utf-8").read()):
            if not m[1].startswith("Rattle.") or m[1].startswith("Rattle.std."):
                found.update(n.strip() for n in m[2].split(","))
    return found


def camels():
    """The parts in lower camel case that the files have outside strings and comments."""
    found = set()
    for p in files("crates", (".antt", ".rt")):
        for l in open(p, encoding="utf-8"):
            l = re.sub(r'"(?:\\.|[^"\\])*"', "", re.sub(r"(--|//).*", "", l))
            for n in NAME.findall(l):
                found.update(c for c in n.split("-") if CAMEL.match(c))
    return found


def respell(text, dashed, parts):
    def one(m):
        n = m[0]
        new = "-".join(snake(c) if c in parts else c for c in n.split("-"))
        return new.replace("-", "_") if n in dashed else new

    return NAME.sub(one, text)


def outside_strings(text, turn):
    out, last = [], 0
    for m in re.finditer(r'b?"(?:\\.|[^"\\\n])*"', text):
        out += [turn(text[last : m.start()]), m[0]]
        last = m.end()
    return "".join(out + [turn(text[last:])])


def comments(text, mark, turn):
    """Comments are prose: there a dashed name is turned within backticks alone, a camel one anywhere."""
    lines = []
    for l in text.split("\n"):
        i = l.find(mark)
        lines.append(turn(l, False) if i < 0 else turn(l[:i], False) + turn(l[i:], True))
    return "\n".join(lines)


def main():
    dry = "--dry" in sys.argv
    parts = camels()
    camel = {snake(n) for n in parts}
    taken = camel | imported()
    dashed = {n for n in declared() if n.replace("-", "_") not in taken}

    def turn(text, prose):
        if not prose:
            return respell(text, dashed, parts)
        bits = text.split("`")
        return "`".join(respell(b, dashed if k % 2 else set(), parts) for k, b in enumerate(bits))

    lemmas = collections.defaultdict(list)
    for crates, old, new in LEMMAS:
        for c in crates:
            lemmas[c].append((re.compile(rf"(?<![\w'.-]){old}(?![\w'-])"), new))
    changed = 0
    for p in list(files("crates", (".antt", ".rt", ".edit"))) + list(files("tests/mutants", ".edit")) + list(files("docs", ".md")) + [os.path.join(ROOT, "README.md")]:
        if p.endswith(("CHANGES.md", "PORT.md")):
            continue
        old = open(p, encoding="utf-8").read()
        t = old
        crate = os.path.relpath(p, os.path.join(ROOT, "crates")).split("/")[0]
        if p.endswith(".antt"):
            for pattern, new in lemmas.get(crate, ()):
                t = pattern.sub(new, t)
            t = comments(t, "--", turn)
        elif p.endswith(".rt"):
            t = outside_strings(t, lambda x: comments(x, "//", turn))
        elif p.endswith(".edit"):
            t = "\n".join(turn(l, False) if re.match(r"(old|new):", l) else l for l in t.split("\n"))
        else:
            t = turn(t, True)
        if t != old:
            changed += 1
            if not dry:
                open(p, "w", encoding="utf-8").write(t)
    print(f"respell: {len(dashed)} dashed names and {len(parts)} camel parts, {changed} files")
    if dry:
        new = collections.defaultdict(set)
        for n in dashed:
            new[n.replace("-", "_")].add(n)
        for n in parts:
            new[snake(n)].add(n)
        for k, v in sorted(new.items()):
            if len(v) > 1:
                print("together:", k, sorted(v))
        for p in files("crates", (".antt", ".rt")):
            t = re.sub(r"(--|//).*", "", open(p, encoding="utf-8").read())
            t = re.sub(r'"(?:\\.|[^"\\])*"', "", t)
            names = set(NAME.findall(t))
            whole = {c for n in names for c in n.split("-")} | names
            for k, v in new.items():
                if v & whole and re.search(rf"(?<![\w'.-]){re.escape(k)}(?![\w'-])(?!\s*[(!])", t):
                    print("beside:", k, sorted(v & whole), p[p.index("crates"):])
    return 0


sys.exit(main())
