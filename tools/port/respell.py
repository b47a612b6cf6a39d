#!/usr/bin/env python3
"""Brings the repository's own definitions and lemmas to the spelling of the newer Rattle: words in snake case, types and modules in
camel case. A dash stays between two names, as in `length-rules_of`, and becomes `_` before a plain word.

usage: tools/port/respell.py        (once, at the top of the checkout, right after the kit's port.py)

It turns specs/, proofs/, the clauses and comments of src/, the edits of must-fail/, and names in the pages and in comments of host/,
include/ and examples/. The names that a function's own proof file declares for its goals stay: only whole words of one name with an
inner capital are turned there. It stops, and writes nothing, where two names would fall together.
"""
import collections
import pathlib
import re
import sys

ROOT = pathlib.Path(".")
# words that the library renamed inside names of ours
WORDS = {"getD": "get_or"}
# names of the library that ours are made of: a dash stays between two names
KNOWN = set("length take drop get_or append concat replicate map reverse suc zero add sub mul min max pow set cond".split())
# words of the library that stand in edits
LIBRARY = {"getD": "get_or"}
# names of ours that port.py turns by itself in .rt and .antt files, since the library had words like them; edits and pages have them still
PORTED = """
all-apart all-append all-drop all-from all-more all-plain all-stay all-take allOf and-left and-right and-yes answer-back answerOf
anyOf as-is at-or-after at-other at-same at-slot baseOf block-apart block-last block-more block-on bodyAfter bodyAt bodyOf by-
value bytesOf carried-step choiceOf chosen-is comes-back cond-same count-fits countOf cut-all cut-spec decimal-digit distinct-more
each-append each-map each-more end-short endOf entryAt filled-is filled-more filled-none finish-spec from-is front-at getD-any
goes-in goes-on good-none good-start has-p has-room head-at held-whole inBody is-read isAt isOf isOver isRow isTaken isZero join-
kept keep-spec kept-rule kindOf knownAt laid-kept laid-one leave-spec left-less lends-again length-cut length-more length-whole
lentAt lentBy lentOf lineAt lined-then linesFrom list-at listFrom lone-of made-one made-val main-spec map-at maskOf more-room
movedTo named-in named-more namedBy new-is next-fits no-part no-row no-start no-value none-filled nothing-left number-in number-is
number-of number-same numberAt numberOf numbers-keep numbers-more offsetOf one-more or-case or-left or-no or-right ordered-at
ownOf pair-spec parentIn part-bytes part-cut partOf passed-none pieceAt pieceOf pieces-are pieces-whole piecesOf place-at place-of
place-same placeIn placeOf placed-of placesOf put-first put-last put-other put-same read-goes read-taken read-twice readAll rest-
all room-fits row-at row-ends row-fine row-goes row-is row-keeps row-made row-room rowIn rowOf rows-are run-is runBy runFrom runOf
same-count says-at setting-kept settled-is settled-same shorter-spec slotAt slotOf some-bytes some-number some-one sound-empty
source-of standsFor start-spec startOf step-same stepOf stored-more stored-one sumTo table-kept tableOf taken-at taken-refused
takes-all to-is to-part to-share turned-more turned-none typeAt typeOf value-spec valuesOf walk-end walk-start whole-in whole-take
withHead withNumber written-all wrote-none wrote-then
"""
DECLARED = re.compile(r"^\s*(?:abbrev |unfoldable |pub |ruleset )*([^\s:(){}«»]+)(?: (?:\([^)]*\) |\{[^}]*\} )*)?: ", re.M)
TOKEN = r"(?<![\w'′·₀-₉→\-.◌]){}(?![\w'′·₀-₉→\-◌])"


def antt():
    for part in ("specs", "proofs"):
        yield from sorted(ROOT.glob(f"crates/*/{part}/**/*.antt"))


def is_goal_file(path):
    parts = path.parts
    return parts[2] == "proofs" and len(parts) > 4


def inner(word):
    """A word with inner capitals in snake case; a type or a fact keeps its capitals."""
    for old, new in WORDS.items():
        word = re.sub(rf"(?<![A-Za-z]){old}(?![a-z])", new, word)

    def run(m):
        return re.sub(r"(?<=[a-z0-9])[A-Z]", lambda c: "_" + c[0].lower(), m[0])

    return re.sub(r"(?<![A-Za-z0-9_])[a-z][A-Za-z0-9]*", run, word)


def names():
    """The names to turn: those of specs/ and of the lemma files of proofs/, and of goal files those with an inner capital."""
    found, goal, defined = collections.Counter(), set(), set(KNOWN)
    for path in antt():
        text = re.sub(r"--[^\n]*", "", path.read_text())
        for m in DECLARED.finditer(text):
            name = m[1]
            if not re.match(r"[A-Za-zμ]", name) or name in ("let", "module", "use"):
                continue
            if is_goal_file(path):
                goal.add(name)
            else:
                found[name] += 1
                if path.parts[2] == "specs":
                    defined.add(name)
    for path in sorted(ROOT.glob("crates/*/src/**/*.rt")):
        defined.update(re.findall(r"\bfn (\w+)", path.read_text()))
    return found, goal, defined


def turned(name, defined):
    parts = name.split("-")
    new = inner(parts[0])
    for before, after in zip(parts, parts[1:]):
        joined = (before in defined or before[:1].isupper()) and (after in defined or after[:1].isupper())
        new += ("-" if joined else "_") + inner(after)
    return new


def table():
    found, goal, defined = names()
    turns = {n: turned(n, defined) for n in found}
    turns |= {n: inner(n) for n in goal if re.search(r"[a-z0-9][A-Z]", n) and n not in turns and n[0].islower()}
    turns = {n: t for n, t in turns.items() if n != t}
    # a lemma that would have its function's name, or that of another definition, gets `_lem`
    for new, olds in by_new(turns).items():
        first = min(olds, key=lambda n: ("-" in n, n))
        turns |= {n: new + "_lem" for n in olds if n != first}
    turns |= {n: n + "_lem" for n in found if n in turns.values()}
    return turns


def clash(turns):
    """Names that fall together, with one another or with a word that the sources have already."""
    bad = [f"{a} and {b} both become {t}" for t, l in by_new(turns).items() for a, b in zip(l, l[1:])]
    words = collections.defaultdict(set)
    for path in antt():
        text = re.sub(r"--[^\n]*", "", path.read_text())
        for word in re.findall(r"(?<![\w'.\-])[A-Za-z][\w'\-→]*(?![\w'\-.])", text):
            if word not in turns and not re.search(rf" as {word}\n", text):
                words[word].add(str(path))
    for old, new in turns.items():
        both = words[new] & words[old]
        if new in words and (both or new in turns.values() and words[new]):
            bad.append(f"{old} becomes {new}, which stands in {sorted(words[new])[:3]}")
    return bad


def by_new(turns):
    found = collections.defaultdict(list)
    for old, new in turns.items():
        found[new].append(old)
    return found


def contracts_named(text):
    """The module of a function's contract, imported under the function's own name, is NAME_contract: a definition may have that name now."""
    for name in re.findall(r"\.Reads as (\w+)\n", text):
        text = re.sub(rf"(?<![\w.\-]){name}(?=\.Post)|(?<=\.Reads as ){name}(?=\n)", name + "_contract", text)
    return text


def steps():
    """The steps of a proof that are named after a call: `.name` of a function, with a dash, and a count behind it."""
    for path in sorted(ROOT.glob("crates/*/src/**/*.rt")):
        yield from (f.replace("_", "-") for f in re.findall(r"\bfn (\w+)", path.read_text()))


class Words:
    def __init__(self, turns):
        self.turns = turns
        self.steps = set(steps())
        one = "|".join(sorted(map(re.escape, turns), key=len, reverse=True))
        self.word = re.compile(rf"(?<![\w'·₀₁₂₃₄₅₆₇₈₉→\-◌])(?:{one})(?![\w'·₀₁₂₃₄₅₆₇₈₉→\-◌])")
        camel = "|".join(sorted((re.escape(t) for t in turns if re.search(r"[a-z0-9][A-Z]", t)), key=len, reverse=True))
        self.camel = re.compile(rf"(?<![\w'·₀₁₂₃₄₅₆₇₈₉→\-◌])(?:{camel})(?![\w'·₀₁₂₃₄₅₆₇₈₉→\-◌])")

    def code(self, text):
        def turn(m):
            is_step = m[0] in self.steps and m.start() > 0 and m.string[m.start() - 1] == "."
            return m[0] if is_step else self.turns[m[0]]

        return self.word.sub(turn, text)

    def prose(self, text):
        """In prose a dashed word may be English: only names with an inner capital, those between backquotes, and the lists of names."""
        text = re.sub(r"`[^`\n]*`", lambda m: self.code(m[0]), text)
        return self.camel.sub(lambda m: self.turns[m[0]], text)

    def antt(self, text):
        out, text = [], contracts_named(text)
        for line in text.split("\n"):
            at = line.find("--")
            while at > 0 and line[at - 1] not in " ":
                at = line.find("--", at + 2)
            if at < 0:
                out.append(self.code(line))
            elif re.match(r"\s*--   \S", line):
                out.append(self.code(line))
            else:
                out.append(self.code(line[:at]) + self.prose(line[at:]))
        return "\n".join(out)

    def rt(self, text):
        out, clause = [], 0
        for line in text.split("\n"):
            code, bar, comment = line.partition("//")
            if re.match(r"\s*(ghost use|requires|ensures|ghost)\b", code) or clause:
                clause = max(0, clause + code.count("{") - code.count("}")) if not code.lstrip().startswith("ghost use") else 0
                code = self.code(code)
            out.append(code + bar + (self.prose(comment) if bar else ""))
        return "\n".join(out)

    def edit(self, text):
        out, antt = [], False
        for line in text.split("\n"):
            if line.startswith("file: "):
                antt = line.endswith(".antt")
            if line.startswith("#"):
                out.append(self.prose(line))
            elif antt:
                out.append(self.code(line))
            else:
                out.append(self.camel.sub(lambda m: self.turns[m[0]], line))
        return "\n".join(out)


def main():
    turns = table()
    bad = clash(turns)
    if "--list" in sys.argv:
        for old, new in sorted(turns.items()):
            print(old, new)
    if bad:
        print("\n".join(bad), file=sys.stderr)
        return 2
    if "--list" in sys.argv:
        return 0
    words = Words(turns)
    files = [(p, words.antt) for p in antt()]
    files += [(p, words.rt) for p in sorted(ROOT.glob("crates/*/src/**/*.rt"))]
    words = Words(turns | {n: inner(n).replace("-", "_") for n in PORTED.split()} | LIBRARY)
    files += [(p, words.edit) for p in sorted(ROOT.glob("crates/*/must-fail/*.edit"))]
    pages = [ROOT / "README.md", ROOT / "crates.txt", *sorted(ROOT.glob("docs/**/*.md")), *sorted(ROOT.glob("include/*.h")), *sorted(ROOT.glob("host/**/*.rs")), *sorted(ROOT.glob("examples/*.c"))]
    files += [(p, words.prose) for p in pages if p.name != "PORT.md" and "target" not in p.parts]
    n = 0
    for path, turn in files:
        old = path.read_text()
        new = turn(old)
        if new != old:
            path.write_text(new)
            n += 1
    print(f"respell: {len(turns)} names, {n} files")
    return 0


if __name__ == "__main__":
    raise SystemExit(main())
