#!/usr/bin/env python3
"""Respells the repository's own names of specs/ and proofs/: words in snake case, types in camel case.

usage: python3 tools/respell.py [--dry]     at the top of the repository, once, after the toolchain's own script for older repositories

A name in camel case becomes snake case (learnedRecord: learned_record). In a name with dashes a dash stays between two names of functions
(length-each) and behind a fact (All-each), and becomes an underscore elsewhere (view-at: view_at). A type with dashes becomes camel case
(Moves-win: MovesWin). Functions of src/, their goals, strings, inputs and outputs keep their names. A name that would fall together with
another one gets the spelling that CHOSEN gives it. (The crate check, which had not landed, was renamed by hand to plan_check: the toolchain has
a library of that name.)
"""
import collections
import os
import re
import sys

CHAR = r"[^\s(){}\[\],;:.λ→=|`\"]"
WORD = re.compile(CHAR + "+")
DECLARED = re.compile(r"^(\s*)((?:(?:abbrev|unfoldable|pub|record|data) )*)(" + CHAR + r"+) *(: |\(|\{|$)")
# names of functions, between which a dash stands
FUNCTIONS = set("length take drop append get_or set each keep any all has elem gather turned from below cond choices hits hit nil cons onto push pour records".split())
# names that would fall together with another
CHOSEN = {
    "everyHit": "every_hit",
    "after-device": "after_device_lem",
    "at-end": "at_end_lem",
    "first-side": "first_side_lem",
    "last-side": "last_side_lem",
    "learned-record": "learned_record_lem",
    "level-after": "level_after_lem",
    "level-of": "level_of_lem",
    "levels-shown": "levels_shown_lem",
    "may-start": "may_start_lem",
    "open-records": "open_records_lem",
    "past-blank": "past_blank_lem",
    "same-side": "same_side_lem",
    "shown-records": "shown_records_lem",
    "values-in": "values_in_lem",
    "yes-last": "yes_at_last",
}

# names under which a file imports another's
ALIASES = {
    "allTrue": "all_true",
    "eachTrue": "each_true",
    "gameRetired": "game_retired",
    "holdsRetired": "holds_retired",
    "retireAct": "retire_act",
    "signalsRead": "signals_read",
    "signedSignal": "signed_signal",
    "stepAct": "step_act",
    "steppedView": "stepped_view",
}
# names that fall together with a definition that their file cites
HERE = {
    "crates/reader/proofs/Tokens.antt": {"by_number": "by_number_lem"},
    "crates/strategy/proofs/AnswerSteps.antt": {"everyHit": "EveryHit"},
}


def texts():
    for folder, dirs, files in os.walk("crates"):
        dirs[:] = sorted(d for d in dirs if d != "out")
        for f in sorted(files):
            if f.endswith((".rt", ".antt")):
                yield os.path.join(folder, f)


def read(path):
    with open(path, encoding="utf-8") as f:
        return f.read()


def declared():
    """The names that specs/ and proofs/ declare; a function's goals are not among them. Which of them are types."""
    names, types = set(), set()
    for p in texts():
        if not p.endswith(".antt"):
            continue
        for line in read(p).split("\n"):
            if line.lstrip().startswith("--") or ": goal." in line:
                continue
            m = DECLARED.match(line)
            if not m or not (m[4] == ": " or "record" in m[2] or "data" in m[2]):
                continue
            names.add(m[3])
            if "record" in m[2] or "data" in m[2] or re.search(r"(→|:) Type \d+$", line):
                types.add(m[3])
    return names, types


def snake(name):
    return re.sub(r"(?<=[a-z0-9])([A-Z])", lambda m: "_" + m[1].lower(), name)


def camel(name):
    return "".join(w[:1].upper() + w[1:] for w in name.split("-"))


def respelled(name, types):
    if name in CHOSEN:
        return CHOSEN[name]
    if name in types and "-" in name:
        return camel(name)
    if name in types or re.match(r"^All-[a-z]+$", name):
        return name
    if name[:1].isupper() and "-" in name:
        return camel(name)
    parts = [snake(w) if w[:1].islower() else w for w in name.split("-")]
    out = parts[0]
    for before, after in zip(parts, parts[1:]):
        out += ("-" if before in FUNCTIONS and (after in FUNCTIONS or after == "All") else "_") + after
    return out


def main():
    names, types = declared()
    turned = {n: respelled(n, types) for n in sorted(names)}
    turned = {a: b for a, b in turned.items() if a != b} | ALIASES
    # what falls together: two old names with one new one, a new name that was there, or that a file with the old one has already
    back = collections.defaultdict(set)
    for a, b in turned.items():
        back[b].add(a)
    clashes = {b: sorted(a) for b, a in back.items() if len(a) > 1 or b in names}
    inside = collections.defaultdict(list)
    contents = {p: read(p) for p in texts()}
    for p, t in contents.items():
        words = set(WORD.findall(t))
        for a in words & turned.keys():
            if turned[a] in words:
                inside[(a, turned[a])].append(p)
    for b, a in sorted(clashes.items()):
        print("falls together:", b, "of", ", ".join(a), "" if b not in names else "(and itself)")
    for (a, b), ps in sorted(inside.items()):
        print("stands there:", a, "->", b, "in", len(ps), ps[0])
    if "--dry" in sys.argv:
        for a, b in turned.items():
            print("turn:", a, b)
        return
    for p, t in contents.items():
        words = turned | HERE.get(p, {})
        new = WORD.sub(lambda m: words.get(m[0], m[0]), t)
        if new != t:
            with open(p, "w", encoding="utf-8") as f:
                f.write(new)


if __name__ == "__main__":
    main()
