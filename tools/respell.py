#!/usr/bin/env python3
"""Respells the repository's own definitions and lemmas: words in snake case, types in camel case.

usage: tools/respell.py [--dry]    at the top of the repository, once, after the kit's port script

What is respelled: each name that a file of specs/ or proofs/ declares, wherever it is cited (.antt files, the clauses and comments of .rt
files). What is not: names of the kit's library, goals and steps that the check makes, functions of src/, exported names, strings.
Two names that would fall together in one file are said, and nothing is written.
"""

import collections
import os
import re
import sys

TOKEN = re.compile(r"[^\s(){}\[\].,;\"`λ|:=⌜⌝]+")
DECLARED = re.compile(r"^(\s*)((?:pub |abbrev |unfoldable |opaque )*)(record |data )?([^\s:(){}=,;.]+)((?: [({][^)}]*[)}])*)\s*:\s+(.*)$")
IMPORT = re.compile(r"\b(?:ghost )?use ([^\s{]+)\.\{([^}]*)\}")
OTHER_WORDS = {"let", "use", "in", "module", "where", "--", "//", "infixr", "infixl", "infix"}
# names that would fall together with another of the same file
GIVEN = {"onGrid": "IsOnGrid", "one_number": "one_number_lem", "one_number_lem": "one_number_lem", "body-to": "body_to_lem", "own-at": "own_at_lem"}


# what records and lemmas bind
BOUND = ["listRoom", "imageFront"] + [w + n for w in ("old", "new") for n in ("List", "Count", "Counts", "Bounds", "Events", "End", "Game")]


def files(root):
    for folder, dirs, names in os.walk(os.path.join(root, "crates")):
        dirs[:] = sorted(d for d in dirs if d != "out")
        for n in sorted(names):
            if n.endswith((".rt", ".antt")):
                yield os.path.join(folder, n)


def respelled(name, is_type):
    if name in GIVEN:
        return GIVEN[name]
    if is_type:
        return "".join(w[:1].upper() + w[1:] for w in re.split(r"[-_]", name))
    if name[0].isupper():
        return name
    name = re.sub(r"(?<=[a-z0-9₀-₉])([A-Z])", lambda m: "_" + m.group(1).lower(), name)
    return re.sub(r"(?<=[^-])-(?=[^-])", "_", name)


def own(module, crates):
    parts = module.split(".")
    return len(parts) > 2 and parts[0] == "Rattle" and parts[1] in crates


def imported(text, crates):
    ours, theirs = set(), set()
    for m in IMPORT.finditer(text):
        for item in m.group(2).split(","):
            words = item.split()
            if words:
                (ours if own(m.group(1), crates) else theirs).add(words[-1])
    return ours, theirs


def main():
    root = os.getcwd()
    crates = set(os.listdir("crates"))
    texts = {p: open(p, encoding="utf-8").read() for p in files(root)}
    declared, said = {}, set()
    for p, text in texts.items():
        if not p.endswith(".antt"):
            continue
        for line in text.split("\n"):
            m = DECLARED.match(line)
            if not m or m.group(4) in OTHER_WORDS or m.group(6).startswith(("tie.", "need.", "goal.")):
                continue
            is_type = bool(re.search(r"Type \d$", m.group(6))) or bool(m.group(3))
            if "/specs/" in p:
                said.add(m.group(4))
            declared[m.group(4)] = declared.get(m.group(4), False) or is_type
    turn = {n: respelled(n, t) for n, t in declared.items()}
    # a lemma that would have its function's name
    functions = {to for n, to in turn.items() if n in said and "-" not in n}
    turn = {n: to + "_lem" if n not in said and to in functions else to for n, to in turn.items()}
    turn = {n: to for n, to in turn.items() if n != to}
    turn.update({n: respelled(n, False) for n in BOUND})
    bad = 0
    out = {}
    for p, text in texts.items():
        ours, theirs = imported(text, crates)
        skip = {n for n in theirs if n not in ours}
        here = collections.defaultdict(set)
        made = p.endswith(("/Proof.antt", "/Invariants.antt", "/Answers.antt")) and not os.path.dirname(p).endswith("/proofs")

        def one(m, code=True):
            t = m.group(0)
            before = text[m.start() - 1] if m.start() else " "
            tail = re.match(r"^(.*?)('*)$", t)
            key = t if t in turn else tail.group(1)
            rest = "" if t in turn else tail.group(2)
            to = t
            line = text[text.rfind("\n", 0, m.start()) + 1 : m.start()]
            path = "use " in line and (re.match(r"\.[\w{]", text[m.end() : m.end() + 2]) or before == ".") or before == "." and made
            remark = re.search(r"(^|\s)(--|//)(\s|$)", line)
            if key in turn and key not in skip and t not in skip and not path and not (re.fullmatch(r"[a-z0-9_]+", key) and (remark or p.endswith(".rt"))):
                to = turn[key] + rest
            # a part of a path is no name of its own
            if before != "." and not path and not remark:
                here[to].add(t)
            return to

        if p.endswith(".rt"):
            # only clauses, ghost items and comments have these spellings; strings stay
            new = []
            for piece in re.split(r'("(?:[^"\\\n]|\\.)*")', text):
                new.append(piece if piece.startswith('"') else None)
            new = re.sub(r'"(?:[^"\\\n]|\\.)*"|' + TOKEN.pattern, lambda m: m.group(0) if m.group(0).startswith('"') else one(m), text)
        else:
            new = TOKEN.sub(one, text)
        for to, froms in here.items():
            if len(froms) > 1:
                if p.endswith(".rt") and not re.search(r"\b" + re.escape(to) + r"\s*:(?!:)", text):
                    continue
                bad += 1
                print(f"falls together: {os.path.relpath(p, root)}: {sorted(froms)} -> {to}")
        if new != text:
            out[p] = new
    print(f"respell: {len(turn)} names, {len(out)} files, {bad} fall together")
    if bad and "--force" not in sys.argv:
        raise SystemExit(1)
    if "--dry" not in sys.argv:
        for p, text in out.items():
            with open(p, "w", encoding="utf-8") as f:
                f.write(text)


main()
