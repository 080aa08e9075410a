#!/usr/bin/env python3
"""tools/design_count.py [-v] [COMMIT]: counts, in crates/*/src (and proofs/ for point 8) of a commit or of the files here, the places of the older forms
that docs/DESIGN-PASS.md lists, point by point. With -v each place on a line of its own. A count is of what these patterns find; a reader judges each."""
import collections
import os
import re
import subprocess
import sys

ARGS = [a for a in sys.argv[1:] if a != "-v"]
VERBOSE = "-v" in sys.argv
ROOT = os.path.dirname(os.path.dirname(os.path.abspath(__file__)))


def files():
    if ARGS:
        names = subprocess.check_output(["git", "-C", ROOT, "ls-tree", "-r", "--name-only", ARGS[0], "crates"], text=True).split("\n")
        for n in names:
            if n.endswith((".rt", "Answers.antt")):
                yield n, subprocess.check_output(["git", "-C", ROOT, "show", f"{ARGS[0]}:{n}"], text=True)
        return
    for folder, dirs, names in os.walk(f"{ROOT}/crates"):
        dirs[:] = sorted(d for d in dirs if d != "out")
        for n in sorted(names):
            if n.endswith((".rt", "Answers.antt")):
                path = f"{folder}/{n}"
                with open(path, encoding="utf-8") as it:
                    yield os.path.relpath(path, ROOT), it.read()


TEXTS = dict(files())
SOURCES = {n: t for n, t in TEXTS.items() if n.endswith(".rt") and "/src/" in n and "/bindings_c/" not in n}
PLACES = collections.defaultdict(list)


def bare(text):
    return re.sub(r"//.*", "", text)


def body_at(text, i):
    depth, k = 0, i
    while k < len(text):
        depth += {"{": 1, "}": -1}.get(text[k], 0)
        k += 1
        if depth == 0 and text[k - 1] == "}":
            return text[i:k]
    return text[i:]


# each function: name, parameters, clauses, answer, body
FUNCTIONS = []
for name, text in SOURCES.items():
    text = bare(text)
    for m in re.finditer(r"^ *(?:pub(?:\([a-z]+\))? )?(?:const )?fn (\w+)(<[^>]*>)?\(", text, re.M):
        k, depth = m.end(), 1
        while depth:
            depth += {"(": 1, ")": -1}.get(text[k], 0)
            k += 1
        params = text[m.end() : k - 1]
        start = re.compile(r"^ *\{$|\{\n", re.M).search(text, k)
        # a clause's braces stand on its own line; the body's opens a line or ends the signature
        head_end = k
        while True:
            start = re.compile(r"\{").search(text, head_end)
            line = text[text.rfind("\n", 0, start.start()) + 1 : start.start()]
            if re.match(r"\s*(requires|ensures)", line):
                head_end = start.start() + len(body_at(text, start.start()))
                continue
            break
        head = text[k : start.start()]
        FUNCTIONS.append((f"{name}::{m[1]}", params, re.findall(r"(requires|ensures)[^{]*\{(.*)\}", head), (re.search(r"->\s*([^\n{]+)", head) or [0, ""])[1].strip(), body_at(text, start.start())))

# ---- 1: own enums of the shape of Option or Result, a flag with a value beside it, numbers for kinds or refusals
SHAPED = set()
for name, text in SOURCES.items():
    for m in re.finditer(r"enum (\w+)[^{]*\{", bare(text)):
        inside = body_at(bare(text), m.end() - 1)[1:-1]
        variants = re.findall(r"^    (\w+)(\(|,| \{)", inside, re.M)
        units = [v for v, k in variants if k == ","]
        carries = [v for v, k in variants if k != ","]
        if "Refused" in carries or (len(variants) == 2 and len(units) == len(carries) == 1) or any(re.match(r"No[A-Z]", v) for v in units):
            SHAPED.add(m[1])
            PLACES["1 own enum shaped as Option or Result"].append(f"{name}: {m[1]}")
for name, text in SOURCES.items():
    for m in re.finditer(r"struct (\w+)[^{;]*\{", bare(text)):
        fields = re.findall(r"(\w+): ([^,\n]+),", body_at(bare(text), m.end() - 1))
        if len(fields) > 1 and any(t in SHAPED or (t == "bool" and f in ("fits", "read", "more", "moves")) for f, t in fields):
            PLACES["1 struct with a flag or verdict beside a value"].append(f"{name}: {m[1]}")
for path, params, clauses, answer, body in FUNCTIONS:
    if answer == "u8" and re.search(r"\breturn (?:\d+|number);", body):
        PLACES["1 function that answers a number code"].append(path)
for name, text in SOURCES.items():
    for m in re.finditer(r"// .*\b(?:or|and) n\b[^\n]*\n(?:// [^\n]*\n)*(?:pub(?:\(crate\))? )?fn (\w+)", text):
        PLACES["1 search that answers n for none"].append(f"{name}::{m[1]}")
    PLACES["1 refusal made of a number"] += [f"{name}:{text[: m.start()].count(chr(10)) + 1}" for m in re.finditer(r"\bby(?:_word)?\((?:\(?\d|number)|Refusal \{", bare(text))]

# ---- 2: twins: functions whose bodies differ in names of functions, types and constants alone
SHAPES = collections.defaultdict(list)
for path, params, clauses, answer, body in FUNCTIONS:
    shape = re.sub(r"b'.'|\d+|\"[^\"]*\"", "K", re.sub(r"\b(?!let|mut|while|for|in|if|else|match|return|loop|as|self)\w+\b", "x", re.sub(r"\s+", " ", body)))
    if len(shape) > 60:
        SHAPES[shape].append(path)
for group in SHAPES.values():
    if len(group) > 1:
        PLACES["2 functions with a twin of the same shape"] += [f"{g}  (of {len(group)})" for g in group]

# ---- 3: loops that count an index by hand
for name, text in SOURCES.items():
    PLACES["3 while or loop"] += [f"{name}:{text[: m.start()].count(chr(10)) + 1}" for m in re.finditer(r"^\s*(?:'\w+: )?(?:while |loop \{)", bare(text), re.M)]

# ---- 4: equality, order, copying, conversion and printing by hand
for path, params, clauses, answer, body in FUNCTIONS:
    inner = re.sub(r"\s+", " ", body.strip()[1:-1]).strip()
    if re.fullmatch(r"match \w+ \{(?: [\w:()|_ ]+ => [\w:'\"()]+,)+ \}", inner) or re.fullmatch(r"if \w+ \{ \S+ \} else \{ \S+ \}", inner) and re.search(r"\{ (?:[01]|b'[01]'|true|false) \}", inner):
        PLACES["4 conversion by a match or an if"].append(path)
    elif re.fullmatch(r"\w+(?:\.\w+)? as \w+|\w+ (?:==|!=) \w+", inner):
        PLACES["4 cast or equality as a function"].append(path)
    elif re.search(r"for \w+ in|while", body) and re.search(r"out\[at \+ j\] = src\[j\]|\[\w+\] = \w+\[\w+\];", body) and len(body) < 220:
        PLACES["4 copy by a loop"].append(path)

# ---- 5: a fact in the contracts of three or more functions, parameters that travel together
FACTS = collections.defaultdict(set)
TRAVEL = collections.defaultdict(set)
for path, params, clauses, answer, body in FUNCTIONS:
    for kind, clause in clauses:
        if kind == "requires":
            for m in re.finditer(r"\b([A-Z]\w+) (?:[a-z_.]+)", clause):
                FACTS[m[1]].add(path)
    names = [re.sub(r"\s+", " ", p.strip()) for p in params.split(",") if ":" in p]
    for i in range(len(names)):
        for j in range(i + 1, len(names)):
            TRAVEL[(names[i], names[j])].add(path)
for fact, who in sorted(FACTS.items()):
    if len(who) >= 3:
        PLACES["5 function whose requires repeats a fact of three or more"] += [f"{fact}: {w}" for w in sorted(who)]
seen = collections.defaultdict(set)
for pair, who in TRAVEL.items():
    if len(who) >= 3:
        for w in who:
            seen[w].add(" & ".join(pair))
PLACES["5 function with two parameters that travel together in three or more"] += sorted(seen)

# ---- 6: buffers with a length beside, parallel arrays
for path, params, clauses, answer, body in FUNCTIONS:
    if re.search(r"\[\w+; \w+\](?:,|$)", params) and re.search(r"\b(?:n|count|len|k|fill|have): usize", params) or re.search(r"&(?:mut )?\[u\w+\]", params) and re.search(r"\b(?:fill|have|k): usize", params):
        PLACES["6 array or buffer with a count beside it"].append(path)
for name, text in SOURCES.items():
    for m in re.finditer(r"struct (\w+)[^{;]*\{", bare(text)):
        inside = body_at(bare(text), m.end() - 1)
        if re.search(r"\[\w+; \d+\]", inside) and re.search(r"\b(?:count|len|fill|n): usize", inside):
            PLACES["6 array or buffer with a count beside it"].append(f"{name}: {m[1]}")

# ---- 7: a switch on which step to run
for path, params, clauses, answer, body in FUNCTIONS:
    if len(re.findall(r"(?:b'.'|\d+) => \w+(?:::\w+)*\(", body)) >= 3 or len(re.findall(r"if \w+ == b'.' \{", body)) >= 3:
        PLACES["7 switch on which step to run"].append(path)

# ---- 8: proofs
for name, text in TEXTS.items():
    if name.endswith("Answers.antt") and "/proofs/" in name:
        PLACES["8 answer of a goal"] += [f"{name}: {m[1]}" for m in re.finditer(r"^pub (\S+) : goal\.", text, re.M)]

for what in sorted(PLACES):
    print(f"{len(PLACES[what]):5}  {what}")
    if VERBOSE:
        for place in PLACES[what]:
            print(f"         {place}")
