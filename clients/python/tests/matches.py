"""matches.py <MATCHES: stored matches (oracle/replays.txt, crates/matches/stdin) replayed through Python; it prints what the program `matches` prints.

A line `= NAME` begins a match, `> TEXT` is a line of it, `~ TEXT` its last one, whose newline is missing.
"""

import sys

from replay import replay

matches: list[list[str]] = []
for line in sys.stdin.buffer.read().decode("latin-1").split("\n"):
    if line.startswith("= "):
        matches.append([line])
    elif line:
        matches[-1].append(line[2:])
out = "".join(f"{shown}\n" for name, *lines in matches for shown in [name, *replay(lines)])
sys.stdout.buffer.write(out.encode("latin-1"))
