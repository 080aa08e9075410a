// node clients/js/matches.mjs <MATCHES: stored matches (oracle/replays.txt, crates/matches/stdin) replayed through the WebAssembly file; it prints what the
// program `matches` prints. A line `= NAME` begins a match, `> TEXT` is a line of it, `~ TEXT` its last one, whose newline is missing.
import { readFileSync } from 'node:fs';
import { load } from './lundaspro.mjs';
import { replay } from './replay.mjs';

const arena = await load();
const matches = [];
for (const line of readFileSync(0, 'latin1').split('\n')) {
    if (line.startsWith('= ')) matches.push([line]);
    else if (line !== '') matches.at(-1).push(line.slice(2));
}
const out = matches.flatMap(([name, ...lines]) => [name, ...replay(arena, lines)]);
process.stdout.write(Buffer.from(out.join('\n') + '\n', 'latin1'));
