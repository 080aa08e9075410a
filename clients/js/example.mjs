// node clients/js/example.mjs [MATCH]: a match replayed through the WebAssembly file, each line as ./play prints it; examples/first-match.txt where none is
// named. `replay.mjs` has the match's calls.
import { readFileSync } from 'node:fs';
import { load } from './lundaspro.mjs';
import { linesOf, replay } from './replay.mjs';

const match = process.argv[2] ?? new URL('../../examples/first-match.txt', import.meta.url);
for (const line of replay(await load(), linesOf(readFileSync(match, 'latin1')))) console.log(line);
