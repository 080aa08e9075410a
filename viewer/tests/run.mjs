// viewer/test: dist/viewer.html in Chromium, held against the proved programs.
import { spawnSync } from 'node:child_process';
import { appendFileSync, cpSync, readdirSync, rmSync } from 'node:fs';
import { join } from 'node:path';
import { same, total } from './count.mjs';
import { holdHands } from './hands.mjs';
import { holdLong, holdNames, holdNetwork, holdServed, holdWindows } from './looks.mjs';
import { holdMatches } from './pages.mjs';
import { chanceMatch, root, run, work } from './programs.mjs';
import { holdRefusals } from './refusals.mjs';
import { Screen } from './screen.mjs';

// The file is what the sources give, and the check sees where it is not.
function holdMade() {
    same('viewer/make --check', run('viewer/make', ['--check']).status, 0);
    const other = join(work, 'other');
    rmSync(other, { recursive: true, force: true });
    for (const folder of ['viewer', 'clients/js', 'examples', 'dist']) cpSync(join(root, folder), join(other, folder), { recursive: true });
    appendFileSync(join(other, 'viewer/page.css'), '\n');
    same('viewer/make --check of other sources', spawnSync(join(other, 'viewer/make'), ['--check']).status, 1);
    rmSync(other, { recursive: true });
}

const url = `file://${root}dist/viewer.html`;
const examples = readdirSync(join(root, 'examples')).filter((file) => file.endsWith('.txt'));
holdMade();
const screen = await Screen.open(url, work);
await holdMatches(screen, examples, chanceMatch('8 12 4 1 - 7 -', 38));
await holdRefusals(screen);
await holdHands(screen, examples);
await holdLong(screen);
await holdWindows(screen);
await holdNames(screen);
holdNetwork(screen, url);
await holdServed(screen);
same('errors', screen.errors, []);
await screen.browser.close();
process.exit(total());
