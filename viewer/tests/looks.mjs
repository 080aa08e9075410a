// How it looks and how quick it is: long books, windows, contrast, names of controls; what it asks of the network; from a server.
import { once } from 'node:events';
import { existsSync, readFileSync, writeFileSync } from 'node:fs';
import { createServer } from 'node:http';
import { extname, join } from 'node:path';
import { holds, same } from './count.mjs';
import { bookOf, example, pageOf, root, work } from './programs.mjs';

// ---- 60,000 pages: opened in under two seconds, turned without delay

// The milliseconds of each of 40 turns, in order of size.
function turnsIn() {
    const number = document.getElementById('number');
    const times = Array.from({ length: 40 }, (_, k) => {
        const begun = performance.now();
        number.value = (k * 7919 + 59999) % 60000;
        number.dispatchEvent(new Event('change'));
        document.getElementById('board').getBoundingClientRect();
        return performance.now() - begun;
    });
    return times.sort((a, b) => a - b);
}

async function timed(what) {
    const begun = performance.now();
    await what();
    return Math.round(performance.now() - begun);
}

export async function holdLong(screen) {
    const match = `8 32 4 0 - 0 -\n${'m 2 2 2 2 2 2 2 2\n'.repeat(59999)}`;
    const { file } = bookOf(match, 'long');
    const opened = await timed(() => screen.openFile(file));
    same('the long book', await screen.text('where'), 'page 0 of 0 to 59999, move 0 of 59999');
    const turned = await screen.browser.run(turnsIn);
    await screen.turn(59999);
    same('its last page', [await screen.text('where'), await screen.text('line')], ['page 59999 of 0 to 59999, move 59999 of 59999', pageOf(file, 59999).line]);
    console.log(`60,000 pages of 69 words: opened in ${opened} ms; a turn takes ${turned[20].toFixed(1)} ms, at most ${turned[39].toFixed(1)} ms`);
    holds('opened in under two seconds', opened < 2000);
    holds('turned without delay', turned[20] < 100);
    writeFileSync(join(work, 'long.txt'), match);
    const made = await timed(() => screen.openFile(join(work, 'long.txt')));
    console.log(`its text: made into a book and opened in ${made} ms`);
    same('the text of the long book', await screen.text('where'), 'page 0 of 0 to 59999, move 0 of 59999');
    writeFileSync(join(work, 'longer.txt'), `2 8 1 0 - 0 -\n${'m 2 2\n'.repeat(65535)}`);
    await screen.openFile(join(work, 'longer.txt'));
    same('a page too many', await screen.text('alert'), 'longer.txt is refused by 42: above 65,535 pages.');
}

// ---- windows: nothing is wider than they are; the pictures are for the eye

const WINDOWS = [
    ['wide', 1440, 900, false],
    ['huge', 2200, 1200, false],
    ['phone', 375, 740, false],
    ['phone-dark', 375, 740, true],
    ['wide-dark', 1440, 900, true],
];

async function look(screen, name) {
    const wide = await screen.browser.run(() => document.documentElement.scrollWidth - window.innerWidth);
    holds(`${name}: ${wide} wider than the window`, wide <= 0);
    await screen.browser.screenshot(join(work, `${name}.png`));
}

async function showCrowd(screen) {
    await screen.openFile(join(work, 'eight-snakes.book'));
    await screen.turn(12);
    await screen.choose(2);
}

// Text on what it stands on, by the rule of WCAG: at least 4.5; shapes at least 3. Gives those that have less.
function lowContrastIn() {
    const colour = (name, element = document.body) => getComputedStyle(element).getPropertyValue(name).trim();
    const linear = (v) => (v <= 0.03928 ? v / 12.92 : ((v + 0.055) / 1.055) ** 2.4);
    const light = (hex) => [1, 3, 5].reduce((sum, k, i) => sum + [0.2126, 0.7152, 0.0722][i] * linear(parseInt(hex.slice(k, k + 2), 16) / 255), 0);
    const contrast = (a, b) => (Math.max(light(a), light(b)) + 0.05) / (Math.min(light(a), light(b)) + 0.05);
    const texts = ['--ink', '--quiet', '--accent', '--warn'].flatMap((name) => ['--paper', '--panel', '--field'].map((on) => [name, on, contrast(colour(name), colour(on)), 4.5]));
    const warnings = ['--ink', '--warn'].map((name) => [name, '--warn-paper', contrast(colour(name), colour('--warn-paper')), 4.5]);
    const shapes = ['--apple', '--own', '--other', '--edge'].map((name) => [name, '--field', contrast(colour(name), colour('--field')), 3]);
    const snakes = Array.from({ length: 8 }, (_, i) => {
        const element = document.body.appendChild(Object.assign(document.createElement('i'), { className: `s${i}` }));
        const row = ['--on', `snake ${i}`, contrast(colour('--on', element), colour('--snake', element)), 4.5];
        element.remove();
        return row;
    });
    return [...texts, ...warnings, ...shapes, ...snakes].filter(([, , is, least]) => !(is >= least));
}

export async function holdWindows(screen) {
    await screen.showWrong(true);
    for (const [name, width, height, dark] of WINDOWS) {
        await screen.browser.window(width, height, dark);
        await showCrowd(screen);
        await look(screen, name);
        await screen.paste(example('corpse-crossed.txt').toString('latin1'));
        await screen.turn(6);
        await screen.choose(1);
        await look(screen, `${name}-small`);
        await screen.openFile(join(work, 'long.book'));
        await screen.turn(30001);
        await look(screen, `${name}-large`);
        same(`${name}: contrast`, await screen.browser.run(lowContrastIn), []);
    }
    await screen.browser.window(1180, 900);
    await showCrowd(screen);
    await screen.browser.screenshot(join(work, 'picture.webp'), 0.6); // viewer/picture.webp
}

// ---- names, the network, a server

const CONTROLS = ['button', 'slider', 'combobox', 'textbox', 'spinbutton', 'checkbox', 'link'];

export async function holdNames(screen) {
    const { nodes } = await screen.browser.call('Accessibility.getFullAXTree');
    const controls = nodes.filter(({ role, ignored }) => !ignored && CONTROLS.includes(role?.value));
    holds('controls are found', controls.length > 12);
    same('controls without a name', controls.filter(({ name }) => !name?.value).map(({ role }) => role.value), []);
}

export function holdNetwork(screen, url) {
    same('asked of the network', [...new Set(screen.asked)].filter((asked) => asked !== url && !/^(blob|data):/.test(asked)), []);
}

const TYPES = { '.html': 'text/html', '.mjs': 'text/javascript', '.css': 'text/css', '.wasm': 'application/wasm' };

// The page without an address, as a mail's preview has it; from a server; and its sources as they stand.
export async function holdServed(screen) {
    await screen.goTo(`data:text/html;base64,${readFileSync(join(root, 'dist/viewer.html')).toString('base64')}`);
    same('without an address', await screen.text('where'), 'page 0 of 0 to 5, move 0 of 3');
    const server = createServer((request, answer) => {
        const file = join(root, new URL(request.url, 'http://localhost').pathname);
        if (!existsSync(file)) return answer.writeHead(404).end();
        answer.writeHead(200, { 'content-type': TYPES[extname(file)] ?? 'application/octet-stream' }).end(readFileSync(file));
    }).listen(0, '127.0.0.1');
    await once(server, 'listening');
    for (const path of ['dist/viewer.html', 'viewer/index.html']) {
        await screen.goTo(`http://127.0.0.1:${server.address().port}/${path}`);
        await screen.openFile(join(work, 'first-match.book'));
        await screen.turn(4);
        same(`${path} from a server`, [await screen.text('line'), await screen.board(3)], ['d 0 0 1 1:2:2:- 1:1:3:-', ['*.A', 'B.a', '...']]);
    }
    server.closeAllConnections();
    server.close();
}
