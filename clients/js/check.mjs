// node clients/js/check.mjs [FILE.wasm]: what the stored calls of the probe cannot show of the JavaScript client. Values of the wrong type, arrays after a refusal,
// memory over many calls and with large buffers, sentences; and that the watch of probe.mjs sees a stray write. Prints the number of checks, and fails at
// the first that does not hold.
import assert from 'node:assert/strict';
import { once } from 'node:events';
import { readFileSync } from 'node:fs';
import { createServer } from 'node:http';
import { pathToFileURL } from 'node:url';
import { ACTIONS, Arena, BOOK_PAGES, bookWords, CAUSES, ending, HEADINGS, IMAGE_WORDS, instantiate, LIST_WORDS, load, new_match, PLANE_NUMBERS, Refusal, SENTENCES } from './lundaspro.mjs';
import { watched } from './watch.mjs';

let checks = 0;
function same(a, b) {
    checks++;
    assert.deepEqual(a, b);
}
function refused(number, call, word = null) {
    checks++;
    const shown = word === null ? '' : `word ${word}: `;
    assert.throws(call, (e) => e instanceof Refusal && e instanceof Error && e.number === number && e.word === word && e.message === `refusal ${number}: ${shown}${e.sentence}`);
}
function wrong(Kind, call) {
    checks++;
    assert.throws(call, (e) => e instanceof Kind && !(e instanceof Refusal));
}

const file = process.argv[2] ?? new URL('../../dist/lundaspro.wasm', import.meta.url);
const { exports } = await instantiate(file);
const arena = new Arena(exports);
const setting = { num_snakes: 2, grid_size: 3, initial_length: 1, play_to_last: false, win_food_lead: null, initial_food_count: 0, max_ticks: null };
const blank = { ate_food: false, died: false, death_cause: null, killed_opponent: false, won: false, lost: false, drew: false, survived_to_max_ticks: false };
const zero = { step: 0, food: 0, loss: 0, draw: 0, kill: 0, win: 0, survival: 0 };
// Grid 3: a living snake on 4, heading up, and a dead one without a cell; food is due where the third word says so.
const image = Uint16Array.of(2, 3, 0, 0, 0, 13, 1, 0, 1, 14, 0, 0, 0, 4);
const due = Uint16Array.from(image, (word, i) => (i === 2 ? 1 : word));

// ---- loading: bytes, a module, a URL, a path, what dist/ has
{
    const bytes = readFileSync(file);
    const url = file instanceof URL ? file : pathToFileURL(file);
    const buffer = bytes.buffer.slice(bytes.byteOffset, bytes.byteOffset + bytes.length);
    const data = `data:application/wasm;base64,${bytes.toString('base64')}`;
    for (const source of [bytes, buffer, new WebAssembly.Module(bytes), url, url.href, url.pathname, data, new URL(data), undefined]) {
        same((await load(source)).count(due), 8n);
    }
    checks++;
    await assert.rejects(load(new URL('no-such-file.wasm', url)));
    // as in a page, which has no `process`: all is fetched
    const server = createServer((request, answer) => answer.writeHead(request.url === '/lundaspro.wasm' ? 200 : 404).end(bytes)).listen(0, '127.0.0.1');
    await once(server, 'listening');
    const here = `http://127.0.0.1:${server.address().port}`;
    const node = globalThis.process;
    delete globalThis.process;
    try {
        same((await load(`${here}/lundaspro.wasm`)).count(due), 8n);
        same((await load(new URL(`${here}/lundaspro.wasm`))).count(due), 8n);
        checks++;
        await assert.rejects(load(`${here}/other.wasm`), /404/);
    } finally {
        globalThis.process = node;
        server.closeAllConnections();
        server.close();
    }
}

// ---- every call's answer
{
    const start = arena.initial_state({ ...setting, initial_food_count: 1 });
    same(start, Uint16Array.of(2, 3, 1, 1, 0, 13, 1, 1, 1, 14, 1, 3, 1, 4, 5));
    same(arena.validate(setting), undefined);
    same([arena.well_formed(start), arena.well_formed(start.subarray(1))], [true, false]);
    arena.check_image(start);
    for (let cut = 0; cut < start.length; cut++) refused(cut < 13 ? 50 : 53, () => arena.check_image(start.subarray(0, cut)), cut);
    same([arena.actor(start), arena.actor(image)], ['Chance', 'Simultaneous']);
    same(arena.count(start), 7n);
    const { next, cells } = arena.draw(start, 2);
    same(cells, Uint16Array.of(2));
    same(arena.rank(start, cells), 2n);
    same([arena.outcome_of(3, 1 / 3), arena.outcome_of(3n, -0), arena.outcome_of(2 ** 52, 0.5), arena.outcome_of(2n ** 53n, 1 - 2 ** -53)], [1n, 0n, 2n ** 51n, 2n ** 53n - 1n]);
    same(arena.body(next, 1), Uint16Array.of(5));
    same(arena.body(next, 1).buffer, next.buffer);
    same([arena.body(next, 2).length, arena.body(next, 2n ** 64n - 1n).length, arena.body(next.subarray(1), 0).length], [0, 0, 0]);
    const { next: moved, terminal, events } = arena.step(setting, next, [0, 0]);
    same([...moved.subarray(13)], [5, 4, 2]);
    same([terminal, events], [false, [blank, blank]]);
    const ate = arena.step(setting, moved, Uint8Array.of(1, 0));
    same(ate.events, [{ ...blank, ate_food: true }, blank]);
    const last = arena.step(setting, arena.draw(ate.next, 0n).next, [0n, 0n]);
    const hit = { ...blank, died: true, death_cause: 'Wall', drew: true };
    same([last.terminal, last.events], [true, [hit, hit]]);
    const both = Uint16Array.of(2, 5, 0, 0, 0, 13, 1, 1, 1, 14, 2, 3, 1, 7, 8, 9);
    same(arena.struck({ ...setting, grid_size: 5 }, both, [0, 0]), [{ snake: 1, position: 1 }, null]);
    const seen = arena.observe(next, 0);
    same([seen.constructor, seen.length, [...seen.keys()].filter((k) => seen[k] !== 0), seen[4]], [Float32Array, 45, [4, 19, 36], 1]);
    same([arena.legal_actions(image, 0), arena.legal_actions(image, 1)], [[0, 1, 2], []]);
    same([arena.length_cell(image), arena.length_cell(Uint16Array.of(2, 3, 0, 0, 0, 13, 4, 0, 1, 17, 1, 0, 1, 0, 1, 2, 3, 4))], [null, 1n]);
    same([arena.truncation(image, 0, hit), arena.truncation(image, 1, hit)], [{ ...hit, survived_to_max_ticks: true }, hit]);
    same(arena.reward({ ...zero, step: -0.5, draw: 0.25 }, hit), -0.25);
    same(Object.is(arena.reward({ ...zero, step: -0 }, blank), -0), true);
    same(arena.observation_space(7), { kind: 'Box', planes: 5, rows: 7, cols: 7, low: 0, high: 1 });
    same(arena.action_space(), { kind: 'Discrete', count: 3 });
    same(HEADINGS.map((h) => ACTIONS.map((a) => arena.relative_to_absolute(h, a)[0]).join('')), ['ULR', 'RUD', 'DRL', 'LDU']);
    for (const death_cause of CAUSES) same(arena.truncation(image, 1, { ...blank, death_cause }), { ...blank, death_cause });
}

// ---- a refusal writes to no array of the caller, nor does a value of the wrong type; an answer writes its own part alone
{
    const words = new Uint16Array(20).fill(9);
    const list = new Uint16Array(20).fill(9);
    const planes = new Float32Array(50).fill(9);
    const given = Uint16Array.from(image);
    refused(29, () => arena.initial_state(setting, words.subarray(0, 14)));
    refused(12, () => arena.initial_state({ ...setting, initial_food_count: 8 }, words));
    refused(29, () => arena.step(setting, image, [0, 7], words.subarray(0, 13)));
    refused(24, () => arena.step(setting, image, [0], words));
    refused(25, () => arena.step(setting, image, [2n ** 64n - 1n, 0], words));
    refused(22, () => arena.step(setting, due, [0, 0], words));
    refused(22, () => arena.struck(setting, due, [0, 0]));
    refused(21, () => arena.step({ ...setting, grid_size: 4 }, image, [0, 0], words));
    refused(50, () => arena.step(setting, image.subarray(1), [0, 0], words), 13);
    refused(2, () => arena.step({ ...setting, initial_length: 0 }, image, [0, 0], words));
    refused(23, () => arena.draw(image, 0, words, list));
    refused(27, () => arena.draw(due, 8, words, list));
    refused(29, () => arena.draw(due, 0, words.subarray(0, 14), list));
    refused(29, () => arena.draw(due, 0, words, list.subarray(0, 0)));
    refused(30, () => arena.rank(due, Uint16Array.of(4)));
    refused(29, () => arena.observe(image, 0, planes.subarray(0, 44)));
    refused(26, () => arena.observe(image, 2, planes));
    refused(26, () => arena.legal_actions(image, 2n));
    refused(26, () => arena.truncation(image, 2, blank));
    refused(50, () => arena.length_cell(new Uint16Array(0)), 0);
    refused(50, () => arena.actor(new Uint16Array(0)), 0);
    for (const u of [1, -0.5, -Number.MIN_VALUE, Infinity, -Infinity, NaN]) refused(81, () => arena.outcome_of(3, u)), refused(80, () => arena.outcome_of(0, u));
    refused(80, () => arena.outcome_of(2n ** 53n + 1n, 0.5));
    for (const step of [Infinity, -Infinity, NaN]) refused(31, () => arena.reward({ ...zero, step }, blank));
    wrong(RangeError, () => arena.draw(due, -1, words, list));
    wrong(TypeError, () => arena.step(setting, image, [0, 0.5], words));
    wrong(TypeError, () => arena.step(setting, [...image], [0, 0], words));
    for (const actions of [undefined, null, 2, {}]) wrong(TypeError, () => arena.step(setting, image, actions, words));
    wrong(TypeError, () => arena.observe(image, 0, words));
    same([...words, ...list, ...planes].every((n) => n === 9), true);
    same(image, given);
    same(arena.draw(due, 7, words, list).next, words.subarray(0, 15));
    same([words.subarray(15).every((n) => n === 9), list[0], list.subarray(1).every((n) => n === 9)], [true, 8, true]);
    same(arena.observe(image, 0, planes), planes.subarray(0, 45));
    same([...planes.subarray(45)], [9, 9, 9, 9, 9]);
    const own = Uint16Array.from(image);
    same(arena.step(setting, own, [0, 0], own).next, arena.step(setting, image, [0, 0]).next);
}

// ---- numbers: 64 bits whole, no other value is made one; a grid that no 32 bits hold is refused by 5 and never wrapped
for (const grid_size of [33, 2 ** 31, 2 ** 32 + 3, 2n ** 63n, 2n ** 64n + 3n, -(2n ** 31n) - 1n, -(2n ** 64n) + 3n]) {
    refused(5, () => arena.validate({ ...setting, grid_size }));
    refused(5, () => arena.observation_space(grid_size));
}
refused(10, () => arena.validate({ ...setting, grid_size: -1 }));
refused(6, () => arena.validate({ ...setting, grid_size: -(2 ** 31), initial_food_count: 1 }));
refused(3, () => arena.validate({ ...setting, win_food_lead: 0 }));
refused(4, () => arena.validate({ ...setting, num_snakes: 3, win_food_lead: 2n ** 64n - 1n }));
same(arena.validate({ ...setting, win_food_lead: 2n ** 64n - 1n, max_ticks: 0 }), undefined);
same(arena.validate({ ...setting, win_food_lead: undefined, max_ticks: undefined }), undefined);
for (const name of ['num_snakes', 'initial_length', 'initial_food_count', 'win_food_lead', 'max_ticks']) {
    for (const value of [-1, -1n, 2n ** 64n]) wrong(RangeError, () => arena.validate({ ...setting, [name]: value }));
    for (const value of [0.5, NaN, Infinity, 2 ** 53, '2', true, {}]) wrong(TypeError, () => arena.validate({ ...setting, [name]: value }));
}
for (const value of [0.5, 2 ** 53, '3', null, undefined]) wrong(TypeError, () => arena.validate({ ...setting, grid_size: value }));
for (const value of [0, 1, 'false', null, undefined]) wrong(TypeError, () => arena.validate({ ...setting, play_to_last: value }));
for (const value of [null, undefined, 3]) {
    wrong(TypeError, () => arena.validate(value));
    wrong(TypeError, () => arena.reward(value, blank));
    wrong(TypeError, () => arena.reward(zero, value));
    wrong(TypeError, () => arena.count(value));
}
wrong(TypeError, () => arena.reward({ ...zero, kill: undefined }, blank));
wrong(TypeError, () => arena.reward(zero, { ...blank, won: 1 }));
wrong(TypeError, () => arena.reward(zero, { ...blank, death_cause: 1 }));
wrong(TypeError, () => arena.relative_to_absolute('up', 'Forward'));
wrong(TypeError, () => arena.relative_to_absolute(0, 0));
wrong(TypeError, () => arena.rank(due, [0]));
for (const u of ['0.5', 0n, null, undefined]) wrong(TypeError, () => arena.outcome_of(3, u));
wrong(RangeError, () => arena.outcome_of(-1, 0.5));
wrong(TypeError, () => arena.count(new Int16Array(image)));

// ---- the largest answers fit what is lent where the caller lends nothing
{
    const large = { ...setting, num_snakes: 8, grid_size: 32, initial_food_count: 5 };
    let state = arena.initial_state(large);
    for (let left = 5; left > 0; left--) state = arena.draw(state, 0).next;
    same(arena.observe(state, 7).length, PLANE_NUMBERS);
    same(state.length <= IMAGE_WORDS, true);
    const full = Uint16Array.of(2, 5, 1024, 0, 0, 13, 5, 0, 1, 18, 1, 0, 1, 0, 1, 2, 3, 4, 0);
    same(arena.count(full), 2432902008176640000n);
    same(arena.draw(full, 2432902008176639999n).cells, Uint16Array.from({ length: LIST_WORDS }, (_, i) => 24 - i));
}

// ---- memory: large buffers make it grow, and it stays as it is then, over answers and refusals alike
{
    const before = exports.memory.buffer.byteLength;
    same(arena.draw(due, 3, new Uint16Array(3000000), new Uint16Array(1000000)).cells, Uint16Array.of(3));
    refused(51, () => arena.count(new Uint16Array(5000000)), 0);
    const after = exports.memory.buffer.byteLength;
    same([after > before, after < 12000000], [true, true]);
    const out = new Uint16Array(20);
    for (let i = 0; i < 20000; i++) {
        arena.step(setting, image, [0, 0], out);
        arena.count(due);
        try {
            arena.count(image);
        } catch (e) {
            if (e.number !== 23) throw e;
        }
    }
    same(exports.memory.buffer.byteLength, after);
    wrong(RangeError, () => arena.step(setting, image, [0, 0], { __proto__: Uint16Array.prototype, length: 2 ** 31 }));
    same(arena.count(due), 8n);
    // two arenas of one instance: where one has made the memory grow, the other does not once more
    const { exports: shared } = await instantiate(file);
    const [one, other] = [new Arena(shared), new Arena(shared)];
    refused(51, () => one.count(new Uint16Array(1000000)), 0);
    const grown = shared.memory.buffer.byteLength;
    same([other.count(due), one.count(due), shared.memory.buffer.byteLength], [8n, 8n, grown]);
}

// ---- the caller's code that runs while its values are read may call the arena
{
    const inner = { ...setting, get num_snakes() { return arena.count(due) === 8n ? 2 : 9; } };
    const actions = { *[Symbol.iterator]() { for (const a of [0, 0]) { arena.observe(image, 0); yield a; } } };
    same(arena.step(inner, image, actions), arena.step(setting, image, [0, 0]));
}

// ---- a match: what is handed over stays, any value is read, what is over refuses
{
    const short = { ...setting, max_ticks: 1 };
    const step = { next: image, terminal: false, events: [blank, blank] };
    const first = new_match();
    const { match, events } = arena.take_move(short, first, step);
    same([first, step.events], [new_match(), [blank, blank]]);
    same(match, { ...first, moves: 1n, over: true, timeout: true });
    same(events, [{ ...blank, survived_to_max_ticks: true }, blank]);
    same([ending(first), ending(match), ending({ ...match, timeout: false })], [null, 'MaxTicks', 'Deaths']);
    refused(33, () => arena.take_move(short, match, step));
    const behind = first.behind.with(1, true);
    same([arena.places(short, { ...match, behind }), ending({ ...match, timeout: false, behind })], [[1, 2], 'Lead']);
    const late = { ...first, moves: 2n ** 64n - 1n, deaths: first.deaths.with(0, 2n ** 64n - 1n) };
    same([arena.take_move(setting, late, step).match, arena.places(setting, late)], [late, [2, 1]]);
    same(arena.places({ ...setting, num_snakes: 2n ** 64n - 1n }, first), Array(8).fill(1));
    for (const part of [{ moves: -1 }, { moves: 2n ** 64n }]) wrong(RangeError, () => arena.places(setting, { ...first, ...part }));
    for (const part of [{ over: 1 }, { timeout: null }, { deaths: [0] }, { behind: Array(8).fill(0) }]) wrong(TypeError, () => arena.places(setting, { ...first, ...part }));
    wrong(TypeError, () => arena.take_move(setting, first, { ...step, terminal: 0 }));
    wrong(TypeError, () => arena.take_move(setting, first, { ...step, next: [...image] }));
}

// ---- a sentence for each number that a call gives (tests/sentences: the header's), and one for no other
{
    const numbers = Object.keys(SENTENCES).map(Number);
    const upTo = (from, to) => Array.from({ length: to - from + 1 }, (_, i) => from + i);
    same(numbers, [upTo(1, 6), upTo(8, 12), upTo(21, 31), 33, upTo(40, 42), upTo(50, 56), upTo(80, 81)].flat());
    for (let i = 0; i < 256; i++) same(new Refusal(i).sentence, SENTENCES[i] ?? 'no number that a call gives');
}

// ---- books: of as many words as bookWords says where the caller lends nothing; a page is a view of the caller's book
{
    const first = arena.initial_state(setting);
    const second = arena.step(setting, first, [0, 0]).next;
    const row = Uint16Array.of(...first, ...second);
    const book = arena.write_book(setting, 2, row);
    same([book.length, bookWords(2, row.length), book[16]], [51, 51, 2]);
    same([arena.page(book, 0), arena.page(book, 1n)], [first, second]);
    same(arena.page(book, 1).buffer, book.buffer);
    const lent = new Uint16Array(60).fill(9);
    same(arena.write_book(setting, 2, row, lent), book);
    same([...lent.subarray(51)], Array(9).fill(9));
    lent.fill(9);
    refused(29, () => arena.write_book(setting, 2, row, lent.subarray(0, 50)));
    refused(42, () => arena.write_book(setting, BOOK_PAGES + 1, row, lent));
    refused(42, () => arena.write_book(setting, 2n ** 64n - 1n, row));
    refused(50, () => arena.write_book(setting, BOOK_PAGES, row), 0);
    refused(53, () => arena.write_book(setting, 1, row, lent), first.length);
    refused(21, () => arena.write_book({ ...setting, grid_size: 4 }, 2, row, lent));
    refused(1, () => arena.write_book({ ...setting, num_snakes: 9 }, 2, row, lent));
    refused(41, () => arena.page(book, 2));
    refused(41, () => arena.page(book, 2n ** 64n - 1n));
    refused(40, () => arena.page(book.subarray(0, 20), 0));
    refused(53, () => arena.page(book.subarray(0, 50), 1), second.length - 1);
    wrong(RangeError, () => arena.page(book, -1));
    wrong(TypeError, () => arena.page([...book], 0));
    wrong(TypeError, () => arena.write_book(setting, 2, [...row]));
    wrong(TypeError, () => arena.write_book(setting, 0.5, row));
    same(lent.every((n) => n === 9), true);
    same(arena.write_book(setting, 0, new Uint16Array(0)).length, 17);
}

// ---- the watch sees a byte too much, in an answer and in a refusal, and none where there is none
{
    const bytes = () => new Uint8Array(exports.memory.buffer);
    const stray = (name, at) => ({
        ...exports,
        [`lundaspro_flat_${name}`](...args) {
            const returned = exports[`lundaspro_flat_${name}`](...args);
            if (at !== null) bytes()[at(args)] ^= 1;
            return returned;
        },
    });
    const kept = (name, at, call) => {
        const watch = watched(stray(name, at));
        try {
            call(new Arena(watch.exports));
        } catch (e) {
            if (!(e instanceof Refusal)) throw e;
        }
        return watch.kept();
    };
    const draw = (a) => a.draw(due, 0);
    const step = (a) => a.step(setting, image, [0, 0]);
    same([kept('draw', null, draw), kept('step', null, step)], [true, true]);
    same(kept('draw', (args) => args[3] + 2 * 15, draw), false);
    same(kept('draw', (args) => args[3] + 2 * 14, draw), true);
    same(kept('draw', (args) => args[5] + 2, draw), false);
    same(kept('draw', (args) => args[0], draw), false);
    same(kept('step', (args) => args[7] + 16, step), false);
    same(kept('step', (args) => args[8], (a) => a.step(setting, due, [0, 0])), false);
    same(kept('count', (args) => args[2], (a) => a.count(image)), false);
    same(kept('count', null, (a) => a.count(image)), true);
}

console.log(`${checks} checks passed`);
