// A snake arena whose every call is proved, for pages and Node: the WebAssembly file that `clients/build` writes, behind safe functions.
//
//     import { load } from './lundaspro.mjs';
//     const arena = await load();
//     const setting = { num_snakes: 2, grid_size: 3, initial_length: 1, play_to_last: false, win_food_lead: null, initial_food_count: 1, max_ticks: null };
//     const { next } = arena.draw(arena.initial_state(setting), 2n);
//     const { terminal, events } = arena.step(setting, next, [0, 0]);
//
// A refusal is thrown as a `Refusal`, with number, sentence and word; what is no value of its type at all, as half a snake or a plain array for an image, as a
// TypeError or RangeError before anything is called. Neither writes to an array of the caller.
//
// The library's memory is handled here: a call's arguments are laid one behind the other from the heap's start, and the next call begins there again, so
// that no number of calls takes more memory than the largest of them.
import { Refusal, SENTENCES } from './refusal.mjs';

export { Refusal, SENTENCES };

// An image has at most so many words, a draw lists so many cells, an observation has so many numbers.
export const IMAGE_WORDS = 9253;
export const LIST_WORDS = 20;
export const PLANE_NUMBERS = 5120;
// A book has at most so many pages; so many words has the book of so many, whose images have so many words in all.
export const BOOK_PAGES = 65535;
export const bookWords = (pages, images) => 17 + 2 * pages + images;

// A cause's number is its place here, a heading's and an action's likewise.
export const CAUSES = Object.freeze([null, 'Wall', 'SelfBody', 'OppBody', 'HeadOn']);
export const HEADINGS = Object.freeze(['Up', 'Right', 'Down', 'Left']);
export const ACTIONS = Object.freeze(['Forward', 'TurnLeft', 'TurnRight']);

const PAGE = 65536;
const MOST = 2 ** 31;
const WEIGHTS = ['step', 'food', 'loss', 'draw', 'kill', 'win', 'survival'];
const EVENT = ['ate_food', 'died', 'death_cause', 'killed_opponent', 'won', 'lost', 'drew', 'survived_to_max_ticks'];

// ---- what a caller hands over, as numbers of 64 bits

function integer(value, name) {
    if (typeof value === 'bigint') return value;
    if (Number.isSafeInteger(value)) return BigInt(value);
    throw new TypeError(`${name}: an integer (a number up to 2^53 - 1, or a BigInt) is wanted`);
}

function unsigned(value, name) {
    const n = integer(value, name);
    if (n < 0n || n > 0xffffffffffffffffn) throw new RangeError(`${name}: ${n} is not from 0 to 2^64 - 1`);
    return n;
}

// A 32-bit signed number in two's complement; every other one is above all grids, and refused by 5 as 2^31 is.
function grid(value) {
    const n = integer(value, 'grid_size');
    return BigInt.asIntN(32, n) === n ? BigInt.asUintN(64, n) : 0x80000000n;
}

function flag(value, name) {
    if (typeof value === 'boolean') return value;
    throw new TypeError(`${name}: true or false is wanted`);
}

function double(value, name) {
    if (typeof value === 'number') return value;
    throw new TypeError(`${name}: a number is wanted`);
}

function record(value, name) {
    if (typeof value === 'object' && value !== null) return value;
    throw new TypeError(`${name}: an object is wanted`);
}

function settingNumbers(setting) {
    const s = record(setting, 'setting');
    const limit = (name) => (s[name] == null ? [0n, 0n] : [1n, unsigned(s[name], name)]);
    return [
        unsigned(s.num_snakes, 'num_snakes'),
        grid(s.grid_size),
        unsigned(s.initial_length, 'initial_length'),
        flag(s.play_to_last, 'play_to_last') ? 1n : 0n,
        ...limit('win_food_lead'),
        unsigned(s.initial_food_count, 'initial_food_count'),
        ...limit('max_ticks'),
    ];
}

function eventBytes(event) {
    const e = record(event, 'event');
    return EVENT.map((name) => (name === 'death_cause' ? placeOf(e.death_cause ?? null, CAUSES, name) : Number(flag(e[name], name))));
}

function weightNumbers(weights) {
    const w = record(weights, 'weights');
    return WEIGHTS.map((name) => double(w[name], name));
}

function actionNumbers(actions) {
    if (typeof actions?.[Symbol.iterator] !== 'function') throw new TypeError('actions: an array of numbers is wanted');
    return Array.from(actions, (action) => unsigned(action, 'action'));
}

function placeOf(value, names, name) {
    const place = names.indexOf(value);
    if (place < 0) throw new TypeError(`${name}: one of ${names.map(String).join(', ')} is wanted`);
    return place;
}

function typed(array, Kind, name) {
    if (array instanceof Kind) return array;
    throw new TypeError(`${name}: a ${Kind.name} is wanted`);
}

function lengthOf(array, Kind, name) {
    return BigInt(typed(array, Kind, name).length);
}

// The length of a caller's array to be written; where there is none, so many elements are lent as hold any answer.
function roomOf(array, Kind, most, name) {
    return array == null ? most : typed(array, Kind, name).length;
}

// ---- what an answer says

function eventOf(bytes, at) {
    return {
        ate_food: bytes[at] !== 0,
        died: bytes[at + 1] !== 0,
        death_cause: CAUSES[bytes[at + 2]] ?? null,
        killed_opponent: bytes[at + 3] !== 0,
        won: bytes[at + 4] !== 0,
        lost: bytes[at + 5] !== 0,
        drew: bytes[at + 6] !== 0,
        survived_to_max_ticks: bytes[at + 7] !== 0,
    };
}

// A match before its first move: a plain object, which may be kept, copied and sent as JSON where its numbers are below 2^53.
export function new_match() {
    return { moves: 0n, over: false, timeout: false, deaths: Array(8).fill(0n), behind: Array(8).fill(false) };
}

// What a match is over by: 'Deaths', 'Lead' or 'MaxTicks'; null while it goes on.
export function ending(match) {
    if (!match.over) return null;
    if (match.timeout) return 'MaxTicks';
    return match.behind.includes(true) ? 'Lead' : 'Deaths';
}

function matchNumbers(match) {
    const m = record(match, 'match');
    const eight = (values, name) => {
        if (Array.isArray(values) && values.length === 8) return values;
        throw new TypeError(`${name}: eight values are wanted`);
    };
    return [
        unsigned(m.moves, 'moves'),
        flag(m.over, 'over') ? 1n : 0n,
        flag(m.timeout, 'timeout') ? 1n : 0n,
        ...eight(m.deaths, 'deaths').map((n) => unsigned(n, 'deaths')),
        ...eight(m.behind, 'behind').map((b) => (flag(b, 'behind') ? 1n : 0n)),
    ];
}

function matchOf(numbers) {
    const [moves, over, timeout, ...snakes] = numbers;
    return { moves, over: over !== 0n, timeout: timeout !== 0n, deaths: snakes.slice(0, 8), behind: snakes.slice(8).map((n) => n !== 0n) };
}

// The answer's part of what was lent: in the caller's array where there is one, else in a new one.
function taken(memory, at, length, into) {
    if (into == null) return memory.slice(at, at + length);
    into.set(memory.subarray(at, at + length));
    return into.subarray(0, length);
}

// ---- the calls

// The arena over an instance's exports: `load` makes one. What a caller hands over is read before any of it is laid into the memory, since reading it may
// run the caller's own code, and that may call the arena.
export class Arena {
    #exports;
    #heap;
    #top;
    // The whole memory by each kind of number, made anew when it has grown.
    #bytes;
    #words;
    #longs;
    #floats;
    #doubles;

    constructor(exports) {
        this.#exports = exports;
        this.#heap = (exports.__heap_base.value + 7) & ~7;
        this.#renew();
    }

    // ---- memory: a call begins at the heap's start, and each of its arguments takes the next bytes, at a multiple of eight

    #renew() {
        const buffer = this.#exports.memory.buffer;
        this.#bytes = new Uint8Array(buffer);
        this.#words = new Uint16Array(buffer);
        this.#longs = new BigUint64Array(buffer);
        this.#floats = new Float32Array(buffer);
        this.#doubles = new Float64Array(buffer);
    }

    // An array of a memory that another has made grow has no length.
    #begin() {
        if (this.#bytes.length === 0) this.#renew();
        this.#top = this.#heap;
    }

    // Where so many bytes lie.
    #room(bytes) {
        const at = this.#top;
        const end = at + 8 * Math.ceil(bytes / 8);
        if (end > MOST) throw new RangeError(`more than ${MOST} bytes in one call`);
        const missing = end - this.#bytes.length;
        if (missing > 0) {
            this.#exports.memory.grow(Math.ceil(missing / PAGE));
            this.#renew();
        }
        this.#top = end;
        return at;
    }

    #putBytes(values) {
        const at = this.#room(values.length);
        this.#bytes.set(values, at);
        return at;
    }

    #putWords(values) {
        const at = this.#room(2 * values.length);
        this.#words.set(values, at / 2);
        return at;
    }

    #putLongs(values) {
        const at = this.#room(8 * values.length);
        this.#longs.set(values, at / 8);
        return at;
    }

    #putDoubles(values) {
        const at = this.#room(8 * values.length);
        this.#doubles.set(values, at / 8);
        return at;
    }

    #lendLongs(count) {
        return this.#room(8 * count);
    }

    #long(at, k) {
        return this.#longs[at / 8 + k];
    }

    #number(at, k) {
        return Number(this.#longs[at / 8 + k]);
    }

    #event(at) {
        return eventOf(this.#bytes, at);
    }

    // Throws what a call returned, unless it is 0. The table's number is what is below 256.
    #check(returned) {
        if (returned !== 0n) throw new Refusal(Number(BigInt.asUintN(8, returned)), Number(returned >> 8n & 0xffffn));
    }

    // ---- settings

    // Nothing, or refusals 1 to 12.
    validate(setting) {
        const numbers = settingNumbers(setting);
        this.#begin();
        this.#check(this.#exports.lundaspro_flat_validate(this.#putLongs(numbers)));
    }

    // The image of a match's start. Refusals 1 to 12; 29 where `out` is too short.
    initial_state(setting, out) {
        const numbers = settingNumbers(setting);
        const room = roomOf(out, Uint16Array, IMAGE_WORDS, 'out');
        this.#begin();
        const s = this.#putLongs(numbers);
        const o = this.#room(2 * room);
        const written = this.#lendLongs(1);
        this.#check(this.#exports.lundaspro_flat_initial_state(s, o, BigInt(room), written));
        return taken(this.#words, o / 2, this.#number(written, 0), out);
    }

    // ---- images

    #checked(image) {
        const length = lengthOf(image, Uint16Array, 'image');
        this.#begin();
        return this.#exports.lundaspro_flat_check_image(this.#putWords(image), length);
    }

    // Nothing, or what is wrong with the image: refusals 50 to 56, with the word that shows it.
    check_image(image) {
        this.#check(this.#checked(image));
    }

    well_formed(image) {
        return this.#checked(image) === 0n;
    }

    // The part of the image that is a snake's body, head first: a view of the caller's words. Empty for a malformed image or no such snake.
    body(image, snake) {
        const length = lengthOf(image, Uint16Array, 'image');
        const number = unsigned(snake, 'snake');
        this.#begin();
        const w = this.#putWords(image);
        const part = this.#lendLongs(2);
        this.#check(this.#exports.lundaspro_flat_body(w, length, number, part));
        const start = this.#number(part, 0);
        return image.subarray(start, start + this.#number(part, 1));
    }

    // One move of all snakes: { next, terminal, events }, an event for each snake. Refusals 1 to 12, 50 to 56, 21, 22, 24, 25; 29 where `out` is too short.
    step(setting, image, actions, out) {
        const numbers = settingNumbers(setting);
        const list = actionNumbers(actions);
        const length = lengthOf(image, Uint16Array, 'image');
        const room = roomOf(out, Uint16Array, IMAGE_WORDS, 'out');
        this.#begin();
        const s = this.#putLongs(numbers);
        const w = this.#putWords(image);
        const a = this.#putLongs(list);
        const o = this.#room(2 * room);
        const events = this.#room(64);
        const end = this.#lendLongs(2);
        this.#check(this.#exports.lundaspro_flat_step(s, w, length, a, BigInt(list.length), o, BigInt(room), events, end));
        const next = taken(this.#words, o / 2, this.#number(end, 0), out);
        return { next, terminal: this.#long(end, 1) !== 0n, events: list.map((_, i) => this.#event(events + 8 * i)) };
    }

    // Who is hit where by that move: for each snake { snake, position } if it dies by its own or another's body, else null; position 0 is the moved head.
    // Refusals 1 to 12, 50 to 56, 21, 22, 24, 25.
    struck(setting, image, actions) {
        const numbers = settingNumbers(setting);
        const list = Array.from(actions, (action) => unsigned(action, 'action'));
        const length = lengthOf(image, Uint16Array, 'image');
        this.#begin();
        const s = this.#putLongs(numbers);
        const w = this.#putWords(image);
        const a = this.#putLongs(list);
        const hits = this.#room(32);
        this.#check(this.#exports.lundaspro_flat_struck(s, w, length, a, BigInt(list.length), hits));
        const words = this.#words.subarray(hits / 2, hits / 2 + 16);
        return list.map((_, i) => (words[2 * i] < 8 ? { snake: words[2 * i], position: words[2 * i + 1] } : null));
    }

    // ---- a match

    // What a step makes of a match: { match, events }, the living marked at max_ticks; `step` is the answer of `step`, `match` stays as it is. Refusal 33.
    take_move(setting, match, step) {
        const numbers = settingNumbers(setting);
        const game = matchNumbers(match);
        const { next, terminal, events } = record(step, 'step');
        const ended = flag(terminal, 'terminal') ? 1n : 0n;
        const told = Array.from(events, eventBytes).slice(0, 8); // no match has more snakes
        const bytes = new Uint8Array(64);
        told.forEach((event, i) => bytes.set(event, 8 * i));
        const length = lengthOf(next, Uint16Array, 'next');
        this.#begin();
        const s = this.#putLongs(numbers);
        const w = this.#putWords(next);
        const e = this.#putBytes(bytes);
        const g = this.#putLongs(game);
        this.#check(this.#exports.lundaspro_flat_take_move(s, ended, w, length, e, g));
        return { match: matchOf(game.map((_, k) => this.#long(g, k))), events: told.map((_, i) => this.#event(e + 8 * i)) };
    }

    // The place of each snake. Before the end they count as if it ended here.
    places(setting, match) {
        const numbers = settingNumbers(setting);
        const game = matchNumbers(match);
        this.#begin();
        const s = this.#putLongs(numbers);
        const g = this.#putLongs(game);
        const places = this.#lendLongs(8);
        this.#check(this.#exports.lundaspro_flat_places(s, g, places));
        const snakes = numbers[0] < 8n ? Number(numbers[0]) : 8;
        return Array.from({ length: snakes }, (_, i) => this.#number(places, i));
    }

    // Who acts next: 'Chance' or 'Simultaneous'. Refusals 50 to 56.
    actor(image) {
        const length = lengthOf(image, Uint16Array, 'image');
        this.#begin();
        const w = this.#putWords(image);
        const chance = this.#lendLongs(1);
        this.#check(this.#exports.lundaspro_flat_actor(w, length, chance));
        return this.#long(chance, 0) !== 0n ? 'Chance' : 'Simultaneous';
    }

    // ---- chance

    // How many outcomes the draw has, a BigInt. Refusals 50 to 56, 23, 28.
    count(image) {
        const length = lengthOf(image, Uint16Array, 'image');
        this.#begin();
        const w = this.#putWords(image);
        const value = this.#lendLongs(1);
        this.#check(this.#exports.lundaspro_flat_count(w, length, value));
        return this.#long(value, 0);
    }

    // The outcome of that index: { next, cells }, the cells in the order drawn. Refusals 50 to 56, 23, 28, 27; 29 where `out` or `list` is too short.
    draw(image, index, out, list) {
        const length = lengthOf(image, Uint16Array, 'image');
        const number = unsigned(index, 'index');
        const room = roomOf(out, Uint16Array, IMAGE_WORDS, 'out');
        const listRoom = roomOf(list, Uint16Array, LIST_WORDS, 'list');
        this.#begin();
        const w = this.#putWords(image);
        const o = this.#room(2 * room);
        const l = this.#room(2 * listRoom);
        const drawn = this.#lendLongs(2);
        this.#check(this.#exports.lundaspro_flat_draw(w, length, number, o, BigInt(room), l, BigInt(listRoom), drawn));
        return { next: taken(this.#words, o / 2, this.#number(drawn, 0), out), cells: taken(this.#words, l / 2, this.#number(drawn, 1), list) };
    }

    // The index whose draw gives that list, a BigInt. Refusals 50 to 56, 23, 28, 30.
    rank(image, cells) {
        const length = lengthOf(image, Uint16Array, 'image');
        const count = lengthOf(cells, Uint16Array, 'cells');
        this.#begin();
        const w = this.#putWords(image);
        const l = this.#putWords(cells);
        const index = this.#lendLongs(1);
        this.#check(this.#exports.lundaspro_flat_rank(w, length, l, count, index));
        return this.#long(index, 0);
    }

    // The index below that count, a BigInt, which a unit number gives, one that is at least 0 and below 1: the rounded product, cut. Refusals 80, 81.
    outcome_of(count, u) {
        const number = unsigned(count, 'count');
        const unit = double(u, 'u');
        this.#begin();
        const index = this.#lendLongs(1);
        this.#check(this.#exports.lundaspro_flat_outcome_of(number, unit, index));
        return this.#long(index, 0);
    }

    // ---- books

    // The match book of that many images, which stand in the row one after the other. Refusals 1 to 12, 42, then 50 to 56 and 21 page by page; 29 where `out` is too
    // short.
    write_book(setting, pages, row, out) {
        const numbers = settingNumbers(setting);
        const count = unsigned(pages, 'pages');
        const length = lengthOf(row, Uint16Array, 'row');
        // what has more pages is refused
        const most = bookWords(Math.min(Number(count), BOOK_PAGES), row.length);
        const room = roomOf(out, Uint16Array, most, 'out');
        this.#begin();
        const s = this.#putLongs(numbers);
        const r = this.#putWords(row);
        const o = this.#room(2 * room);
        const written = this.#lendLongs(1);
        this.#check(this.#exports.lundaspro_flat_write_book(s, count, r, length, o, BigInt(room), written));
        return taken(this.#words, o / 2, this.#number(written, 0), out);
    }

    // The image on a page of a book, from page 0 on: a view of the caller's words. Word 16 of a book says how many pages it has. Refusals 40, 41, 50 to 56, 21.
    page(book, page) {
        const length = lengthOf(book, Uint16Array, 'book');
        const number = unsigned(page, 'page');
        this.#begin();
        const b = this.#putWords(book);
        const part = this.#lendLongs(2);
        this.#check(this.#exports.lundaspro_flat_page(b, length, number, part));
        const start = this.#number(part, 0);
        return book.subarray(start, start + this.#number(part, 1));
    }

    // ---- agents

    // What an agent sees: five planes of g*g numbers. Refusals 50 to 56, 26; 29 where `out` is too short.
    observe(image, agent, out) {
        const length = lengthOf(image, Uint16Array, 'image');
        const number = unsigned(agent, 'agent');
        const room = roomOf(out, Float32Array, PLANE_NUMBERS, 'out');
        this.#begin();
        const w = this.#putWords(image);
        const o = this.#room(4 * room);
        const written = this.#lendLongs(1);
        this.#check(this.#exports.lundaspro_flat_observe(w, length, number, o, BigInt(room), written));
        return taken(this.#floats, o / 4, this.#number(written, 0), out);
    }

    // [0, 1, 2], or [] for the dead. Refusals 50 to 56, 26.
    legal_actions(image, agent) {
        const length = lengthOf(image, Uint16Array, 'image');
        const number = unsigned(agent, 'agent');
        this.#begin();
        const w = this.#putWords(image);
        const actions = this.#lendLongs(1);
        this.#check(this.#exports.lundaspro_flat_legal_actions(w, length, number, actions));
        return [0, 1, 2].slice(0, this.#number(actions, 0));
    }

    // The sorted lengths' buckets as one key, a BigInt; null where a snake is dead. Refusals 50 to 56.
    length_cell(image) {
        const length = lengthOf(image, Uint16Array, 'image');
        this.#begin();
        const w = this.#putWords(image);
        const key = this.#lendLongs(2);
        this.#check(this.#exports.lundaspro_flat_length_cell(w, length, key));
        return this.#long(key, 0) !== 0n ? this.#long(key, 1) : null;
    }

    // The event with survived_to_max_ticks set to whether the agent lives. Refusals 50 to 56, 26.
    truncation(image, agent, event) {
        const bytes = eventBytes(event);
        const length = lengthOf(image, Uint16Array, 'image');
        const number = unsigned(agent, 'agent');
        this.#begin();
        const w = this.#putWords(image);
        const e = this.#putBytes(bytes);
        const marked = this.#room(8);
        this.#check(this.#exports.lundaspro_flat_truncation(w, length, number, e, marked));
        return this.#event(marked);
    }

    // The reward of an event. Refusal 31, for infinities and NaN.
    reward(weights, event) {
        const numbers = weightNumbers(weights);
        const bytes = eventBytes(event);
        this.#begin();
        const w = this.#putDoubles(numbers);
        const e = this.#putBytes(bytes);
        const sum = this.#room(8);
        this.#check(this.#exports.lundaspro_flat_reward(w, e, sum));
        return this.#doubles[sum / 8];
    }

    // ---- spaces and turns

    #space(call) {
        this.#begin();
        const sizes = this.#lendLongs(5);
        const bounds = this.#room(8);
        this.#check(call(sizes, bounds));
        const [discrete, count, planes, rows, cols] = [0, 1, 2, 3, 4].map((k) => this.#number(sizes, k));
        if (discrete !== 0) return { kind: 'Discrete', count };
        return { kind: 'Box', planes, rows, cols, low: this.#floats[bounds / 4], high: this.#floats[bounds / 4 + 1] };
    }

    // { kind: 'Box', planes, rows, cols, low, high }. Refusal 5.
    observation_space(grid_size) {
        const side = grid(grid_size);
        return this.#space((sizes, bounds) => this.#exports.lundaspro_flat_observation_space(side, sizes, bounds));
    }

    // { kind: 'Discrete', count: 3 }.
    action_space() {
        return this.#space((sizes, bounds) => this.#exports.lundaspro_flat_action_space(sizes, bounds));
    }

    // The heading after an action, by their names in HEADINGS and ACTIONS.
    relative_to_absolute(heading, action) {
        const from = placeOf(heading, HEADINGS, 'heading');
        const turn = placeOf(action, ACTIONS, 'action');
        this.#begin();
        const after = this.#lendLongs(1);
        this.#check(this.#exports.lundaspro_flat_relative_to_absolute(BigInt(from), BigInt(turn), after));
        return HEADINGS[this.#number(after, 0)];
    }
}

// ---- loading

// Node's `fetch` reads no files: there a path or a file's URL is read from the file system.
async function bytesOf(source) {
    const inNode = typeof process !== 'undefined' && process.versions?.node !== undefined;
    const name = String(source);
    if (inNode && !/^(https?|data|blob):/.test(name)) return (await import('node:fs/promises')).readFile(name.startsWith('file:') ? new URL(name) : name);
    const answer = await fetch(source);
    if (!answer.ok) throw new Error(`${name}: ${answer.status} ${answer.statusText}`);
    return answer.arrayBuffer();
}

// The instance of a WebAssembly file: its bytes (an ArrayBuffer or a typed array), a WebAssembly.Module, a URL or, in Node, a path.
export async function instantiate(source = new URL('../../dist/lundaspro.wasm', import.meta.url)) {
    if (source instanceof WebAssembly.Module) return WebAssembly.instantiate(source);
    const isBytes = source instanceof ArrayBuffer || ArrayBuffer.isView(source);
    return (await WebAssembly.instantiate(isBytes ? source : await bytesOf(source))).instance;
}

// The arena of a WebAssembly file, named as for `instantiate`; of dist/lundaspro.wasm where none is named.
export async function load(source) {
    return new Arena((await instantiate(source)).exports);
}
