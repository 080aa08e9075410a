// node clients/js/probe.mjs [FILE.wasm] < calls: the lines of docs/PROBE.md on the JavaScript client, so that the WebAssembly file is held against the Rust as
// the program `probe` is. `!` comes where the caller's array or the library's own memory has changed beyond the answer.
import { createReadStream } from 'node:fs';
import { ACTIONS, Arena, CAUSES, HEADINGS, instantiate, Refusal } from './lundaspro.mjs';
import { watched } from './watch.mjs';

const MOST_WORDS = 16384n;
const MOST_NUMBERS = 8192n;
const MOST_ACTIONS = 64n;
const MOST_RANKED = 2048n;
const MOST_BOOK_WORDS = 262144n;
const PATTERN = 42406;

const watch = watched((await instantiate(process.argv[2])).exports);
const arena = new Arena(watch.exports);

// ---- the fields of a line

class NoCall extends Error {}

function need(holds) {
    if (!holds) throw new NoCall();
}

function numberOf(text) {
    need(/^(0|[1-9][0-9]{0,19})$/.test(text));
    const n = BigInt(text);
    need(n < 2n ** 64n);
    return n;
}

class Fields {
    constructor(line) {
        this.fields = line.split(' ');
        this.at = 0;
    }
    next() {
        need(this.at < this.fields.length);
        return this.fields[this.at++];
    }
    end() {
        need(this.at === this.fields.length);
    }
    number() {
        return numberOf(this.next());
    }
    upTo(most) {
        const n = this.number();
        need(n <= most);
        return n;
    }
    optional() {
        const text = this.next();
        return text === '-' ? null : numberOf(text);
    }
    grid() {
        const text = this.next();
        const minus = text.startsWith('-');
        const size = numberOf(minus ? text.slice(1) : text);
        need(minus ? size > 0n && size <= 2n ** 31n : size < 2n ** 31n);
        return Number(minus ? -size : size);
    }
    flag() {
        return this.upTo(1n) === 1n;
    }
    counted(most, top) {
        const list = [];
        for (let left = this.upTo(most); left > 0n; left--) list.push(this.upTo(top));
        return list;
    }
    cells(most) {
        return Uint16Array.from(this.counted(most, 65535n), Number);
    }
    image(most = MOST_WORDS) {
        const words = this.cells(most);
        this.end();
        return words;
    }
    setting() {
        return {
            num_snakes: this.number(),
            grid_size: this.grid(),
            initial_length: this.number(),
            play_to_last: this.flag(),
            win_food_lead: this.optional(),
            initial_food_count: this.number(),
            max_ticks: this.optional(),
        };
    }
    event() {
        return {
            ate_food: this.flag(),
            died: this.flag(),
            death_cause: CAUSES[Number(this.upTo(4n))],
            killed_opponent: this.flag(),
            won: this.flag(),
            lost: this.flag(),
            drew: this.flag(),
            survived_to_max_ticks: this.flag(),
        };
    }
    double() {
        bits.setBigUint64(0, this.number());
        return bits.getFloat64(0);
    }
}

const bits = new DataView(new ArrayBuffer(8));

function eventNumbers(e) {
    const flags = [e.ate_food, e.died, CAUSES.indexOf(e.death_cause), e.killed_opponent, e.won, e.lost, e.drew, e.survived_to_max_ticks];
    return flags.map(Number);
}

// ---- the calls, each to its numbers; a buffer is filled with the pattern and looked through from the answer's end on

let lent;

function lend(Kind, length, pattern) {
    const array = new Kind(Number(length)).fill(pattern);
    lent.push({ array, pattern, from: 0 });
    return array;
}

const lendWords = (length) => lend(Uint16Array, length, PATTERN);

// The answer that begins a lent array: its length and what it holds.
function counted(answer) {
    lent.find(({ array }) => array.buffer === answer.buffer).from = answer.length;
    return [answer.length, ...answer];
}

const calls = {
    v(f) {
        const setting = f.setting();
        f.end();
        arena.validate(setting);
        return [];
    },
    i(f) {
        const setting = f.setting();
        const out = lendWords(f.upTo(MOST_WORDS));
        f.end();
        return counted(arena.initial_state(setting, out));
    },
    s(f) {
        const setting = f.setting();
        const out = lendWords(f.upTo(MOST_WORDS));
        const actions = f.counted(MOST_ACTIONS, 2n ** 64n - 1n);
        const { next, terminal, events } = arena.step(setting, f.image(), actions, out);
        const told = events.flatMap(eventNumbers);
        return [Number(terminal), ...told, ...Array(64 - told.length).fill(0), ...counted(next)];
    },
    H(f) {
        const setting = f.setting();
        const actions = f.counted(MOST_ACTIONS, 2n ** 64n - 1n);
        const hits = arena.struck(setting, f.image(), actions);
        return Array.from({ length: 8 }, (_, i) => hits[i] ?? { snake: 8, position: 0 }).flatMap(({ snake, position }) => [snake, position]);
    },
    c: (f) => [arena.count(f.image())],
    d(f) {
        const out = lendWords(f.upTo(MOST_WORDS));
        const list = lendWords(f.upTo(MOST_WORDS));
        const index = f.number();
        const { next, cells } = arena.draw(f.image(), index, out, list);
        return [...counted(next), ...counted(cells)];
    },
    k(f) {
        const cells = f.cells(MOST_RANKED);
        return [arena.rank(f.image(), cells)];
    },
    o(f) {
        const agent = f.number();
        const out = lend(Float32Array, f.upTo(MOST_NUMBERS), 0.5);
        return counted(arena.observe(f.image(), agent, out));
    },
    b(f) {
        const snake = f.number();
        const body = arena.body(f.image(), snake);
        return [body.byteOffset / 2, body.length, ...body];
    },
    B(f) {
        const setting = f.setting();
        const out = lendWords(f.upTo(MOST_BOOK_WORDS));
        const pages = f.number();
        return counted(arena.write_book(setting, pages, f.image(MOST_BOOK_WORDS), out));
    },
    P(f) {
        const number = f.number();
        const page = arena.page(f.image(MOST_BOOK_WORDS), number);
        return [page.byteOffset / 2, page.length, ...page];
    },
    t: (f) => [arena.actor(f.image()) === 'Chance' ? 1 : 0],
    l(f) {
        const agent = f.number();
        const actions = arena.legal_actions(f.image(), agent);
        return [actions.length, ...actions];
    },
    z(f) {
        const key = arena.length_cell(f.image());
        return key === null ? [0] : [1, key];
    },
    u(f) {
        const agent = f.number();
        const event = f.event();
        return eventNumbers(arena.truncation(f.image(), agent, event));
    },
    w(f) {
        const weights = {};
        for (const name of ['step', 'food', 'loss', 'draw', 'kill', 'win', 'survival']) weights[name] = f.double();
        const event = f.event();
        f.end();
        bits.setFloat64(0, arena.reward(weights, event));
        return [bits.getBigUint64(0)];
    },
    n(f) {
        const count = f.number();
        const u = f.double();
        f.end();
        return [arena.outcome_of(count, u)];
    },
    p(f) {
        const side = f.grid();
        f.end();
        const { planes, rows, cols } = arena.observation_space(side);
        return [planes, rows, cols];
    },
    q(f) {
        f.end();
        return [arena.action_space().count];
    },
    h(f) {
        const heading = HEADINGS[Number(f.upTo(3n))];
        const action = ACTIONS[Number(f.upTo(2n))];
        f.end();
        return [HEADINGS.indexOf(arena.relative_to_absolute(heading, action))];
    },
    x(f) {
        arena.check_image(f.image());
        return [];
    },
};

function said(line) {
    const f = new Fields(line);
    const letter = f.next();
    need(Object.hasOwn(calls, letter));
    try {
        return ['a', ...calls[letter](f)];
    } catch (error) {
        if (error instanceof Refusal) return ['r', error.number, ...(error.word === null ? [] : [error.word])];
        throw error;
    }
}

function answer(line) {
    lent = [];
    try {
        const text = said(line).join(' ');
        const kept = lent.every(({ array, pattern, from }) => array.subarray(from).every((word) => word === pattern));
        return watch.kept() && kept ? text : `${text} !`;
    } catch (error) {
        if (error instanceof NoCall) return 'e';
        throw error;
    }
}

// ---- lines; a byte is a letter, whatever it is

let held = '';
for await (const part of createReadStream(null, { fd: 0, encoding: 'latin1' })) {
    const lines = (held + part).split('\n');
    held = lines.pop();
    if (lines.length > 0) process.stdout.write(lines.map((line) => `${answer(line)}\n`).join(''));
}
if (held !== '') process.stdout.write(`${answer(held)}\n`);
