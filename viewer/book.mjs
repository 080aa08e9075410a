// A match book that is open, with the replay's text it was made of where that is known. Where the words of a book's contents lie is read here; what is a book, a page,
// a move or a draw the arena says.
import { ACTIONS, HEADINGS, new_match, Refusal } from '../clients/js/lundaspro.mjs';
import { linesOf, turns } from '../clients/js/replay.mjs';

// ---- contents (README.md, 'The book' of docs/PROMISES.md): numbers of several words, lowest first

const pairAt = (words, k) => words[k] + 65536 * words[k + 1];
const fourAt = (words, k) => BigInt(pairAt(words, k)) + (BigInt(pairAt(words, k + 2)) << 32n);
const limitAt = (words, k) => (words[k] === 1 ? fourAt(words, k + 1) : null);

// Of a book whose contents are accepted. Request 10's edition (the word 2 first, one word more after max_ticks) goes here.
function contentsOf(words) {
    const setting = {
        num_snakes: words[1],
        grid_size: words[2],
        initial_length: words[3],
        play_to_last: words[4] === 1,
        win_food_lead: limitAt(words, 5),
        initial_food_count: words[10],
        max_ticks: limitAt(words, 11),
    };
    return { setting, pages: words[16], startOf: (page) => pairAt(words, 17 + 2 * page) };
}

// ---- images: words 0 to 4 are snakes, side, food due, birth, food count; then start, length, heading and alive of each snake; bodies; food

export const sideOf = (image) => image[1];
export const dueOf = (image) => image[2];
export const foodOf = (image) => image.subarray(image.length - image[4]);
export const headingOf = (image, snake) => HEADINGS[image[7 + 4 * snake]];
export const isAlive = (image, snake) => image[8 + 4 * snake] === 1;

const same = (a, b) => a.length === b.length && a.every((word, k) => word === b[k]);

// ---- an open book

export class Book {
    #arena;
    #words;
    #said;
    #startOf;
    #moves;

    // Throws refusal 40. `said` has for each page the index or the actions of its line, where the text is known.
    constructor(arena, words, said = null) {
        this.#arena = arena;
        this.#words = words;
        this.#said = said;
        try {
            arena.page(words, 2n ** 64n - 1n); // no book has this page
        } catch (error) {
            if (error.number !== 41) throw error;
        }
        const { setting, pages, startOf } = contentsOf(words);
        this.setting = setting;
        this.pages = pages;
        this.#startOf = startOf;
        this.#countMoves();
    }

    // A draw follows a page with food due, a move any other; word 2 tells, as for ./page.
    #countMoves() {
        this.#moves = new Uint32Array(this.pages);
        for (let i = 1; i < this.pages; i++) this.#moves[i] = this.#moves[i - 1] + (this.#words[this.#startOf(i - 1) + 2] ? 0 : 1);
    }

    get words() {
        return this.#words;
    }

    get moves() {
        return this.pages === 0 ? 0 : this.#moves[this.pages - 1];
    }

    movesTo(page) {
        return this.#moves[page];
    }

    // The image, or a thrown refusal: 50 to 56, 21.
    page(page) {
        return this.#arena.page(this.#words, page);
    }

    // The words that stand there, well-formed or not.
    wordsOf(page) {
        const end = page + 1 < this.pages ? this.#startOf(page + 1) : this.#words.length;
        return this.#words.subarray(this.#startOf(page), end);
    }

    // The page's image with the line that leads to it: that of the text, else the one between the page before and this one. Where none leads here, the letter is `s`,
    // as ./page has it.
    told(page) {
        const image = this.page(page);
        const turn = this.#led(page, image);
        return turn !== null && same(turn.image, image) ? turn : { letter: 's', terminal: false, image, events: null };
    }

    #led(page, image) {
        try {
            if (page === 0) return { letter: 'i', terminal: false, image: this.#arena.initial_state(this.setting), events: null };
            const past = this.page(page - 1);
            return this.#arena.actor(past) === 'Chance' ? this.#drawn(page, past, image) : this.#moved(page, past, image);
        } catch (error) {
            if (error instanceof Refusal) return null;
            throw error;
        }
    }

    #drawn(page, past, image) {
        const old = foodOf(past);
        const index = this.#said?.[page].index ?? this.#arena.rank(past, foodOf(image).filter((cell) => !old.includes(cell)));
        const { next, cells } = this.#arena.draw(past, index);
        return { letter: 'd', terminal: false, image: next, events: null, index, cells };
    }

    #moved(page, past, image) {
        const actions = this.#said?.[page].actions ?? this.#actionsBetween(past, image);
        if (actions.includes(-1)) return null;
        const step = this.#arena.step(this.setting, past, actions);
        const { events } = this.#arena.take_move(this.setting, { ...new_match(), moves: BigInt(this.#moves[page - 1]) }, step);
        return { letter: 'm', terminal: step.terminal, image: step.next, events, actions, hits: this.#arena.struck(this.setting, past, actions) };
    }

    // By the headings: -1 where no action turns a snake so.
    #actionsBetween(past, image) {
        return Array.from({ length: past[0] }, (_, i) =>
            ACTIONS.findIndex((action) => this.#arena.relative_to_absolute(headingOf(past, i), action) === headingOf(image, i)),
        );
    }
}

// The book of a replay's text, up to the first line that is refused: { book, last, refused }. `last` is the last turn, `refused` the line's number, its text and the
// refusal; without a first line there is no book.
export function bookOfText(arena, text) {
    const lines = linesOf(text);
    const told = [];
    let refused = null;
    try {
        for (const turn of turns(arena, lines)) told.push(turn);
    } catch (error) {
        if (!(error instanceof Refusal)) throw error;
        refused = { line: told.length + 1, text: lines[told.length] ?? '', refusal: error };
    }
    if (told.length === 0) return { book: null, last: null, refused };
    const row = new Uint16Array(told.reduce((words, { image }) => words + image.length, 0));
    let at = 0;
    for (const { image } of told) {
        row.set(image, at);
        at += image.length;
    }
    const words = arena.write_book(told[0].setting, told.length, row);
    return { book: new Book(arena, words, told.map(({ index, actions }) => ({ index, actions }))), last: told.at(-1), refused };
}
