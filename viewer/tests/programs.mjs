// What the proved programs say, by the commands ./play, ./book, ./page and ./probe; and matches to ask them about.
import { spawnSync } from 'node:child_process';
import { readFileSync, writeFileSync } from 'node:fs';
import { join } from 'node:path';
import { load, new_match } from '../../clients/js/lundaspro.mjs';

export const root = new URL('../..', import.meta.url).pathname;
export const work = join(root, 'target/viewer');

export const run = (command, args, input) => spawnSync(join(root, command), args, { input, maxBuffer: 2 ** 30 });
export const linesOf = (bytes) => bytes.toString('latin1').split('\n').slice(0, -1);
export const example = (name) => readFileSync(join(root, 'examples', name));

// What ./play prints, the places apart.
export function played(match) {
    const lines = linesOf(run('play', ['-'], match).stdout);
    return { lines: lines.filter((line) => !line.startsWith('p')), places: lines.at(-1).split(' ').slice(1) };
}

// The book of a match, written to a file of that name.
export function bookOf(match, name) {
    const file = join(work, `${name}.book`);
    const { stdout } = run('book', ['-'], match);
    writeFileSync(file, stdout);
    return { file, bytes: stdout };
}

// A page by ./page: its line, its board, the moves before it.
export function pageOf(file, i) {
    const lines = linesOf(run('page', [file, String(i)]).stdout);
    const moves = Number(/after move (\d+)$/.exec(lines.at(-2))?.[1] ?? 0);
    return { line: lines[0], board: lines.slice(1, -2), moves };
}

const probed = (asked) => linesOf(run('probe', [], asked.map((line) => `${line}\n`).join('')).stdout).map((line) => line.split(' ').slice(1));

// The images on a book's first pages.
export function imagesOf(bytes, count) {
    const words = Array.from({ length: bytes.length / 2 }, (_, k) => bytes.readUInt16LE(2 * k));
    return probed(Array.from({ length: count }, (_, i) => `P ${i} ${words.length} ${words.join(' ')}`)).map((answer) => answer.slice(2).map(Number));
}

// What each snake sees of an image: five planes as 0s and 1s.
export function seenOf(image) {
    return probed(Array.from({ length: image[0] }, (_, i) => `o ${i} 8192 ${image.length} ${image.join(' ')}`)).map((answer) => answer.slice(1).join(''));
}

// Whom each snake hits by a move.
export function struckBy(first, image, actions) {
    const [answer] = probed([`H ${first} ${actions.length} ${actions.join(' ')} ${image.length} ${image.join(' ')}`]);
    return answer.map(Number).filter((_, k) => k % 2 === 0);
}

export const HEADINGS = ['Up', 'Right', 'Down', 'Left'];
export const headingOf = (image, snake) => image[7 + 4 * snake];
export const isAlive = (image, snake) => image[8 + 4 * snake] === 1;
export const headOf = (image, snake) => image[image[5 + 4 * snake]];

// A match by a plain generator: apples and actions by chance, until it is over.
const arena = await load();
export function chanceMatch(first, seed) {
    let state = seed;
    const below = (n) => (state = (state * 48271) % 2147483647) % n;
    const [num_snakes, grid_size, initial_length, last, , initial_food_count] = first.split(' ').map(Number);
    const setting = { num_snakes, grid_size, initial_length, play_to_last: last === 1, initial_food_count };
    const lines = [first];
    let image = arena.initial_state(setting);
    for (let match = new_match(); !match.over; ) {
        if (arena.actor(image) === 'Chance') {
            const index = below(Math.min(Number(arena.count(image)), 100000));
            lines.push(`d ${index}`);
            image = arena.draw(image, index).next;
            continue;
        }
        const actions = Array.from({ length: num_snakes }, () => [0, 0, 0, 1, 2][below(5)]);
        lines.push(`m ${actions.join(' ')}`);
        const step = arena.step(setting, image, actions);
        ({ match } = arena.take_move(setting, match, step));
        image = step.next;
    }
    return Buffer.from(`${lines.join('\n')}\n`);
}
