// A match replayed through the library, as a server plays it: the setting, the image and the match are all that is kept from line to line. `turns` gives each
// state in turn and throws a refusal, `replay` each line that ./play prints; there a refusal is the last one.
import { new_match, Refusal } from './lundaspro.mjs';

// ---- the match's lines: at most 200 bytes, single spaces, decimals below 2^64 without leading zeros

const FIRST = /^(N) (-?N) (N) ([01]) (N|-) (N) (N|-)$/.source.replaceAll('N', '(?:0|[1-9][0-9]{0,19})');
const LATER = /^(?:d (N)|m((?: N)+))$/.source.replaceAll('N', '(?:0|[1-9][0-9]{0,19})');

// The parts of a line that can be read; else refusal 32.
function parts(line, form) {
    const found = line.length <= 200 ? new RegExp(form).exec(line) : null;
    if (found === null) throw new Refusal(32);
    return found.slice(1);
}

function number(text) {
    const n = BigInt(text);
    if (n >= 2n ** 64n || text === '-0') throw new Refusal(32);
    return n;
}

function settingOf(line) {
    const fields = parts(line, FIRST).map((text) => (text === '-' ? null : number(text)));
    const [num_snakes, grid_size, initial_length, play_to_last, win_food_lead, initial_food_count, max_ticks] = fields;
    if (BigInt.asIntN(32, grid_size) !== grid_size) throw new Refusal(32);
    return { num_snakes, grid_size, initial_length, play_to_last: play_to_last === 1n, win_food_lead, initial_food_count, max_ticks };
}

// The index of a draw, or the actions of a move of n snakes.
function turnOf(line, n) {
    const [index, actions] = parts(line, LATER);
    if (index !== undefined) return { index: number(index) };
    const numbers = actions.trimStart().split(' ').map(number);
    if (BigInt(numbers.length) !== n) throw new Refusal(32);
    return { actions: numbers };
}

// ---- the printed lines

const CAUSES = { Wall: 'W', SelfBody: 'S', OppBody: 'O', HeadOn: 'H' };
function letters(e) {
    const shown = [e.ate_food && 'a', CAUSES[e.death_cause], e.killed_opponent && 'k', e.won && 'w', e.lost && 'l', e.drew && 'x', e.survived_to_max_ticks && 'y'];
    return shown.filter(Boolean).join('') || '-';
}

// Words 0 to 4 of an image are snakes, side, food due, birth, food count; then four words for each snake, the last one whether it lives.
export function shown(arena, { letter, terminal, image, events }) {
    const snakes = Array.from({ length: image[0] }, (_, i) => {
        const body = arena.body(image, i);
        return `${image[8 + 4 * i]}:${body.length}:${body[0] ?? '-'}:${events ? letters(events[i]) : '-'}`;
    });
    return [letter, Number(terminal), image[2], image[4], ...snakes].join(' ');
}

// ---- the match

// The lines of a text; the last newline is optional.
export function linesOf(text) {
    const lines = text.split('\n');
    if (lines.at(-1) === '') lines.pop();
    return lines;
}

// Each state with its line's letter and what the line said, the match after it and, of a move, its events.
export function* turns(arena, lines) {
    const setting = settingOf(lines[0] ?? '');
    let image = arena.initial_state(setting);
    let match = new_match();
    yield { letter: 'i', terminal: false, image, events: null, setting, match };
    for (const line of lines.slice(1)) {
        if (match.over) throw new Refusal(33);
        const turn = turnOf(line, setting.num_snakes);
        if (turn.index !== undefined) {
            image = arena.draw(image, turn.index).next;
            yield { letter: 'd', terminal: false, image, events: null, setting, match, ...turn };
            continue;
        }
        const step = arena.step(setting, image, turn.actions);
        const taken = arena.take_move(setting, match, step);
        [image, match] = [step.next, taken.match];
        yield { letter: 'm', terminal: step.terminal, image, events: taken.events, setting, match, ...turn };
    }
}

export function* replay(arena, lines) {
    try {
        let last;
        for (const turn of turns(arena, lines)) {
            yield shown(arena, turn);
            last = turn;
        }
        yield ['p', ...arena.places(last.setting, last.match)].join(' ');
    } catch (error) {
        if (!(error instanceof Refusal)) throw error;
        yield `r ${error.number}`;
    }
}
