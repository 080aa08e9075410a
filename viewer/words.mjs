// What the page says in words.
import { ending } from '../clients/js/lundaspro.mjs';
import { dueOf, headingOf, isAlive, sideOf } from './book.mjs';

export const plural = (n, word) => `${n} ${word}${n == 1 ? '' : 's'}`; // n may be a BigInt

export const placeOf = (image, cell) => `row ${Math.floor(cell / sideOf(image))}, column ${cell % sideOf(image)}`;

// ---- the setting. Request 10's edition goes here.

export function settingInWords(s) {
    return [
        `${s.num_snakes} snakes`,
        `grid ${s.grid_size} by ${s.grid_size}`,
        `initial length ${s.initial_length}`,
        s.play_to_last ? 'played until none lives' : 'over when at most one lives',
        s.win_food_lead === null ? 'no food lead' : `won by a lead of ${plural(s.win_food_lead, 'cell')}`,
        `${plural(s.initial_food_count, 'apple')} at the start`,
        s.max_ticks === null ? 'no last move' : `ends after ${plural(s.max_ticks, 'move')}`,
    ];
}

// ---- a page's line

// Where a head hit a body: `position` counts in the moved body, and a corpse has lost that body's head.
function hitPlace(arena, image, { snake, position }) {
    const cell = arena.body(image, snake)[isAlive(image, snake) ? position : position - 1];
    return cell === undefined ? '' : ` at ${placeOf(image, cell)}`;
}

// Request 9's killer and fatal cell go here.
function deathInWords(arena, { image, events, hits }, i) {
    const hit = hits[i];
    switch (events[i].death_cause) {
        case 'Wall':
            return 'died at the wall';
        case 'SelfBody':
            return `hit its own body${hitPlace(arena, image, hit)}`;
        case 'OppBody':
            return `hit snake ${hit.snake}'s body${hitPlace(arena, image, hit)}`;
        default:
            return 'died head-on';
    }
}

function eventInWords(arena, turn, i) {
    const e = turn.events[i];
    return [
        e.ate_food && `ate and grew to ${plural(arena.body(turn.image, i).length, 'cell')}`,
        e.died && deathInWords(arena, turn, i),
        e.killed_opponent && 'is credited with a kill',
        e.won && 'won',
        e.lost && 'lost',
        e.drew && 'drew',
        e.survived_to_max_ticks && 'survived to the last move',
    ].filter(Boolean);
}

// A list of sentences: what the page's line did.
export function turnInWords(arena, turn) {
    const { letter, image } = turn;
    if (letter === 'i') return ['The start.'];
    if (letter === 's') return ['No line of a match leads from the page before to this one: of this page only its state is shown.'];
    if (letter === 'd') {
        // row by row: a book alone does not tell in which order they were drawn
        const at = Array.from(turn.cells.slice().sort(), (cell) => placeOf(image, cell));
        if (at.length === 0) return ['No cell is free: no apple is drawn.'];
        return [`${at.length === 1 ? 'An apple is drawn' : `${at.length} apples are drawn by one index`}: ${at.join('; ')}.`];
    }
    const said = turn.events.flatMap((_, i) => {
        const parts = eventInWords(arena, turn, i);
        return parts.length === 0 ? [] : [`Snake ${i} ${parts.join('; ')}.`];
    });
    if (turn.terminal) said.push('The match is over.');
    return said.length === 0 ? ['All move; nobody eats, nobody dies.'] : said;
}

export function snakeInWords(arena, image, i) {
    const body = arena.body(image, i);
    const life = isAlive(image, i) ? `heading ${headingOf(image, i)}` : 'dead';
    const at = body.length === 0 ? 'no cell left' : `${isAlive(image, i) ? 'head' : 'corpse'} at ${placeOf(image, body[0])}`;
    return { life, length: plural(body.length, 'cell'), at };
}

// The board for those who do not see it.
export function boardInWords(arena, image) {
    const snakes = Array.from({ length: image[0] }, (_, i) => {
        const { life, length, at } = snakeInWords(arena, image, i);
        return `snake ${i}: ${life}, ${length}, ${at}`;
    });
    return `Board of side ${sideOf(image)}. ${snakes.join('; ')}. ${plural(image[4], 'apple')} on the board, ${dueOf(image)} due.`;
}

// ---- a match whose text is known

const ENDS = { Deaths: 'by deaths', Lead: 'by the food lead', MaxTicks: 'at the last move' };

export function endInWords(arena, { setting, match }) {
    const end = ending(match);
    const after = plural(match.moves, 'move');
    if (end === null) return `Not over after ${after}: places count only at the end.`;
    return `Over after ${after}, ${ENDS[end]}. Places: ${arena.places(setting, match).map((place, i) => `snake ${i} has place ${place}`).join(', ')}.`;
}

// ---- refusals. 32 is the replay's own: no call of the library reads lines.

export const sentenceOf = (refusal) => (refusal.number === 32 ? 'unreadable line' : refusal.sentence);

export const atWord = (refusal) => (refusal.word === null ? '' : ` at word ${refusal.word} of the page`);
