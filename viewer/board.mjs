// The board as SVG, twenty units a cell: food, corpses, bodies, heads, one over the other, the lower snake over the higher, as ./page has them.
import { foodOf, headingOf, isAlive, sideOf } from './book.mjs';
import { HEADINGS } from '../clients/js/lundaspro.mjs';

const CELL = 20;

// Snakes are told apart by their colour (page.css), by their number on the head and by this mark on every cell of a body.
const MARKS = [
    '<circle r="2.6"/>',
    '<path d="M-4 0H4" class="line"/>',
    '<circle r="3" class="line"/>',
    '<path d="M-3 -3L3 3M3 -3L-3 3" class="line"/>',
    '<path d="M0 -4V4M-4 0H4" class="line"/>',
    '<path d="M0 -3.6L3.6 2.8H-3.6Z"/>',
    '<path d="M-2.8 -2.8H2.8V2.8H-2.8Z"/>',
    '<path d="M-2 -4V4M2 -4V4" class="line"/>',
];
export const markOf = (snake) => `<g class="mark">${MARKS[snake]}</g>`;

// A drop whose tip points up; the heading turns it.
const DROP = 'M0 -10C3 -6.5 8.2 -4.5 8.2 1.2A8.2 8.2 0 1 1 -8.2 1.2C-8.2 -4.5 -3 -6.5 0 -10Z';
export const drop = (degrees, inside = '') => `<g transform="rotate(${degrees})"><path class="drop" d="${DROP}"/>${inside}</g>`;

// A cell of a body.
export const SQUARE = '<rect class="square" x="-6.5" y="-6.5" width="13" height="13" rx="4"/>';

export const APPLE = '<circle class="apple" cy="0.8" r="5.6"/><path class="leaf" d="M0 -4C0.5 -7.5 3 -8.6 5.4 -8.4C5.2 -6 3 -4 0 -4Z"/>';

export const middle = (g, k) => ({ x: CELL * (k % g) + CELL / 2, y: CELL * Math.floor(k / g) + CELL / 2 });

const at = (g, cell) => {
    const { x, y } = middle(g, cell);
    return `translate(${x} ${y})`;
};

// The field, its cells parted by lines where there is room for them.
export function field(g, isSmall = false) {
    const size = CELL * g;
    if (isSmall && g > 12) return `<rect class="field" width="${size}" height="${size}"/>`;
    const lines = Array.from({ length: g - 1 }, (_, i) => `M${CELL * (i + 1)} 0V${size}M0 ${CELL * (i + 1)}H${size}`).join('');
    return `<rect class="field" width="${size}" height="${size}"/><path class="grid" d="${lines}" vector-effect="non-scaling-stroke"/>`;
}
// Request 10's round edition marks its edges here.
export const edge = (g) => `<rect class="edge" width="${CELL * g}" height="${CELL * g}" vector-effect="non-scaling-stroke"/>`;

// A part of the board; the test reads its place off the screen.
const part = (g, kind, snake, cell, inside) =>
    `<g class="${kind}${snake === null ? '' : ` snake s${snake}`}" data-part="${kind}" ${snake === null ? '' : `data-snake="${snake}"`} transform="${at(g, cell)}">${inside}</g>`;

// A bar between two cells of a body that lie side by side. Over a round grid's edge (request 10) none is drawn: there the cells lie apart.
function joint(g, kind, snake, one, two) {
    const [a, b] = [middle(g, one), middle(g, two)];
    if (Math.abs(a.x - b.x) + Math.abs(a.y - b.y) !== CELL) return '';
    const bar = (name) => `<path class="${name} ${kind} s${snake}" d="M${a.x} ${a.y}L${b.x} ${b.y}"/>`;
    return kind === 'body' ? bar('joint outline') + bar('joint') : bar('joint');
}
const joints = (g, kind, snake, body) => Array.from(body.subarray(1), (cell, k) => joint(g, kind, snake, body[k], cell)).join('');

function bodyOf(g, snake, body) {
    return joints(g, 'body', snake, body) + Array.from(body.subarray(1), (cell) => part(g, 'body', snake, cell, SQUARE + markOf(snake))).join('');
}

function corpseOf(g, snake, body) {
    return joints(g, 'corpse', snake, body) + Array.from(body, (cell) => part(g, 'corpse', snake, cell, `${SQUARE}<text>${snake}</text>`)).join('');
}

function headOf(g, snake, cell, heading, chosen) {
    const ring = chosen ? '<circle class="ring" r="11.2"/>' : '';
    return part(g, 'head', snake, cell, `${ring}${drop(90 * HEADINGS.indexOf(heading))}<text y="1">${snake}</text>`);
}

// The margin that the numbers stand in, a part of the board's size so that they are as large on every grid.
const marginOf = (g) => CELL * g * 0.06;

// Rows and columns are numbered from 0, on large grids every fourth.
function numbers(g) {
    const [off, size] = [-marginOf(g) / 2, marginOf(g) * 0.62];
    const number = (i, x, y) => `<text class="axis" font-size="${size}" x="${x}" y="${y}">${i}</text>`;
    const shown = Array.from({ length: g }, (_, i) => i).filter((i) => g <= 12 || i % 4 === 0);
    return shown.map((i) => number(i, CELL * i + CELL / 2, off) + number(i, off, CELL * i + CELL / 2)).join('');
}

export function drawBoard(svg, arena, image, chosen) {
    const g = sideOf(image);
    const snakes = Array.from({ length: image[0] }, (_, i) => i).reverse();
    const bodies = snakes.map((i) => ({ i, body: arena.body(image, i), alive: isAlive(image, i) }));
    const living = bodies.filter(({ alive }) => alive);
    const [margin, size] = [marginOf(g), CELL * g + 1.4 * marginOf(g)];
    svg.setAttribute('viewBox', `${-margin} ${-margin} ${size} ${size}`);
    svg.innerHTML = [
        field(g),
        numbers(g),
        Array.from(foodOf(image), (cell) => part(g, 'food', null, cell, APPLE)).join(''),
        bodies.filter(({ alive }) => !alive).map(({ i, body }) => corpseOf(g, i, body)).join(''),
        living.map(({ i, body }) => bodyOf(g, i, body)).join(''),
        edge(g),
        living.map(({ i, body }) => headOf(g, i, body[0], headingOf(image, i), i === chosen)).join(''),
    ].join('');
}
