// What a snake sees: the planes that `observe` gives, as they are; and beside them, where it is asked for, the wrong picture.
import { headingOf, sideOf } from './book.mjs';
import { APPLE, drop, edge, field, middle, SQUARE } from './board.mjs';

const PLANES = ['own head', 'own body', 'others’ heads', 'others’ bodies', 'food'];

const planesOf = (seen, g) => PLANES.map((_, p) => seen.subarray(p * g * g, (p + 1) * g * g));

// ---- the wrong picture, and the only turn in this page: turned with the heading and not against it, half a turn from the right one for Right and Left.

const isWrong = (heading) => heading === 'Right' || heading === 'Left';

const wrongPlanes = (planes, heading) => (isWrong(heading) ? planes.map((plane) => plane.slice().reverse()) : planes);

// ---- drawing

// Two dots that look ahead.
const EYES = '<circle class="eye" cx="-3" cy="-2.4" r="1.7"/><circle class="eye" cx="3" cy="-2.4" r="1.7"/>';
const SHAPES = [null, SQUARE, '<circle class="round" r="7.4"/>', SQUARE, APPLE];

function lit(plane) {
    return Array.from(plane.keys()).filter((k) => plane[k] === 1);
}

const shape = (g, k, kind, inside) => {
    const { x, y } = middle(g, k);
    return `<g class="${kind}" transform="translate(${x} ${y})">${inside}</g>`;
};

const KINDS = ['own', 'own', 'other', 'other', 'food'];

// All planes over one another; the head's tip and the dashed cell show where ahead is.
function picture(planes, g, ahead) {
    const heads = lit(planes[0]);
    const before = heads.map((k) => k + (ahead === 'top' ? -g : g)).filter((k) => k >= 0 && k < g * g);
    const size = 20 * g;
    const [top, bottom, left, right] = ahead === 'top' ? ['ahead', 'behind', 'left', 'right'] : ['behind', 'ahead', 'right', 'left'];
    const pad = size * 0.1;
    const say = (text, x, y, turn) => `<text class="side${text === 'ahead' ? ' ahead' : ''}" font-size="${pad * 0.68}" transform="translate(${x} ${y}) rotate(${turn})">${text}</text>`;
    return `<svg class="picture" role="img" viewBox="${-pad} ${-pad} ${size + 2 * pad} ${size + 2 * pad}" aria-label="the five planes over one another; ahead is at the ${ahead}">${[
        field(g),
        ...[4, 3, 1, 2].map((p) => lit(planes[p]).map((k) => shape(g, k, KINDS[p], SHAPES[p])).join('')),
        heads.map((k) => shape(g, k, 'own', drop(ahead === 'top' ? 0 : 180, EYES))).join(''),
        before.map((k) => shape(g, k, 'before', '<rect x="-9" y="-9" width="18" height="18" rx="3"/>')).join(''),
        edge(g),
        say(top, size / 2, -pad / 2, 0),
        say(bottom, size / 2, size + pad / 2, 0),
        say(left, -pad / 2, size / 2, -90),
        say(right, size + pad / 2, size / 2, 90),
    ].join('')}</svg>`;
}

// One plane: 1.0 is filled, 0.0 is not.
function plane(values, g, p) {
    const cells = lit(values).map((k) => `<rect class="lit ${KINDS[p]}" x="${20 * (k % g)}" y="${20 * Math.floor(k / g)}" width="20" height="20"/>`).join('');
    const name = PLANES[p];
    return `<figure class="plane"><svg role="img" data-plane="${p}" viewBox="-1 -1 ${20 * g + 2} ${20 * g + 2}" aria-label="plane ${p}: ${name}, ${lit(values).length} cells">${field(g, true)}${cells}${edge(g)}</svg><figcaption>${p} ${name}</figcaption></figure>`;
}

const planesShown = (planes, g) => `<div class="planes">${planes.map((values, p) => plane(values, g, p)).join('')}</div>`;

export function drawSeen(into, arena, image, snake) {
    const g = sideOf(image);
    const planes = planesOf(arena.observe(image, snake), g);
    into.innerHTML = picture(planes, g, 'top') + planesShown(planes, g);
}

export function drawWrong(into, arena, image, snake) {
    const g = sideOf(image);
    const heading = headingOf(image, snake);
    const planes = wrongPlanes(planesOf(arena.observe(image, snake), g), heading);
    into.innerHTML = picture(planes, g, isWrong(heading) ? 'bottom' : 'top') + planesShown(planes, g);
}

// The circle of the headings: Up and Down, the two dots, stay where they are; Left and Right have changed places.
export function drawCircle(svg, heading) {
    const names = { Up: [0, -40], Right: [40, 0], Down: [0, 40], Left: [-40, 0] };
    const labels = { Up: [0, -60], Right: [69, 0], Down: [0, 61], Left: [-67, 0] };
    const dot = (name) => `<circle class="${isWrong(name) ? 'moved' : 'kept'}" cx="${names[name][0]}" cy="${names[name][1]}" r="6"/>`;
    const here = `<circle class="here" cx="${names[heading][0]}" cy="${names[heading][1]}" r="10.5"/>`;
    const label = (name) => `<text class="${name === heading ? 'now' : ''}" x="${labels[name][0]}" y="${labels[name][1]}">${name}</text>`;
    svg.innerHTML = [
        '<circle class="rim" r="40"/>',
        '<path class="swap" d="M-26 -5H24M19 -9L25 -5L19 -1M26 6H-24M-19 2L-25 6L-19 10"/>',
        ...Object.keys(names).flatMap((name) => [dot(name), label(name)]),
        here,
    ].join('');
}

export function wrongInWords(heading) {
    return isWrong(heading)
        ? `Heading ${heading}: the pictures differ. The wrong one is turned as for ${heading === 'Right' ? 'Left' : 'Right'}: the cell ahead lies below the head, and left is right.`
        : `Heading ${heading}: both pictures agree, so the slip does not show. It shows when this snake heads Left or Right.`;
}
