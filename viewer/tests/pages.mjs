// Every page of every match: the line, the board, the headings, what each snake sees, the events in words; the same match as text.
import { existsSync, readFileSync, rmSync } from 'node:fs';
import { join } from 'node:path';
import { holds, same } from './count.mjs';
import { bookOf, example, headingOf, headOf, imagesOf, isAlive, linesOf, pageOf, played, root, run, seenOf, struckBy, work } from './programs.mjs';

async function holdPage(screen, what, image, page, line) {
    const g = image[1];
    same(`the line of ${what}`, [await screen.text('line'), page.line], [line, line]);
    same(`the board of ${what}`, await screen.board(g), page.board);
    const living = Array.from({ length: image[0] }, (_, i) => i).filter((i) => isAlive(image, i));
    same(`the headings of ${what}`, await screen.headings(), living.map((i) => [i, headingOf(image, i)]));
    for (const [i, seen] of seenOf(image).entries()) {
        await screen.choose(i);
        same(`what snake ${i} sees on ${what}`, await screen.planes('right', g), seen);
    }
}

async function holdBook(screen, name, match) {
    const { file, bytes } = bookOf(match, name);
    const { lines } = played(match);
    const images = imagesOf(bytes, lines.length);
    const pages = lines.map((_, i) => pageOf(file, i));
    await screen.openFile(file);
    for (const [i, line] of lines.entries()) {
        await screen.turn(i);
        same(`where page ${i} of ${name} is`, await screen.text('where'), `page ${i} of 0 to ${lines.length - 1}, move ${pages[i].moves} of ${pages.at(-1).moves}`);
        await holdPage(screen, `page ${i} of ${name}`, images[i], pages[i], line);
    }
    return bytes;
}

async function saved(screen) {
    const file = join(work, 'pasted match.book');
    rmSync(file, { force: true });
    await screen.browser.click('#save');
    for (let i = 0; i < 500 && !existsSync(file); i++) await new Promise((resolve) => setTimeout(resolve, 20));
    return [...readFileSync(file)];
}

// As text: the same book, the end that ./play tells.
async function holdText(screen, name, match, bytes) {
    await screen.paste(match.toString('latin1'));
    same(`${name} as text`, await screen.text('name'), 'pasted match');
    same(`the book of ${name}, saved`, await saved(screen), [...bytes]);
    const [verdict] = linesOf(run('play', ['--quiet', '-'], match).stdout);
    const [, over, moves] = /: (not over|over) after (\d+) move/.exec(verdict);
    const end = await screen.text('end');
    holds(`the end of ${name}: ${end}`, end.toLowerCase().startsWith(`${over} after ${moves} move`));
    if (over === 'over') same(`the places of ${name}`, [...end.matchAll(/has place (\d)/g)].map(([, place]) => place), played(match).places);
}

// ---- events in words

const WORDS = [
    ['first-match', 0, ['The start.']],
    ['first-match', 1, ['An apple is drawn: row 0, column 2.']],
    ['first-match', 2, ['All move; nobody eats, nobody dies.']],
    ['first-match', 3, ['Snake 0 ate and grew to 2 cells.']],
    ['first-match', 5, ['Snake 0 died at the wall; drew.', 'Snake 1 died at the wall; drew.', 'The match is over.']],
    ['head-on', 1, ['Snake 0 died head-on; drew.', 'Snake 1 died head-on; drew.', 'The match is over.']],
    ['lead', 2, ['Snake 0 ate and grew to 2 cells; won.', 'Snake 1 lost.', 'The match is over.']],
    ['truncation', 2, ['Snake 0 survived to the last move.', 'Snake 1 survived to the last move.']],
    ['two-apples', 9, ['2 apples are drawn by one index: row 2, column 1; row 2, column 4.']],
];

async function holdWords(screen) {
    for (const [name, i, words] of WORDS) {
        await screen.openFile(join(work, `${name}.book`));
        await screen.turn(i);
        same(`the words of page ${i} of ${name}'s book`, await screen.words(), words);
        await screen.paste(example(`${name}.txt`).toString('latin1'));
        await screen.turn(i);
        same(`the words of page ${i} of ${name}`, await screen.words(), words);
    }
}

// A body that is hit: whom ./probe tells; where is the old head's neighbour by the new heading.
function hitsOf(first, line, past, image, printed) {
    const g = past[1];
    const struck = struckBy(first, past, line.split(' ').slice(1));
    const dead = printed.split(' ').slice(4).flatMap((snake, i) => (/[SO]/.test(snake.split(':')[3]) ? [i] : []));
    return dead.map((i) => {
        const to = headOf(past, i) + [-g, 1, g, -1][headingOf(image, i)];
        return `Snake ${i} hit ${struck[i] === i ? 'its own' : `snake ${struck[i]}'s`} body at row ${Math.floor(to / g)}, column ${to % g}`;
    });
}

async function holdHits(screen, name, match, bytes) {
    const lines = linesOf(match);
    const printed = played(match).lines;
    const images = imagesOf(bytes, lines.length);
    const hits = lines.map((line, i) => (line.startsWith('m') ? hitsOf(lines[0], line, images[i - 1], images[i], printed[i]) : []));
    await screen.openFile(join(work, `${name}.book`));
    for (const [i, wanted] of hits.entries()) {
        await screen.turn(i);
        const said = await screen.words();
        for (const hit of wanted) holds(`page ${i} of ${name}: ${hit}; it says ${said.join(' ')}`, said.some((sentence) => sentence.startsWith(hit)));
        const killers = printed[i].split(' ').slice(4).flatMap((snake, s) => (snake.split(':')[3].includes('k') ? [s] : []));
        same(`kills on page ${i} of ${name}`, said.flatMap((sentence) => (sentence.includes('is credited with a kill') ? [Number(/\d/.exec(sentence)[0])] : [])), killers);
    }
    // its own body, a body that lives on, and one whose snake dies by the same move
    same(`bodies are hit in ${name}`, [hits.flat().length, hits.flat().filter((hit) => hit.includes('its own')).length], [5, 2]);
}

export async function holdMatches(screen, examples, crowd) {
    const matches = [...examples.map((name) => [name.replace('.txt', ''), example(name)]), ['four-snakes', readFileSync(join(root, 'crates/make_book/stdin'))], ['eight-snakes', crowd]];
    for (const [name, match] of matches) {
        const bytes = await holdBook(screen, name, match);
        await holdText(screen, name, match, bytes);
        if (match === crowd) await holdHits(screen, name, match, bytes);
    }
    await holdWords(screen);
}
