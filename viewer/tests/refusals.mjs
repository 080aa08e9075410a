// Damaged books and refused texts: number, sentence, word, page or line; and what can still be turned to.
import { writeFileSync } from 'node:fs';
import { join } from 'node:path';
import { holds, same } from './count.mjs';
import { example, linesOf, pageOf, run, work } from './programs.mjs';

const book = example('first-match.book');
const file = join(work, 'damaged.book');
const patched = (at, byte) => Buffer.concat([book.subarray(0, at), Buffer.of(byte), book.subarray(at + 1)]);
const cut = (length) => book.subarray(0, length);

async function open(screen, bytes) {
    writeFileSync(file, bytes);
    await screen.openFile(file);
}

// ---- no book at all

const CONTENTS = "damaged.book is refused by 40: a book's contents: cut short, off their layout, a refused setting, starts out of line, words left in a book of no pages.";
const WHOLE = [
    ['another first word', patched(0, 2), CONTENTS],
    ['contents cut short', cut(20), CONTENTS],
    ['an empty file', cut(0), CONTENTS],
    ['an odd number of bytes', cut(247), 'damaged.book is no match book: it has an odd number of bytes.'],
    ['no page', Buffer.concat([cut(32), Buffer.of(0, 0)]), 'damaged.book: the book has no page.'],
];

// ---- a damaged page, and page 0 beside it

const PAGES = [
    ['cut short', cut(246), 5, 'Page 5 is damaged. Refusal 53 at word 14 of the page: total length wrong.', /word 14 marked: 1 0 0 14 0 3 0 2 missing$/],
    ['another number of snakes', patched(152, 9), 3, "Page 3 is damaged. Refusal 51 at word 0 of the page: a content word out of range, or a living snake's length 0.", /word 0 marked: 9 3 1 /],
    ['another grid than the book', patched(122, 4), 2, 'Page 2 is damaged. Refusal 21: snakes or grid differ from the setting.', /can be turned to\.$/],
];

async function holdDamaged(screen) {
    for (const [what, bytes, i, said, words] of PAGES) {
        await open(screen, bytes);
        await screen.turn(i);
        const shown = await screen.text('damage');
        holds(`${what}: ${shown}`, shown.startsWith(`${said} The other pages can be turned to.`) && words.test(shown));
        holds(`${what}: ./page refuses it too`, run('page', [file, String(i)]).status === 3);
        same(`${what}: no board`, [await screen.isHidden('damage'), await screen.isHidden('board'), await screen.isHidden('snakes-part')], [false, true, true]);
        await screen.turn(0);
        same(`${what}: page 0`, [await screen.isHidden('damage'), await screen.text('line'), await screen.board(3)], [true, pageOf(file, 0).line, pageOf(file, 0).board]);
    }
}

// ---- pages that no line leads to; cells that hold several

const LONE = [
    ['a page after a damaged one', patched(152, 9), 4],
    ['a first page that is no start', patched(84, 0), 0],
    ['a snake that turned back', patched(134, 3), 2],
    ['a head over food', patched(118, 4), 1],
    ['two heads on a cell', patched(148, 5), 2],
];

async function holdLone(screen) {
    for (const [what, bytes, i] of LONE) {
        await open(screen, bytes);
        await screen.turn(i);
        const { line, board } = pageOf(file, i);
        same(what, [await screen.text('line'), await screen.board(3), line[0]], [line, board, 's']);
        same(`${what}, in words`, await screen.words(), ['No line of a match leads from the page before to this one: of this page only its state is shown.']);
    }
}

// ---- texts: what is said of the line, and where the page stands then

const TEXTS = [
    ['2 3 1 0 - 1 -\nd 2\nm 0 0\nm 1 3\n', "Line 4 is refused by 25: a living snake's action above 2. It reads: m 1 3", 'page 0 of 0 to 2, move 0 of 1'],
    ['2 3 1 0 - 1 -\nd 2\nm 0  0\n', 'Line 3 is refused by 32: unreadable line. It reads: m 0  0', 'page 0 of 0 to 1, move 0 of 0'],
    ['2 4 1 0 - 0 -\nm 0 0\nm 0 0\n', 'Line 3 is refused by 33: match over. It reads: m 0 0', 'page 0 of 0 to 1, move 0 of 1'],
    ['9 3 1 0 - 1 -\n', 'Line 1 is refused by 1: snakes not 2..8. It reads: 9 3 1 0 - 1 -', null],
    ['hello\n', 'Line 1 is refused by 32: unreadable line. It reads: hello', null],
    ['\n', 'Line 1 is refused by 32: unreadable line. It reads: ', null],
];

async function holdTexts(screen) {
    writeFileSync(join(work, 'hello.txt'), 'hello\n');
    await screen.openFile(join(work, 'hello.txt'));
    same('a text that is no match', await screen.text('alert'), 'Line 1 is refused by 32: unreadable line. It reads: hello');
    await screen.browser.drop([work]);
    await screen.browser.until(() => document.getElementById('alert').textContent.endsWith('cannot be read.'));
    for (const [match, said, where] of TEXTS) {
        const [, line, number] = /^Line (\d+) is refused by (\d+)/.exec(said);
        const printed = linesOf(run('play', ['-'], match).stdout);
        same(`the replay of ${JSON.stringify(match)}`, [printed.length, printed.at(-1)], [Number(line), `r ${number}`]);
        await screen.paste(match);
        same(`the refusal of ${JSON.stringify(match)}`, await screen.text('alert'), said);
        same(`the pages of ${JSON.stringify(match)}`, (await screen.isHidden('match')) ? null : await screen.text('where'), where);
    }
}

export async function holdRefusals(screen) {
    for (const [what, bytes, said] of WHOLE) {
        await open(screen, bytes);
        same(what, [await screen.text('alert'), await screen.isHidden('match')], [said, true]);
    }
    await holdDamaged(screen);
    await open(screen, patched(152, 9));
    await screen.turn(3);
    await screen.browser.screenshot(join(work, 'damaged.png'));
    await holdLone(screen);
    await holdTexts(screen);
}
