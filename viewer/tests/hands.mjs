// What a person does: files dropped, keys, buttons, slider, play, the switch.
import { readFileSync } from 'node:fs';
import { join } from 'node:path';
import { holds, same } from './count.mjs';
import { example, HEADINGS, headingOf, imagesOf, linesOf, root, work } from './programs.mjs';

async function holdOpening(screen, examples) {
    const { browser } = screen;
    await browser.drop([join(root, 'examples/first-match.book')]);
    await browser.until(() => document.getElementById('name').textContent === 'first-match.book');
    same('a dropped book', [await screen.text('where'), await screen.isHidden('drop')], ['page 0 of 0 to 5, move 0 of 3', true]);
    await screen.openFile(join(root, 'examples/two-apples.txt'));
    same("a match's file", [await screen.text('name'), await screen.text('where')], ['two-apples.txt', 'page 0 of 0 to 9, move 0 of 2']);
    same('the examples', await browser.run(() => [...document.getElementById('example').options].slice(1).map(({ text }) => text).sort()), [...examples].sort());
    for (const name of examples) {
        await screen.set('example', name);
        const last = linesOf(example(name)).length - 1;
        same(`example ${name}`, [await screen.text('name'), (await screen.text('where')).split(',')[0], await screen.isHidden('alert')], [name, `page 0 of 0 to ${last}`, true]);
    }
}

async function pressed(screen, keys, page) {
    for (const key of keys) await screen.browser.key(key);
    same(`after ${keys.join(', ')}`, await screen.pageAt(), page);
}

async function holdKeys(screen) {
    const { browser } = screen;
    await screen.openFile(join(work, 'first-match.book'));
    await screen.leaveFields();
    await pressed(screen, ['ArrowRight'], 1);
    await pressed(screen, ['ArrowRight', 'ArrowRight', 'ArrowLeft'], 2);
    await pressed(screen, ['End'], 5);
    await pressed(screen, ['ArrowRight'], 5);
    await pressed(screen, ['Home'], 0);
    await pressed(screen, ['ArrowLeft'], 0);
    await browser.run(() => document.getElementById('slider').focus());
    await pressed(screen, ['ArrowRight'], 1);
    await pressed(screen, ['End', 'ArrowLeft'], 4);
    await browser.run(() => document.getElementById('number').focus());
    await pressed(screen, ['ArrowRight'], 4);
    await screen.leaveFields();
    await browser.key('1');
    same('key 1', await screen.chosen(), '1');
    await browser.key('7');
    same('there is no snake 7', await screen.chosen(), '1');
    await browser.run(() => document.querySelectorAll('#snakes button')[0].focus());
    await browser.key('Enter');
    same('a snake chosen by its button, which keeps the focus', [await screen.chosen(), await browser.run(() => document.activeElement.dataset.snake)], ['0', '0']);
    await browser.key('1');
    await screen.leaveFields();
    await browser.key('w');
    same('key w', [await screen.isHidden('wrong-view'), await screen.isHidden('circle-part')], [false, false]);
    await browser.key('w');
    same('key w again', await screen.isHidden('wrong-view'), true);
    await browser.click('#paste-button'); // a field for text has its own keys
    await pressed(screen, ['ArrowRight', ' ', 'w', '0'], 4);
    same('keys in a text', [await screen.chosen(), await screen.isHidden('wrong-view'), await screen.text('play')], ['1', true, 'Play']);
    await browser.click('#paste-button');
    await screen.leaveFields();
}

async function holdButtons(screen) {
    for (const [id, page] of [['first', 0], ['next', 1], ['last', 5], ['previous', 4]]) {
        await screen.browser.click(`#${id}`);
        same(`the button ${id}`, await screen.pageAt(), page);
    }
    await screen.turn(0);
    same('no page before the first', await screen.browser.run(() => ['first', 'previous', 'next', 'last'].map((id) => document.getElementById(id).disabled)), [true, true, false, false]);
    await screen.set('slider', 3, 'input');
    same('the slider', await screen.pageAt(), 3);
    await screen.turn(99);
    same('a page past the last', await screen.pageAt(), 5);
}

// It stops at the last page, and begins again there.
async function holdPlay(screen) {
    const { browser } = screen;
    await screen.set('speed', '30');
    await screen.turn(0);
    await screen.leaveFields();
    await browser.key(' ');
    same('playing', await screen.text('play'), 'Pause');
    await browser.until(() => document.getElementById('play').textContent === 'Play');
    same('played to the end', await screen.pageAt(), 5);
    await screen.set('speed', '1');
    await browser.click('#play');
    await browser.click('#play');
    same('played from the start again, and stopped', [(await screen.pageAt()) < 5, await screen.text('play')], [true, 'Play']);
    await screen.set('speed', '2');
}

// The wrong picture: the same for Up and Down, half a turn away for Left and Right.
async function holdWrong(screen) {
    const images = imagesOf(readFileSync(join(work, 'eight-snakes.book')), 22);
    const met = new Set();
    await screen.openFile(join(work, 'eight-snakes.book'));
    await screen.showWrong(true);
    for (const page of [0, 8, 10, 12, 14, 16, 18, 20]) {
        const image = images[page];
        await screen.turn(page);
        for (let i = 0; i < image[0]; i++) {
            await screen.choose(i);
            const heading = HEADINGS[headingOf(image, i)];
            met.add(heading);
            await holdViews(screen, `snake ${i} on page ${page}, heading ${heading}`, image[1], heading);
        }
    }
    same('headings met', [...met].sort(), ['Down', 'Left', 'Right', 'Up']);
    same('it is labelled', await screen.browser.run(() => document.querySelector('#wrong-view figcaption').textContent), 'Wrong: turned with the heading');
}

async function holdViews(screen, what, g, heading) {
    const agree = heading === 'Up' || heading === 'Down';
    const right = await screen.planes('right', g);
    const planes = Array.from({ length: 5 }, (_, p) => right.slice(p * g * g, (p + 1) * g * g));
    same(`the wrong picture of ${what}`, await screen.planes('wrong', g), agree ? right : planes.map((plane) => [...plane].reverse().join('')).join(''));
    const ahead = await screen.browser.run(() => ['right', 'wrong'].map((id) => /(top|bottom)$/.exec(document.querySelector(`#${id} .picture`).getAttribute('aria-label'))[0]));
    same(`ahead of ${what}`, ahead, ['top', agree ? 'top' : 'bottom']);
    const said = await screen.text('circle-now');
    holds(`${what}: ${said}`, said.startsWith(`Heading ${heading}: ${agree ? 'both pictures agree' : 'the pictures differ'}`));
}

export async function holdHands(screen, examples) {
    await holdOpening(screen, examples);
    await holdKeys(screen);
    await holdButtons(screen);
    await holdPlay(screen);
    await holdWrong(screen);
}
