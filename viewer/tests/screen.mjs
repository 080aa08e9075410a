// The page in a browser, as a person meets it: what is done to it, and what is read off it.
import { Browser } from './browser.mjs';

// ---- run in the page

const textIn = (id) => document.getElementById(id).textContent;
const isHiddenIn = (id) => document.getElementById(id).hasAttribute('hidden');

// The board by what lies uppermost in the middle of each cell, in the letters of ./page.
function boardIn(g) {
    const board = document.getElementById('board');
    board.scrollIntoView({ block: 'center' });
    const field = board.querySelector('.field').getBoundingClientRect();
    const letter = ({ dataset, textContent }) => ({ food: '*', head: 'ABCDEFGH'[textContent], body: 'abcdefgh'[dataset.snake], corpse: textContent })[dataset.part];
    const middle = (start, size, k) => start + (size * (k + 0.5)) / g;
    const seen = (r, c) => document.elementFromPoint(middle(field.x, field.width, c), middle(field.y, field.height, r))?.closest('[data-part]');
    const each = (f) => Array.from({ length: g }, (_, k) => f(k));
    return each((r) => each((c) => (seen(r, c) ? letter(seen(r, c)) : '.')).join(''));
}

// Which way each head's tip points: 0 to 3.
function headingsIn() {
    const heads = [...document.querySelectorAll('#board [data-part=head]')].map((head) => {
        const turned = /rotate.(\d+)/.exec(head.querySelector('.drop').parentElement.getAttribute('transform'))[1];
        return [Number(head.dataset.snake), Number(turned) / 90];
    });
    return heads.sort(([a], [b]) => a - b);
}

// A view's planes as 0s and 1s, by where the lit cells lie.
function planesIn(id, g) {
    const plane = (svg) => {
        const field = svg.querySelector('.field').getBoundingClientRect();
        const cells = Array(g * g).fill(0);
        for (const lit of svg.querySelectorAll('.lit')) {
            const box = lit.getBoundingClientRect();
            cells[g * Math.round(((box.y - field.y) * g) / field.height) + Math.round(((box.x - field.x) * g) / field.width)] = 1;
        }
        return cells.join('');
    };
    return [...document.getElementById(id).querySelectorAll('[data-plane]')].map(plane).join('');
}

// ---- the page

export class Screen {
    errors = [];
    asked = [];

    static async open(url, folder) {
        const screen = new Screen();
        const browser = await Browser.open(process.env.CHROMIUM ?? 'chromium');
        browser.on('Runtime.exceptionThrown', ({ exceptionDetails }) => screen.errors.push(exceptionDetails.exception?.description ?? exceptionDetails.text));
        browser.on('Log.entryAdded', ({ entry }) => entry.level === 'error' && screen.errors.push(entry.text));
        browser.on('Network.requestWillBeSent', ({ request }) => screen.asked.push(request.url));
        await browser.saveTo(folder);
        await browser.window(1280, 900);
        screen.browser = browser;
        await screen.goTo(url);
        return screen;
    }

    // Its first field is filled when it listens.
    async goTo(url) {
        await this.browser.goTo(url);
        await this.browser.until(() => document.getElementById('example').options.length > 0);
    }

    text(id) {
        return this.browser.run(textIn, id);
    }

    isHidden(id) {
        return this.browser.run(isHiddenIn, id);
    }

    board(g) {
        return this.browser.run(boardIn, g);
    }

    headings() {
        return this.browser.run(headingsIn);
    }

    planes(id, g) {
        return this.browser.run(planesIn, id, g);
    }

    words() {
        return this.browser.run(() => [...document.querySelectorAll('#events li')].map((item) => item.textContent));
    }

    // ---- what a person does

    // A field is given a value, as by hand.
    set(id, value, event = 'change') {
        const setIn = (field, given, name) => {
            document.getElementById(field).value = given;
            document.getElementById(field).dispatchEvent(new Event(name));
        };
        return this.browser.run(setIn, id, value, event);
    }

    turn(page) {
        return this.set('number', page);
    }

    async pageAt() {
        return Number(/^page (\d+)/.exec(await this.text('where'))[1]);
    }

    choose(snake) {
        return this.browser.run((number) => document.querySelectorAll('#snakes button')[number].click(), snake);
    }

    chosen() {
        return this.browser.run(() => document.querySelector('#snakes [aria-pressed=true]').dataset.snake);
    }

    async showWrong(wanted) {
        if ((await this.isHidden('wrong-view')) === wanted) await this.browser.run(() => document.getElementById('switch').click());
    }

    leaveFields() {
        return this.browser.run(() => document.activeElement.blur());
    }

    // Waits until the file is shown or refused.
    async openFile(file) {
        await this.browser.run(() => ['name', 'alert'].forEach((id) => document.getElementById(id).replaceChildren()));
        await this.browser.choose('#file', [file]);
        await this.browser.until(() => ['name', 'alert'].some((id) => document.getElementById(id).textContent !== ''));
    }

    async paste(match) {
        if (await this.isHidden('paste')) await this.browser.click('#paste-button');
        await this.browser.run((given) => (document.getElementById('text').value = given), match);
        await this.browser.click('#paste button');
    }
}
