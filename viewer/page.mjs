// The page: opening, turning, what is shown of a page.
import { load, Refusal } from '../clients/js/lundaspro.mjs';
import { shown } from '../clients/js/replay.mjs';
import { Book, bookOfText, headingOf, isAlive } from './book.mjs';
import { drawBoard, drop, markOf, SQUARE } from './board.mjs';
import { drawCircle, drawSeen, drawWrong, wrongInWords } from './views.mjs';
import { atWord, boardInWords, endInWords, plural, sentenceOf, settingInWords, snakeInWords, turnInWords } from './words.mjs';

const part = (id) => document.getElementById(id);

let arena;
let book = null;
let page = 0;
let chosen = 0;
let timer = null;

// ---- what is shown of a page

function showWhere() {
    part('where').textContent = `page ${page} of 0 to ${book.pages - 1}, move ${book.movesTo(page)} of ${book.moves}`;
    part('slider').value = page;
    part('slider').setAttribute('aria-valuetext', part('where').textContent);
    part('number').value = page;
    part('first').disabled = part('previous').disabled = page === 0;
    part('last').disabled = part('next').disabled = page === book.pages - 1;
}

function legendIcon(i, alive) {
    const square = (x, inside) => `<g transform="translate(${x} 10)">${SQUARE}${inside}</g>`;
    const shape = alive ? `${square(11, markOf(i))}<g transform="translate(28 10)">${drop(90)}<text>${i}</text></g>` : square(20, `<text>${i}</text>`);
    return `<svg viewBox="0 0 40 20" class="s${i} snake ${alive ? 'head' : 'corpse'}" aria-hidden="true">${shape}</svg>`;
}

// Drawn anew, the buttons keep the focus.
function showSnakes(image) {
    const focused = part('snakes').contains(document.activeElement) ? document.activeElement.dataset.snake : null;
    part('snakes').innerHTML = Array.from({ length: image[0] }, (_, i) => {
        const { life, length, at } = snakeInWords(arena, image, i);
        return `<button type="button" data-snake="${i}" aria-pressed="${i === chosen}">${legendIcon(i, isAlive(image, i))}<span>Snake ${i}, ${life}<span class="quiet">${length}, ${at}</span></span></button>`;
    }).join('');
    if (focused !== null) part('snakes').children[focused]?.focus();
}

function showSeen(image) {
    const heading = headingOf(image, chosen);
    const wrong = part('switch').checked;
    part('sees-title').textContent = `What snake ${chosen} ${isAlive(image, chosen) ? 'sees' : 'would see (it is dead)'}, heading ${heading}`;
    drawSeen(part('right'), arena, image, chosen);
    part('right-title').textContent = wrong ? 'Right: turned against the heading' : 'What the snake sees';
    part('wrong-view').hidden = part('circle-part').hidden = !wrong;
    if (!wrong) return;
    drawWrong(part('wrong'), arena, image, chosen);
    drawCircle(part('circle'), heading);
    part('circle-now').textContent = wrongInWords(heading);
}

function showState(turn) {
    drawBoard(part('board'), arena, turn.image, chosen);
    part('board').setAttribute('aria-label', boardInWords(arena, turn.image));
    part('events').replaceChildren(...turnInWords(arena, turn).map((text) => Object.assign(document.createElement('li'), { textContent: text })));
    part('line').textContent = shown(arena, turn);
    showSnakes(turn.image);
    showSeen(turn.image);
}

// The page's words about the one that shows the fault; it may be the first that is missing.
function wordsAbout({ word }) {
    if (word === null) return '';
    const words = book.wordsOf(page);
    const from = Math.max(0, word - 8);
    const shownWords = Array.from(words.subarray(from, word + 9), (value, k) => (from + k === word ? `<mark>${value}</mark>` : value));
    if (word >= words.length) shownWords.push('<mark>missing</mark>');
    return `<p>Its words from ${from} on, word ${word} marked: <code>${shownWords.join(' ')}</code></p>`;
}

function showDamage(refusal) {
    part('damage').innerHTML = `<strong>Page ${page} is damaged.</strong> Refusal ${refusal.number}${atWord(refusal)}: <span id="sentence"></span>. The other pages can be turned to.${wordsAbout(refusal)}`;
    part('sentence').textContent = sentenceOf(refusal);
}

function show() {
    showWhere();
    let refused = null;
    try {
        showState(book.told(page));
    } catch (error) {
        if (!(error instanceof Refusal)) throw error;
        refused = error;
        showDamage(error);
    }
    part('damage').hidden = refused === null;
    for (const id of ['board', 'events', 'line-part', 'snakes-part']) part(id).toggleAttribute('hidden', refused !== null);
}

// ---- turning

function turnTo(number) {
    if (book === null) return;
    page = Math.min(Math.max(number, 0), book.pages - 1);
    show();
}

// While it plays, no page is read out.
function showPlaying(playing) {
    part('play').textContent = playing ? 'Pause' : 'Play';
    part('where').setAttribute('aria-live', playing ? 'off' : 'polite');
}

function stop() {
    clearInterval(timer);
    timer = null;
    showPlaying(false);
}

function playOn() {
    if (page === book.pages - 1) stop();
    else turnTo(page + 1);
}

function play() {
    if (book === null) return;
    if (timer !== null) return stop();
    if (page === book.pages - 1) turnTo(0);
    timer = setInterval(playOn, 1000 / Number(part('speed').value));
    showPlaying(true);
}

function choose(snake) {
    if (book === null || snake >= book.setting.num_snakes) return;
    chosen = snake;
    turnTo(page);
}

// ---- opening

function showPaste(shown) {
    part('paste').hidden = !shown;
    part('paste-button').setAttribute('aria-expanded', String(shown));
    if (shown) part('text').focus();
}

function say(strong, text) {
    part('alert').replaceChildren(Object.assign(document.createElement('strong'), { textContent: strong }), ` ${text}`);
    part('alert').hidden = false;
}

function close() {
    stop();
    book = null;
    part('match').hidden = true;
    part('alert').hidden = true;
    part('save').hidden = true;
    part('end').hidden = true;
}

function showBook(name, opened) {
    if (opened.pages === 0) return say(`${name}:`, 'the book has no page.');
    book = opened;
    page = 0;
    chosen = 0;
    part('name').textContent = name;
    part('setting').textContent = `${settingInWords(book.setting).join(', ')}; ${plural(book.pages, 'page')}.`;
    part('slider').max = part('number').max = book.pages - 1;
    part('match').hidden = false;
    show();
}

// A word is two bytes, low one first, as in the library's memory and in every browser's.
function openBook(name, bytes) {
    close();
    if (bytes.length % 2 === 1) return say(`${name} is no match book:`, 'it has an odd number of bytes.');
    try {
        showBook(name, new Book(arena, new Uint16Array(bytes.buffer)));
    } catch (error) {
        if (!(error instanceof Refusal)) throw error;
        say(`${name} is refused by ${error.number}:`, `${error.sentence}.`);
    }
}

// A book's bytes, to be kept as a file.
function offerBook(name) {
    URL.revokeObjectURL(part('save').href);
    part('save').href = URL.createObjectURL(new Blob([book.words]));
    part('save').download = name.replace(/\.txt$/, '') + '.book';
    part('save').hidden = false;
}

function openText(name, text) {
    close();
    try {
        const { book: opened, last, refused } = bookOfText(arena, text);
        if (refused !== null) say(`Line ${refused.line} is refused by ${refused.refusal.number}:`, `${sentenceOf(refused.refusal)}. It reads: ${refused.text}`);
        if (opened === null) return;
        showBook(name, opened);
        offerBook(name);
        if (refused === null) showPaste(false);
        part('end').textContent = refused === null ? endInWords(arena, last) : 'The pages up to that line are shown.';
        part('end').hidden = false;
    } catch (error) {
        if (!(error instanceof Refusal)) throw error;
        say(`${name} is refused by ${error.number}:`, `${error.sentence}.`);
    }
}

// A match's text begins with a digit, a book with the word 1; else the file's name tells.
const isText = (name, bytes) => /\.txt$/i.test(name) || (bytes[0] >= 0x30 && bytes[0] <= 0x39);

// A character a byte, as the replay reads them.
const latin = (bytes) => new TextDecoder('latin1').decode(bytes);

async function openFile(file) {
    part('example').value = '';
    const buffer = await file.arrayBuffer().catch(() => null); // a folder, or a file that is gone
    if (buffer === null) {
        close();
        return say(`${file.name}:`, 'cannot be read.');
    }
    const bytes = new Uint8Array(buffer);
    if (isText(file.name, bytes)) openText(file.name, latin(bytes));
    else openBook(file.name, bytes);
}

// ---- what a person does

const KEYS = {
    ArrowLeft: () => turnTo(page - 1),
    ArrowRight: () => turnTo(page + 1),
    Home: () => turnTo(0),
    End: () => turnTo(Infinity),
    ' ': play,
    w: () => part('switch').click(),
};

// Fields have their own keys, a button or a switch its own space.
function onKey(event) {
    if (event.ctrlKey || event.metaKey || event.altKey) return;
    if (event.target.closest?.('textarea, select, input[type="number"]')) return;
    if (event.key === ' ' && event.target.closest?.('button, a, input, label')) return;
    const act = /^[0-7]$/.test(event.key) ? () => choose(Number(event.key)) : KEYS[event.key.length === 1 ? event.key.toLowerCase() : event.key];
    if (act === undefined) return;
    event.preventDefault();
    act();
}

function onDrop(event) {
    event.preventDefault();
    part('drop').hidden = true;
    const [file] = event.dataTransfer.files;
    if (file) openFile(file);
    else if (event.dataTransfer.getData('text')) openText('dropped text', event.dataTransfer.getData('text'));
}

function listen() {
    const click = { first: () => turnTo(0), previous: () => turnTo(page - 1), play, next: () => turnTo(page + 1), last: () => turnTo(Infinity) };
    for (const [id, act] of Object.entries(click)) part(id).addEventListener('click', act);
    part('slider').addEventListener('input', () => turnTo(Number(part('slider').value)));
    part('number').addEventListener('change', () => turnTo(Math.trunc(Number(part('number').value)) || 0));
    part('speed').addEventListener('change', () => timer !== null && (stop(), play()));
    part('snakes').addEventListener('click', (event) => {
        const button = event.target.closest('button');
        if (button) choose(Number(button.dataset.snake));
    });
    part('switch').addEventListener('change', () => turnTo(page));
    part('file').addEventListener('change', () => {
        if (part('file').files.length > 0) openFile(part('file').files[0]);
        part('file').value = '';
    });
    part('paste-button').addEventListener('click', () => showPaste(part('paste').hidden));
    part('paste').addEventListener('submit', (event) => {
        event.preventDefault();
        part('example').value = '';
        openText('pasted match', latin(new TextEncoder().encode(part('text').value)));
    });
    document.addEventListener('keydown', onKey);
    document.addEventListener('dragover', (event) => {
        event.preventDefault();
        part('drop').hidden = false;
    });
    document.addEventListener('dragleave', (event) => {
        if (event.relatedTarget === null) part('drop').hidden = true;
    });
    document.addEventListener('drop', onDrop);
}

// The examples that viewer/make put into the page; the first is shown at the start.
function offerExamples() {
    const examples = [...document.querySelectorAll('script.example')];
    part('example-label').hidden = examples.length === 0;
    part('example').replaceChildren(new Option('choose', ''), ...examples.map(({ dataset }) => new Option(dataset.name)));
    const open = () => {
        const example = examples.find(({ dataset }) => dataset.name === part('example').value);
        if (example) openText(example.dataset.name, example.textContent.trimStart());
    };
    part('example').addEventListener('change', open);
    part('example').value = examples[0]?.dataset.name ?? '';
    open();
}

// The library's bytes stand in the page, where viewer/make put them; without them it is fetched from dist/.
function embedded() {
    const text = document.getElementById('library')?.textContent.replace(/\s/g, '');
    return text === undefined ? undefined : Uint8Array.from(atob(text), (character) => character.charCodeAt(0));
}

async function start() {
    arena = await load(embedded());
    listen();
    offerExamples();
}
start();
