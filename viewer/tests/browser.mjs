// A headless Chromium driven over its pipe (the DevTools protocol, each message ended by a zero byte): no library, no port.
import { spawn } from 'node:child_process';
import { mkdtempSync, rmSync, writeFileSync } from 'node:fs';
import { tmpdir } from 'node:os';
import { join } from 'node:path';

const KEYS = { ArrowLeft: 37, ArrowRight: 39, Home: 36, End: 35, ' ': 32, Tab: 9, Enter: 13 };

export class Browser {
    #process;
    #profile = mkdtempSync(join(tmpdir(), 'viewer-'));
    #waiting = new Map();
    #listeners = [];
    #count = 0;
    #tab;
    #rest = '';

    static async open(command = 'chromium') {
        const browser = new Browser();
        await browser.#start(command);
        return browser;
    }

    async #start(command) {
        const options = ['--headless', '--no-sandbox', '--disable-gpu', '--hide-scrollbars', '--remote-debugging-pipe', `--user-data-dir=${this.#profile}`, 'about:blank'];
        this.#process = spawn(command, options, { stdio: ['ignore', 'ignore', 'ignore', 'pipe', 'pipe'] });
        this.#process.stdio[4].setEncoding('utf8').on('data', (text) => this.#read(text));
        const { targetInfos } = await this.#send('Target.getTargets');
        const { targetId } = targetInfos.find(({ type }) => type === 'page') ?? (await this.#send('Target.createTarget', { url: 'about:blank' }));
        this.#tab = (await this.#send('Target.attachToTarget', { targetId, flatten: true })).sessionId;
        for (const domain of ['Page', 'Runtime', 'Network', 'DOM', 'Log', 'Accessibility']) await this.call(`${domain}.enable`);
    }

    #read(text) {
        const messages = (this.#rest + text).split('\0');
        this.#rest = messages.pop();
        for (const message of messages.map((m) => JSON.parse(m))) {
            const waiting = this.#waiting.get(message.id);
            this.#waiting.delete(message.id);
            if (waiting === undefined) this.#listeners.forEach((listener) => listener(message));
            else if (message.error) waiting.reject(new Error(message.error.message));
            else waiting.resolve(message.result);
        }
    }

    #send(method, params = {}, sessionId = undefined) {
        const id = ++this.#count;
        this.#process.stdio[3].write(`${JSON.stringify({ id, method, params, sessionId })}\0`);
        return new Promise((resolve, reject) => this.#waiting.set(id, { resolve, reject }));
    }

    call(method, params) {
        return this.#send(method, params, this.#tab);
    }

    // Every message of that name from here on.
    on(method, listener) {
        this.#listeners.push((message) => message.method === method && listener(message.params));
    }

    async goTo(url) {
        const loaded = new Promise((resolve) => this.on('Page.loadEventFired', resolve));
        await this.call('Page.navigate', { url });
        await loaded;
    }

    // What a function gives that is run in the page: it knows its arguments, and nothing of the test.
    async run(inPage, ...given) {
        const expression = `(${inPage})(${given.map((value) => JSON.stringify(value)).join(', ')})`;
        const { result, exceptionDetails } = await this.call('Runtime.evaluate', { expression, awaitPromise: true, returnByValue: true });
        if (exceptionDetails) throw new Error(exceptionDetails.exception?.description ?? exceptionDetails.text);
        return result.value;
    }

    // Waits until it gives true.
    async until(inPage, ...given) {
        const end = Date.now() + 60000;
        while (!(await this.run(inPage, ...given))) {
            if (Date.now() > end) throw new Error(`never came: ${inPage} of ${given.join(', ')}`);
            await new Promise((resolve) => setTimeout(resolve, 20));
        }
    }

    async key(key) {
        const code = KEYS[key] ?? key.toUpperCase().charCodeAt(0);
        const text = key === 'Enter' ? '\r' : key.length === 1 ? key : undefined;
        await this.call('Input.dispatchKeyEvent', { type: text === undefined ? 'rawKeyDown' : 'keyDown', key, windowsVirtualKeyCode: code, text });
        await this.call('Input.dispatchKeyEvent', { type: 'keyUp', key, windowsVirtualKeyCode: code });
    }

    // A press of the mouse in the middle of an element.
    async click(selector) {
        const { x, y } = await this.run((wanted) => {
            const element = document.querySelector(wanted);
            element.scrollIntoView({ block: 'center' });
            const box = element.getBoundingClientRect();
            return { x: box.x + box.width / 2, y: box.y + box.height / 2 };
        }, selector);
        for (const type of ['mousePressed', 'mouseReleased']) await this.call('Input.dispatchMouseEvent', { type, x, y, button: 'left', clickCount: 1 });
    }

    async choose(selector, files) {
        const { root } = await this.call('DOM.getDocument');
        const { nodeId } = await this.call('DOM.querySelector', { nodeId: root.nodeId, selector });
        await this.call('DOM.setFileInputFiles', { nodeId, files });
    }

    // Files dragged over the window and dropped there.
    async drop(files) {
        const data = { items: [], files, dragOperationsMask: 1 };
        for (const type of ['dragEnter', 'dragOver', 'drop']) await this.call('Input.dispatchDragEvent', { type, x: 200, y: 200, data });
    }

    // Files that are saved go there under their own names.
    async saveTo(folder) {
        await this.#send('Browser.setDownloadBehavior', { behavior: 'allow', downloadPath: folder });
    }

    async window(width, height, dark = false) {
        await this.call('Emulation.setDeviceMetricsOverride', { width, height, deviceScaleFactor: 1, mobile: width < 600 });
        await this.call('Emulation.setEmulatedMedia', { features: [{ name: 'prefers-color-scheme', value: dark ? 'dark' : 'light' }] });
    }

    // The whole page, down to its end, as PNG or WebP; smaller by that scale.
    async screenshot(file, scale = 1) {
        const { width, height } = await this.run(() => {
            window.scrollTo(0, 0);
            return { width: window.innerWidth, height: document.documentElement.scrollHeight };
        });
        const { data } = await this.call('Page.captureScreenshot', { format: file.endsWith('.webp') ? 'webp' : 'png', quality: 70, captureBeyondViewport: true, clip: { x: 0, y: 0, width, height, scale } });
        writeFileSync(file, Buffer.from(data, 'base64'));
    }

    async close() {
        const ended = new Promise((resolve) => this.#process.on('exit', resolve));
        await this.#send('Browser.close').catch(() => {});
        await ended;
        rmSync(this.#profile, { recursive: true, force: true, maxRetries: 5 });
    }
}
