'use strict';
// Debian's chromium, headless, over --remote-debugging-pipe: no port and no package.
const { spawn } = require('child_process'), fs = require('fs'), os = require('os'), path = require('path');

const sleep = ms => new Promise(done => setTimeout(done, ms));
const TURN_MS = 50;
// A machine that is busy is waited for, so many seconds.
const LIMIT_MS = Number(process.env.PATIENCE || 120) * 1000;

class Chromium {
    // Every address that was asked for, and what went wrong in the page.
    asked = [];
    wrong = [];
    waits = new Map();
    last = 0;
    text = '';

    static async begin(width = 1400, height = 1000) {
        const browser = new Chromium();
        browser.folder = fs.mkdtempSync(path.join(os.tmpdir(), 'chromium-'));
        browser.process = spawn('chromium', ['--headless=new', '--no-sandbox', '--disable-gpu', '--disable-dev-shm-usage', '--no-first-run',
            `--user-data-dir=${browser.folder}`, '--remote-debugging-pipe', `--window-size=${width},${height}`, 'about:blank'],
        { stdio: ['ignore', 'ignore', 'ignore', 'pipe', 'pipe'] });
        browser.process.stdio[4].on('data', piece => browser.hear(piece));
        browser.product = (await browser.send('Browser.getVersion')).product;
        const { targetId } = await browser.send('Target.createTarget', { url: 'about:blank' });
        browser.session = (await browser.send('Target.attachToTarget', { targetId, flatten: true })).sessionId;
        for (const it of ['Page', 'Runtime', 'DOM', 'Network', 'Log']) await browser.send(it + '.enable');
        await browser.size(width, height);
        return browser;
    }

    hear(piece) {
        this.text += piece;
        for (let end; (end = this.text.indexOf('\0')) >= 0;) {
            const message = JSON.parse(this.text.slice(0, end));
            this.text = this.text.slice(end + 1);
            if (message.id) this.answer(message);
            else this.note(message);
        }
    }

    answer({ id, error, result }) {
        const { yes, no, method } = this.waits.get(id);
        this.waits.delete(id);
        if (error) no(new Error(`${method}: ${error.message}`));
        else yes(result);
    }

    note({ method, params }) {
        if (method === 'Network.requestWillBeSent') this.asked.push(params.request.url.slice(0, 60));
        else if (method === 'Log.entryAdded') this.wrong.push(params.entry.text);
        else if (method === 'Tracing.dataCollected') this.tasks.push(...params.value);
        else if (method === 'Tracing.tracingComplete') this.traced();
        else if (method === 'Runtime.exceptionThrown') {
            const { exception, text } = params.exceptionDetails;
            this.wrong.push(exception && exception.description || text);
        }
    }

    send(method, params = {}) {
        return new Promise((yes, no) => {
            this.waits.set(++this.last, { yes, no, method });
            const session = this.session && { sessionId: this.session };
            this.process.stdio[3].write(JSON.stringify({ id: this.last, method, params, ...session }) + '\0');
        });
    }

    async open(file) {
        await this.send('Page.navigate', { url: 'file://' + path.resolve(file) });
    }

    // The value of an expression in the page, or that of the promise that it is.
    async value(expression) {
        const { result, exceptionDetails } = await this.send('Runtime.evaluate', { expression, returnByValue: true, awaitPromise: true });
        if (exceptionDetails) throw new Error(`${expression}: ${exceptionDetails.exception?.description || exceptionDetails.text}`);
        return result.value;
    }

    // Waits until the expression holds; false where it never does. Of a page that is not loaded yet nothing holds.
    async until(expression, limit = LIMIT_MS) {
        for (const end = Date.now() + limit; Date.now() < end; await sleep(TURN_MS)) {
            if (await this.value(expression).catch(() => false)) return true;
        }
        return false;
    }

    // As if these files were chosen.
    async choose(selector, files) {
        const { root } = await this.send('DOM.getDocument');
        const { nodeId } = await this.send('DOM.querySelector', { nodeId: root.nodeId, selector });
        await this.send('DOM.setFileInputFiles', { nodeId, files: files.map(it => path.resolve(it)) });
    }

    // As if these files were dropped on the page, which the mouse enters at its edge. Where a frame has just come, the browser may not know yet
    // what is at a place: so they are dropped again where the page was told of none.
    async drop(files, x = 200, y = 60) {
        const data = { items: [], files: files.map(it => path.resolve(it)), dragOperationsMask: 1 };
        await this.value("if (!('drops' in window)) { window.drops = 0; addEventListener('drop', () => { window.drops++; }, true); }");
        const before = await this.value('window.drops');
        for (let tries = 0; tries < 5; tries++) {
            for (const [type, at, down] of [['dragEnter', 5, 5], ['dragOver', 5, 5], ['dragOver', x, y], ['drop', x, y]]) {
                await this.send('Input.dispatchDragEvent', { type, x: at, y: down, data });
            }
            if (await this.until(`window.drops > ${before}`, 2000)) return;
        }
        throw new Error('no drop came to the page');
    }

    // A key, such as 'Tab', 'Enter' or 'a', as a hand presses it.
    async key(key, modifiers = 0) {
        const codes = { Tab: 9, Enter: 13, Escape: 27, ' ': 32, PageUp: 33, PageDown: 34, End: 35, Home: 36, ArrowLeft: 37, ArrowUp: 38, ArrowRight: 39, ArrowDown: 40 };
        const text = { Enter: '\r', ' ': ' ' }[key] || (key.length === 1 ? key : undefined);
        const it = { key, modifiers, windowsVirtualKeyCode: codes[key] || key.toUpperCase().charCodeAt(0), ...(text && { text }) };
        await this.send('Input.dispatchKeyEvent', { type: 'keyDown', ...it });
        await this.send('Input.dispatchKeyEvent', { type: 'keyUp', ...it });
    }

    // Presses the mouse at one place and lets it go at another.
    async drag(from, to) {
        const mouse = (type, { x, y }, buttons) => this.send('Input.dispatchMouseEvent', { type, x, y, button: 'left', buttons, clickCount: 1 });
        await mouse('mousePressed', from, 1);
        await mouse('mouseMoved', to, 1);
        await mouse('mouseReleased', to, 0);
    }

    async size(width, height) {
        await this.send('Emulation.setDeviceMetricsOverride', { width, height, deviceScaleFactor: 1, mobile: false });
    }

    async dark(is_dark) {
        await this.send('Emulation.setEmulatedMedia', { features: [{ name: 'prefers-color-scheme', value: is_dark ? 'dark' : 'light' }] });
    }

    // Notes each task of the page's main thread, until longest_task.
    async begin_trace() {
        this.tasks = [];
        await this.send('Tracing.start', { traceConfig: { includedCategories: ['toplevel', 'disabled-by-default-devtools.timeline'] }, transferMode: 'ReportEvents' });
    }

    // The processor time in milliseconds of the longest task since: of the page's main thread, so that a machine that is busy is not counted.
    async longest_task() {
        const complete = new Promise(done => { this.traced = done; });
        await this.send('Tracing.end');
        await complete;
        const main = new Set(this.tasks.filter(it => it.name === 'thread_name' && it.args.name === 'CrRendererMain').map(it => `${it.pid}/${it.tid}`));
        const tasks = this.tasks.filter(it => /RunTask$/.test(it.name) && main.has(`${it.pid}/${it.tid}`));
        return Math.max(0, ...tasks.map(it => it.tdur ?? it.dur ?? 0)) / 1000;
    }

    async shot(file) {
        const { data } = await this.send('Page.captureScreenshot', { format: 'png', captureBeyondViewport: false });
        fs.writeFileSync(file, Buffer.from(data, 'base64'));
    }

    async end() {
        const ended = new Promise(done => this.process.on('exit', done));
        this.session = null;
        await this.send('Browser.close').catch(() => {});
        await ended;
        await sleep(300);
        fs.rmSync(this.folder, { recursive: true, force: true, maxRetries: 5 });
    }
}

module.exports = { Chromium, sleep };
