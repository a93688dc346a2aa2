// node firefox.js PAGE.html PROGRAM: the page, opened from the disk in Debian's firefox-esr, headless, over Marionette on the loopback: a capture
// and an export. The last line is 'N passed, M failed'.
'use strict';
const fs = require('fs');
const net = require('net');
const os = require('os');
const path = require('path');
const { spawn, spawnSync } = require('child_process');
const { judge, tell_counts } = require('./asking.js');

const [, , page, program] = process.argv;
const LIMIT_MS = Number(process.env.PATIENCE || 120) * 1000;
const IDLE = "document.getElementById('working').hidden && document.getElementById('panel').getAttribute('aria-busy') === 'false'";
const sleep = ms => new Promise(done => setTimeout(done, ms));
const free_port = () => new Promise(done => {
    const server = net.createServer().listen(0, '127.0.0.1', () => {
        const { port } = server.address();
        server.close(() => done(port));
    });
});

class Firefox {
    waits = new Map();
    last = 0;
    buffer = Buffer.alloc(0);

    static async begin() {
        const firefox = new Firefox(), port = await free_port();
        firefox.folder = fs.mkdtempSync(path.join(os.tmpdir(), 'firefox-'));
        fs.writeFileSync(path.join(firefox.folder, 'user.js'), `user_pref("marionette.port", ${port});\n`);
        firefox.process = spawn('firefox-esr', ['--headless', '--marionette', '--no-remote', '--profile', firefox.folder],
            { stdio: 'ignore', env: { ...process.env, HOME: firefox.folder } });
        firefox.socket = await firefox.connect(port);
        firefox.socket.on('data', piece => firefox.hear(piece));
        await firefox.send('WebDriver:NewSession', { strictFileInteractability: false });
        return firefox;
    }

    async connect(port) {
        for (const end = Date.now() + LIMIT_MS; ; await sleep(100)) {
            const socket = await new Promise(done => {
                const it = net.connect(port, '127.0.0.1', () => done(it));
                it.on('error', () => done(null));
            });
            if (socket) return socket;
            if (Date.now() > end) throw new Error('firefox does not answer');
        }
    }

    // Each message is LENGTH:JSON, and an answer is [1, number, error, result].
    hear(piece) {
        this.buffer = Buffer.concat([this.buffer, piece]);
        for (let colon; (colon = this.buffer.indexOf(58)) > 0;) {
            const end = colon + 1 + Number(this.buffer.subarray(0, colon));
            if (this.buffer.length < end) return;
            const message = JSON.parse(this.buffer.subarray(colon + 1, end));
            this.buffer = this.buffer.subarray(end);
            const wait = Array.isArray(message) && this.waits.get(message[1]);
            if (wait && message[2]) wait.no(new Error(`${wait.command}: ${message[2].message}`));
            else if (wait) wait.yes(message[3]);
        }
    }

    send(command, params = {}) {
        return new Promise((yes, no) => {
            this.waits.set(++this.last, { yes, no, command });
            const text = JSON.stringify([0, this.last, command, params]);
            this.socket.write(`${Buffer.byteLength(text)}:${text}`);
        });
    }

    async value(expression) {
        return (await this.send('WebDriver:ExecuteScript', { script: `return ${expression}`, args: [] })).value;
    }

    async until(expression) {
        for (const end = Date.now() + LIMIT_MS; Date.now() < end; await sleep(50)) if (await this.value(expression).catch(() => false)) return true;
        return false;
    }

    // As if this file were chosen. The input is shown for it, since none that is hidden takes a file here.
    async choose(file) {
        await this.value("document.getElementById('files').hidden = false");
        const found = await this.send('WebDriver:FindElement', { using: 'css selector', value: '#files' });
        await this.send('WebDriver:ElementSendKeys', { id: Object.values(found.value)[0], text: path.resolve(file) });
    }

    async end() {
        await this.send('Marionette:Quit', { flags: ['eForceQuit'] }).catch(() => {});
        this.process.kill();
        await sleep(500);
        fs.rmSync(this.folder, { recursive: true, force: true, maxRetries: 5 });
    }
}

const text = (firefox, id) => firefox.value(`document.getElementById('${id}').textContent`);
const equals = (name, got, want) => judge(name, got === want, `got ${got}`, `want ${want}`);

async function capture(firefox) {
    await firefox.choose('examples/disputed-in-point.csv');
    judge('a capture is judged', await firefox.until(`document.getElementById('verdict').textContent.includes('M1') && ${IDLE} && !document.getElementById('tries').hidden`));
    equals('the verdict', await text(firefox, 'verdict'), 'No at record 28, 00:00:00.011: M1 no run remains');
    judge('a session page', await firefox.value("document.getElementById('frame').src.startsWith('blob:')"));
    await firefox.value("document.getElementById('tab-why').click()");
    judge('a tab comes', await firefox.until(`${IDLE} && document.getElementById('text').textContent !== ''`));
    const said = spawnSync(program, ['why', '--all', 'disputed-in-point.csv'], { cwd: 'examples', encoding: 'utf8' });
    equals('its text', await text(firefox, 'text'), said.stdout);
    equals('its command line', (await text(firefox, 'panel-command')).replace(/(Copy|Save)+$/, ''), 'ninecheck why --all disputed-in-point.csv');
}

async function exported(firefox) {
    await firefox.choose('examples/exports/serial.log');
    judge('an export is asked about', await firefox.until("!document.getElementById('export').hidden"));
    await firefox.value("document.getElementById('convert').click()");
    judge('and judged', await firefox.until(`document.getElementById('verdict').textContent.startsWith('No at record 10, ') && ${IDLE}`));
    equals('with the command that converts it', (await text(firefox, 'made')).split('Copy')[0],
        'ninecheck convert log --controller COM3 --deck COM4 serial.log > serial-capture.csv');
}

async function cancelled(firefox) {
    await firefox.value("document.getElementById('tab-explain').click(), document.getElementById('cancel').click()");
    equals('a cancel', await text(firefox, 'state'), 'Cancelled. The last answer stands.');
    await firefox.choose('examples/play.csv');
    judge('and the next is answered', await firefox.until(`document.getElementById('verdict').textContent.startsWith('Yes') && ${IDLE}`));
}

async function main() {
    const firefox = await Firefox.begin();
    try {
        await firefox.send('WebDriver:Navigate', { url: 'file://' + path.resolve(page) });
        judge('the page is ready', await firefox.until("document.getElementById('state').textContent === 'Ready.'"));
        await capture(firefox);
        await exported(firefox);
        await cancelled(firefox);
        const refused = await firefox.send('WebDriver:ExecuteAsyncScript', { args: [], script: `const done = arguments[0];
            addEventListener('securitypolicyviolation', it => done('refused by ' + it.effectiveDirective)); fetch('http://127.0.0.1:9/').catch(() => {});` });
        equals('a fetch in the page', refused.value, 'refused by connect-src');
    } catch (error) {
        judge(String(error.stack), false);
    }
    await firefox.end();
    tell_counts();
}

main();
