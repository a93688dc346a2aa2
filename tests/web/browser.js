// node browser.js PAGE.html PROGRAM FOLDER: the page, opened from the disk in chromium, as a person uses it. What it shows is compared with what
// the built program says, and with lines written here. FOLDER has modules that run out of memory and of stack, and room for captures. With
// LONG=ROWS the long capture has so many rows. The last line is 'N passed, M failed'.
'use strict';
const fs = require('fs');
const path = require('path');
const { spawnSync } = require('child_process');
const { Chromium, sleep } = require('./chromium.js');
const { judge, tell_counts } = require('./asking.js');

const [, , page, program, work] = process.argv;
const EXAMPLES = path.resolve('examples');
const QUIET = "asking.now === null && asking.queue.length === 0 && document.getElementById('next').getAttribute('aria-busy') !== 'true'";
const IDLE = `${QUIET} && document.getElementById('working').hidden && document.getElementById('panel').getAttribute('aria-busy') === 'false'`;
const ANSWERED = `!document.getElementById('answer').hidden && ${IDLE}`;
let browser;

const text = id => browser.value(`document.getElementById('${id}').textContent`);
const shown = id => browser.value(`!document.getElementById('${id}').hidden`);
const click = id => browser.value(`document.getElementById('${id}').click()`);
const equals = (name, got, want) => judge(name, got === want, `got ${got}`, `want ${want}`);
const example = name => path.join(EXAMPLES, name);

// What the built program writes, asked in a folder.
function built(words, folder = EXAMPLES) {
    return spawnSync(program, words, { cwd: folder, maxBuffer: 1 << 28, encoding: 'utf8' });
}

async function open_page() {
    await browser.open(page);
    judge('the page is ready', await browser.until("asking.is_ready && document.getElementById('state').textContent === 'Ready.'"));
}

// Drops these files, and waits until all that is asked then is answered.
async function drop(...files) {
    await browser.until(QUIET);
    await browser.value("document.getElementById('verdict').textContent = ''");
    await browser.drop(files);
    judge(`an answer to ${files.map(it => path.basename(it))}`, await browser.until(`document.getElementById('verdict').textContent !== '' && ${ANSWERED}`));
}

async function open_tab(view) {
    await click(`tab-${view}`);
    judge(`the tab ${view} comes`, await browser.until(IDLE));
}

// The tab shows the built program's text, and the command line that gives it.
async function shows(view, words, folder = EXAMPLES) {
    await open_tab(view);
    const said = built(words, folder);
    equals(`the text of ${words.join(' ')}`, await text('text'), said.stdout);
    equals(`standard error of ${words.join(' ')}`, await text('panel-said'), said.stderr);
    equals(`the command line of ${view}`, (await text('panel-command')).replace(/(Copy|Save)+$/, ''), `ninecheck ${words.join(' ')}`);
}

// ---- What a capture is judged to be.
async function captures() {
    await drop(example('play.csv'));
    equals('a yes', await text('verdict'), 'Yes: a deck can have given these replies');
    equals('its last line', await text('totals'), 'breaks 0: records 6, exchanges 1, passed over 0, open 0');
    await shows('info', ['info', 'play.csv']);
    await drop(example('late-reply.csv'));
    equals('a broken rule', await text('verdict'), 'No at record 4, 00:00:00.010: L1 late reply');
    equals('what it means', await text('sentence'), 'The reply began more than nine milliseconds after the command. At fault: the deck.');
    await shows('why', ['why', '--all', 'late-reply.csv']);
    await drop(example('disputed-in-point.csv'));
    equals('a dispute', await text('verdict'), 'No at record 28, 00:00:00.011: M1 no run remains');
    for (const [view, ...words] of [['why', 'why', '--all'], ['digest', 'digest', '--all'], ['motion', 'motion', '--all'], ['delays', 'delays', '--all'],
        ['explain', 'explain', '--all'], ['run', 'run'], ['touches', 'touches']]) await shows(view, [...words, 'disputed-in-point.csv']);
    await open_tab('picture');
    judge('a picture', await browser.until("document.querySelector('#picture img').naturalWidth >= 700"));
    await open_tab('page');
    const frame = await browser.value("fetch ? document.getElementById('frame').src : ''");
    judge('a session page in a frame without scripts', frame.startsWith('blob:') && await browser.value("document.getElementById('frame').getAttribute('sandbox') === ''"));
    equals('the session page is that of the program', await browser.value("answer_to('page').then(it => text_of(it.out))"), built(['page', 'disputed-in-point.csv']).stdout);
}

// What is saved is what the built program writes, to the byte, and what is copied is the command line.
async function saved() {
    const into = path.join(work, 'saved');
    await browser.send('Browser.setDownloadBehavior', { behavior: 'allow', downloadPath: into });
    await browser.send('Browser.grantPermissions', { permissions: ['clipboardReadWrite', 'clipboardSanitizedWrite'] });
    await drop(example('late-reply.csv'));
    await open_tab('why');
    const save_view = "document.querySelector('#panel-command .command button:last-child').click()";
    const kinds = [['late-reply-why.txt', ['why', '--all'], save_view], ['late-reply.html', ['page'], "document.getElementById('save-page').click()"],
        ['late-reply.json', ['json', '--all'], "document.getElementById('json').click()"]];
    for (const [name, words, act] of kinds) {
        await browser.value(act);
        judge(`${name} is saved`, await browser.until(`document.getElementById('state').textContent === 'Saved as ${name}.'`));
        const file = path.join(into, name), want = built([...words, 'late-reply.csv']).stdout;
        for (let n = 0; n < 100 && !fs.existsSync(file); n++) await sleep(50);
        equals(`what is saved as ${name}`, fs.existsSync(file) && fs.readFileSync(file, 'utf8'), want);
    }
    await browser.value("document.querySelector('#asked button').click()");
    judge('a command line is copied', await browser.until("document.getElementById('state').textContent === 'Copied.'"));
    equals('as it stands', await browser.value('navigator.clipboard.readText()'), 'ninecheck check --all late-reply.csv');
    await open_tab('page');
}

// What the program says to ask next has a button that asks so.
async function advice() {
    await drop(example('disputed-in-point.csv'));
    equals('what to ask next', await text('next'), 'next: record 28 keeps the rules with --handsAsk with --hands');
    await browser.value("document.querySelector('#next button').click()");
    await browser.until(`document.getElementById('verdict').textContent.startsWith('Yes') && ${IDLE}`);
    equals('it is asked so', await text('asked'), 'ninecheck check --all --hands disputed-in-point.csvCopy');
    await browser.value("change_terms({hands: false})");
    await drop(example('drop-frame.csv'));
    judge('the rate that fits', (await text('next')).includes('Ask with --rate 29.97df'));
    equals('the answer at each rate', await text('try-text'), built(['try', '--all', 'drop-frame.csv']).stdout);
    const swapped = path.join(work, 'swapped.csv');
    fs.writeFileSync(swapped, fs.readFileSync(example('play.csv'), 'utf8').replace(/,([CD]),/g, (it, wire) => wire === 'C' ? ',D,' : ',C,'));
    await drop(swapped);
    judge('swapped wires are said', (await text('next')).startsWith('look at: the wires are swapped'));
    await browser.value("document.querySelector('#next button').click()");
    await browser.until(`document.getElementById('verdict').textContent.startsWith('Yes') && ${IDLE}`);
    judge('and swapped back', (await text('file')).startsWith('swapped-swapped.csv'));
}

async function terms() {
    await drop(example('views/several-breaks.csv'));
    const folder = path.join(EXAMPLES, 'views');
    const change = async (id, to) => {
        await browser.value(`{ const it = document.getElementById('${id}'); it[it.type === 'checkbox' ? 'checked' : 'value'] = ${JSON.stringify(to)};
            it.dispatchEvent(new Event('change', { bubbles: true })); }`);
        await sleep(100);
        await browser.until(IDLE);
    };
    await change('rate', '30');
    await change('sync', true);
    await shows('explain', ['explain', '--all', '--sync', '--rate', '30', 'several-breaks.csv'], folder);
    await change('all', false);
    equals('the first break alone', await text('totals'), built(['check', '--sync', '--rate', '30', 'several-breaks.csv'], folder).stdout.trim());
    await change('all', true);
    await change('from', '0.02');
    await change('to', '00:00:00.05');
    await shows('digest', ['digest', '--all', '--sync', '--rate', '30', '--from', '0.02', '--to', '00:00:00.05', 'several-breaks.csv'], folder);
    await change('to', 'noon');
    judge('a time that is none', (await text('message-title')) === 'From and To want a time');
    judge('and the answer stands', (await text('verdict')).startsWith('No at record 22'));
    await change('to', '');
    await change('from', '');
    await change('sheet', 'shipped');
    equals('the sheet that is inside', await text('asked'), 'ninecheck check --all --sync --rate 30 --deck decks/nine-pin-commands.toml several-breaks.csvCopy');
}

// ---- Exports, and several files in one drop.
const answer_of = (capture, words) => built(['check', ...words, capture], path.join(EXAMPLES, 'exports')).stdout.split('\n')[0];

async function exports_() {
    const rows = fs.readFileSync(example('exports/ANSWERS'), 'utf8').split('\n').filter(line => line && !line.startsWith('#'));
    for (const [name, , words, capture, , line] of rows.map(it => it.split('|'))) {
        await browser.drop([example(`exports/${name}`)]);
        judge(`${name} is asked about`, await browser.until("!document.getElementById('export').hidden"));
        const range = /--from (\S+)/.exec(words);
        if (range) await browser.value(`document.getElementById('export-from').value = '${range[1]}'`);
        await browser.value("document.getElementById('verdict').textContent = ''");
        // Nothing is filled in: what the converter needs stands there already.
        await click('convert');
        await browser.until(`document.getElementById('verdict').textContent !== '' && ${IDLE}`);
        const want = fs.readFileSync(example(`exports/${capture}`), 'utf8');
        equals(`the capture of ${name}`, await browser.value('session.capture.file.text()'), want);
        const no = /^no at record (\d+): (.*)/.exec(line);
        const verdict = await text('verdict');
        judge(`the answer to ${name}: ${verdict}`, no ? verdict.startsWith(`No at record ${no[1]}, `) && verdict.endsWith(no[2]) : verdict.startsWith('Yes: '));
    }
}

async function together() {
    const both = fs.readFileSync(example('exports/saleae-older-two-files.csv'), 'utf8'), second = both.lastIndexOf('Time [s]');
    const files = [['the deck.csv', both.slice(second)], ['other.csv', both.slice(0, second)]].map(([name, part]) => {
        fs.writeFileSync(path.join(work, name), part);
        return path.join(work, name);
    });
    await browser.drop(files);
    judge('two exports are asked about', await browser.until("!document.getElementById('export').hidden"));
    equals('which of them is whose', await text('export-title'), 'the deck.csv, other.csv are two of Saleae Logic');
    await click('convert');
    await browser.until(`document.getElementById('file').textContent.startsWith('other-capture') && ${IDLE}`);
    equals('the capture of both', await browser.value('session.capture.file.text()'), fs.readFileSync(example('exports/saleae-older-two-files-capture.csv'), 'utf8'));
    await drop(example('eject.csv'), example('eject.toml'));
    equals('a capture and its sheet', await text('totals'), built(['check', '--all', '--deck', 'eject.toml', 'eject.csv']).stdout.trim().split('\n').pop());
    await shows('why', ['why', '--all', '--deck', 'eject.toml', 'eject.csv']);
    await browser.value("document.getElementById('sheet').value = 'none'; ask_again()");
    await browser.until(`document.getElementById('asked').textContent === 'ninecheck check --all eject.csvCopy' && ${IDLE}`);
    await browser.drop([example('eject.toml')]);
    judge('a sheet alone goes to the capture', await browser.until(`document.getElementById('asked').textContent === 'ninecheck check --all --deck eject.toml eject.csvCopy' && ${IDLE}`));
    await browser.value("document.getElementById('sheet').value = 'none'");
}

// ---- What is refused, and what goes wrong. The last answer stands.
async function refused(name, files, title, said) {
    const before = await text('verdict');
    await browser.drop(files);
    judge(`${name}: a message`, await browser.until(`!document.getElementById('message').hidden && ${IDLE}`));
    equals(`${name}: its title`, await text('message-title'), title);
    if (said !== undefined) equals(`${name}: the program's own text`, await text('message-program'), said);
    equals(`${name}: the answer stands`, await text('verdict'), before);
    await click('close-message');
}

async function refusals() {
    await drop(example('play.csv'));
    await refused('a bad row', [example('bad-byte.csv')], 'Status 3: this can’t be read', built(['check', '--all', 'bad-byte.csv']).stderr);
    await refused('a wrong header', [example('wrong-header.csv')], 'Status 3: this can’t be read', built(['check', 'wrong-header.csv']).stderr);
    fs.writeFileSync(path.join(work, 'photo.jpg'), Buffer.from([0xff, 0xd8, 0xff, 0xe0, 0, 16, 74, 70, 73, 70]));
    await refused('a file that is none', [path.join(work, 'photo.jpg')], 'Status 3: this can’t be read', built(['check', 'photo.jpg'], work).stderr);
    fs.writeFileSync(path.join(work, 'wrong.toml'), '[names]\n"20 40" = 5\n');
    await refused('a sheet that says what none can', [path.join(work, 'wrong.toml')], 'Status 3: this can’t be read', built(['check', '--deck', 'wrong.toml', example('play.csv')], work).stderr);
    await refused('two captures', [example('play.csv'), example('gap.csv')], 'These are several captures');
    await open_tab('picture');
    equals('a picture of a yes', await text('panel-said'), 'nothing to draw: no part breaks\n');
    judge('its status in words', (await text('panel-note')).startsWith('Status 0: yes, so there is nothing to draw'));
    await open_tab('page');
}

// A module that ends in this way stands in the place of the program.
async function fault_of(name, title) {
    const module = fs.readFileSync(path.join(work, `${name}.wasm`)).toString('base64');
    await browser.value(`WebAssembly.compile(Uint8Array.from(atob('${module}'), it => it.charCodeAt(0))).then(it => { asking.kept = asking.module; asking.module = it; restart_worker(); })`);
    await refused(name, [example('gap.csv')], `${title}: gap.csv`);
    await browser.value('asking.module = asking.kept; restart_worker()');
}

async function faults() {
    await drop(example('play.csv'));
    await fault_of('memory', 'The browser gave the program no more memory');
    await fault_of('stack', 'The browser gave the program no more stack');
    await fault_of('unreachable', 'The program stopped');
    await drop(example('late-reply.csv'));
    judge('and then all is as before', (await text('verdict')).startsWith('No at record 4'));

    // A file that is taken away after its verdict.
    const gone = path.join(work, 'gone.csv');
    fs.copyFileSync(example('play.csv'), gone);
    await drop(gone);
    fs.unlinkSync(gone);
    await click('tab-delays');
    judge('a file that was taken away: a message', await browser.until("!document.getElementById('message').hidden"));
    equals('its title', await text('message-title'), 'The file can’t be read: gone.csv');
    judge('the answer stands', (await text('verdict')).startsWith('Yes'));
    await click('tab-page');

    // A name that could be markup, and that has a control character.
    const odd = 'a<b>&"it\'s" \u0007.csv';
    fs.copyFileSync(example('late-reply.csv'), path.join(work, odd));
    await drop(path.join(work, odd));
    judge('an odd name is shown as it is', (await text('file')).startsWith(`${odd}, `));
    equals('and makes no element', await browser.value("document.querySelectorAll('main b').length - document.querySelectorAll('header b, .box b').length"), 0);
    const command = (await text('asked')).replace(/Copy$/, '').replace(/^ninecheck/, path.resolve(program));
    equals('its command line is one for a shell', spawnSync('bash', ['-c', command], { cwd: work, encoding: 'utf8' }).stdout, built(['check', '--all', 'late-reply.csv']).stdout);

    // Two drops one behind the other: the last one counts. One over the frame of the session page comes too.
    await browser.drop([example('gap.csv')]);
    await browser.drop([example('play.csv')]);
    judge('two drops', await browser.until(`document.getElementById('file').textContent.startsWith('play.csv') && ${ANSWERED}`));
    judge('a yes', (await text('verdict')).startsWith('Yes'));
    const y = await browser.value("document.getElementById('frame').scrollIntoView(); document.getElementById('frame').getBoundingClientRect().y");
    await browser.drop([example('gap.csv')], 700, y + 200);
    judge('a drop over the frame', await browser.until(`document.getElementById('file').textContent.startsWith('gap.csv') && ${ANSWERED}`));
}

async function without_wasm() {
    const { identifier } = await browser.send('Page.addScriptToEvaluateOnNewDocument', { source: 'delete globalThis.WebAssembly' });
    await browser.open(page);
    judge('a browser without WebAssembly: a message', await browser.until("!document.getElementById('message').hidden"));
    judge('which says what to use', (await text('message-text')).includes('Use a newer Chrome, Edge, Firefox or Safari, or the program itself on Linux.'));
    await browser.drop([example('play.csv')]);
    await sleep(200);
    equals('and says it again at a drop', await text('message-title'), 'Nothing can be judged here');
    await browser.send('Page.removeScriptToEvaluateOnNewDocument', { identifier });
}

// ---- A long capture: how far it is, a cancel, and that the page answers meanwhile.
const ROWS = Number(process.env.LONG || 400000);
function long_capture() {
    const block = [['C', '61'], ['C', '20'], ['C', '01'], ['C', '82'], ['D', '71'], ['D', '20'], ['D', '00'], ['D', '91']];
    const file = path.join(work, 'long.csv'), out = fs.openSync(file, 'w');
    fs.writeSync(out, 'time_us,wire,byte\n');
    for (let row = 0, us = 400; row < ROWS;) {
        const lines = [];
        for (let n = 0; n < 1000; n++, us += 15000) for (const [wire, byte] of block) lines.push(`${us += 400},${wire},${byte}\n`);
        row += lines.length;
        fs.writeSync(out, lines.join(''));
    }
    fs.closeSync(out);
    return file;
}

async function long() {
    const file = long_capture();
    await drop(example('play.csv'));
    await browser.value(`{ window.seen = []; setInterval(() => { if (!document.getElementById('working').hidden) seen.push(document.getElementById('working-note').textContent); }, 20); }`);
    await browser.begin_trace();
    await drop(file);
    const longest = await browser.longest_task();
    judge(`no task of the page takes 100 ms: ${longest.toFixed(1)} ms`, longest > 0 && longest < 100);
    judge('a long capture', (await text('totals')).startsWith('breaks 0: records '));
    const notes = await browser.value('seen');
    judge('how far it is', notes.some(it => / of .* MB read, /.test(it)), notes.slice(0, 5));
    await open_tab('explain');
    const whole = built(['explain', '--all', 'long.csv'], work).stdout, lines = whole.split('\n');
    equals('a piece of a long text', await text('text'), lines.slice(0, 5000).join('\n') + '\n');
    await click('after');
    equals('the next piece', await text('text'), lines.slice(5000, 10000).join('\n') + '\n');
    await click('before');
    equals('and back', await text('text'), lines.slice(0, 5000).join('\n') + '\n');
    equals('the text is kept whole', await browser.value("answer_to('explain').then(it => it.out.length)"), Buffer.byteLength(whole));
    const canceled = `new Promise(done => { const timer = setInterval(() => {
        if (document.getElementById('working-what').textContent.includes(' check --all long.csv') && !document.getElementById('working').hidden) {
            clearInterval(timer); document.getElementById('cancel').click(); done(document.getElementById('state').textContent); } }, 1); })`;
    await drop(example('play.csv'));
    const cancelled = browser.value(canceled);
    await browser.drop([file]);
    equals('a cancel', await cancelled, 'Cancelled. The last answer stands.');
    judge('nothing works any more', await browser.until("document.getElementById('working').hidden && asking.is_ready && asking.now === null"));
    judge('the last answer stands', (await text('file')).startsWith('play.csv'));
    const wait = "new Promise(done => { const timer = setInterval(() => { if (document.getElementById('working-what').textContent.includes(' info long.csv')) { clearInterval(timer); document.getElementById('cancel').click(); done(); } }, 1); })";
    const second = browser.value(wait);
    await browser.drop([file]);
    await second;
    judge('a cancel behind the verdict', await browser.until("document.getElementById('panel-note').textContent === 'Cancelled.'"));
    judge('which stands', (await text('file')).startsWith('long.csv'));
    await browser.value("document.querySelector('#panel-command > button').click()");
    judge('its view can be asked again', await browser.until(`${IDLE} && document.getElementById('panel-note').textContent.startsWith('Status 0: yes')`));
    await drop(example('late-reply.csv'));
    judge('and the next is answered', (await text('verdict')).startsWith('No at record 4'));
}

// ---- Keys alone, and the stretch.
async function keys() {
    await browser.value("document.getElementById('choose').focus()");
    for (let n = 0; n < 3; n++) await browser.key('Tab');
    equals('the third example has the focus', await browser.value('document.activeElement.textContent'), 'A disputed point');
    await browser.key('Enter');
    judge('it is judged', await browser.until(`document.getElementById('verdict').textContent.includes('M1') && ${IDLE} && !document.getElementById('tries').hidden`));
    const reach = async (what, presses = 60) => {
        for (let n = 0; n < presses; n++) {
            if (await browser.value(`document.activeElement.id === '${what}'`)) return true;
            await browser.key('Tab');
        }
        return false;
    };
    judge('the tabs are reached', await reach('tab-page'));
    await browser.key('ArrowRight');
    equals('an arrow goes on', await browser.value('document.activeElement.id'), 'tab-why');
    await browser.key('Enter');
    judge('Enter opens it', await browser.until(`document.getElementById('tab-why').getAttribute('aria-selected') === 'true' && ${IDLE}`));
    equals('with its text', await text('text'), built(['why', '--all', 'disputed-in-point.csv']).stdout);
    await browser.key('ArrowLeft');
    await browser.key('ArrowLeft');
    equals('arrows go round', await browser.value('document.activeElement.id'), 'tab-info');
    await browser.value("document.getElementById('strip-from').focus()");
    await browser.key('PageUp');
    judge('a stretch by keys', await browser.until("document.getElementById('from').value !== ''"));
    // 5 % of the 10,800 microseconds from 400 on.
    equals('its time', await browser.value("document.getElementById('from').value"), '00:00:00.000940');
    await browser.until(IDLE);
    await browser.key('Escape');
    judge('Escape gives the whole back', await browser.until(`document.getElementById('from').value === '' && ${IDLE}`));
    const strip = await browser.value("{ document.getElementById('strip').scrollIntoView({block: 'center'}); const r = document.getElementById('strip').getBoundingClientRect(); ({x: r.x, y: r.y, w: r.width}) }");
    await browser.drag({ x: strip.x + strip.w / 4, y: strip.y + 20 }, { x: strip.x + strip.w / 2, y: strip.y + 20 });
    judge('a stretch by the mouse', await browser.until(`document.getElementById('from').value === '00:00:00.003100' && document.getElementById('to').value === '00:00:00.005800' && ${IDLE}`));
    await open_tab('digest');
    equals('is shown', await text('text'), built(['digest', '--all', '--from', '0.0031', '--to', '0.0058', 'disputed-in-point.csv']).stdout);
    await browser.key('Escape');
    judge('and given back whole', await browser.until(`document.getElementById('from').value === '' && ${IDLE}`));
    equals('as before', await text('text'), built(['digest', '--all', 'disputed-in-point.csv']).stdout);
}

// ---- Form: contrast, names of controls, widths, and addresses.
const CONTRAST = `(() => {
    const light = it => { const [r, g, b] = it.match(/[\\d.]+/g).map(n => n / 255).map(n => n <= 0.03928 ? n / 12.92 : ((n + 0.055) / 1.055) ** 2.4); return 0.2126 * r + 0.7152 * g + 0.0722 * b; };
    const ratio = (a, b) => { const [x, y] = [light(a), light(b)].sort((p, q) => q - p); return (x + 0.05) / (y + 0.05); };
    const ground = it => { for (; it; it = it.parentElement) { const c = getComputedStyle(it).backgroundColor; if (!/, 0\\)$/.test(c)) return c; } return 'rgb(255, 255, 255)'; };
    const bad = [];
    for (const it of document.querySelectorAll('body *')) {
        if (!it.checkVisibility() || it.disabled || ![...it.childNodes].some(n => n.nodeType === 3 && n.data.trim())) continue;
        const has = ratio(getComputedStyle(it).color, ground(it));
        if (has < 6) bad.push(it.tagName + '#' + it.id + ' ' + has.toFixed(1));
    }
    for (const id of ['strip-traffic', 'strip-breaks']) {
        const has = ratio(getComputedStyle(document.getElementById(id)).stroke, ground(document.getElementById('strip')));
        if (has < 3) bad.push(id + ' ' + has.toFixed(1));
    }
    return bad.join(', ');
})()`;

async function form() {
    await drop(example('views/several-breaks.csv'));
    await browser.value("tell_message('A title', 'A text', 'of the program', 'ninecheck'); document.getElementById('tries').open = true; document.getElementById('pieces').hidden = false; document.getElementById('text').hidden = false");
    for (const is_dark of [false, true]) for (const width of [1400, 400]) {
        await browser.dark(is_dark);
        await browser.size(width, 1000);
        const state = `${is_dark ? 'dark' : 'light'}, ${width} px`;
        equals(`${state}: contrast`, await browser.value(CONTRAST), '');
        judge(`${state}: nothing is wider than the page`, await browser.value('document.documentElement.scrollWidth <= innerWidth'));
    }
    equals('dark is dark', await browser.value("getComputedStyle(document.body).backgroundColor"), 'rgb(20, 23, 26)');
    await browser.dark(false);
    await browser.size(1400, 1000);
    await browser.value("ask_export([{ ...named(new File(['0.1 COM1 20\\n0.2 COM2 10\\n'], 'x.log')), kind: 'log' }])");
    await browser.send('Accessibility.enable');
    const { nodes } = await browser.send('Accessibility.getFullAXTree');
    const controls = nodes.filter(it => !it.ignored && /^(button|textbox|combobox|checkbox|tab|slider|progressbar|Iframe|link|tablist|tabpanel|form|region)$/.test(it.role.value));
    judge('there are controls of each kind', ['button', 'textbox', 'combobox', 'checkbox', 'tab', 'slider', 'tabpanel'].every(kind => controls.some(it => it.role.value === kind)));
    equals('no control is without a name', controls.filter(it => !it.name || !it.name.value.trim()).map(it => it.role.value).join(), '');
    await click('close-message');
}

async function addresses() {
    const refused_fetch = await browser.value(`new Promise(done => { addEventListener('securitypolicyviolation', it => done('refused by ' + it.effectiveDirective));
        fetch('http://127.0.0.1:9/').then(() => done('let through'), () => setTimeout(done, 2000, 'failed')); })`);
    equals('a fetch in the page', refused_fetch, 'refused by connect-src');
    const others = browser.asked.filter(it => !/^(file:|blob:|data:|http:\/\/127.0.0.1:9\/)/.test(it));
    equals('nothing but file:, blob: and data: was asked for', others.join(), '');
    const wrong = browser.wrong.filter(it => !/127\.0\.0\.1|Content Security Policy/.test(it));
    equals('nothing went wrong in the page', wrong.join('\n'), '');
}

async function main() {
    browser = await Chromium.begin();
    try {
        for (const part of [captures, saved, advice, terms, exports_, together, refusals, faults, long, keys, form]) {
            if (process.env.PART && process.env.PART !== part.name) continue;
            await open_page();
            await part();
        }
        await addresses();
        await without_wasm();
    } catch (error) {
        judge(String(error.stack), false, browser.wrong.join('\n'));
    }
    await browser.end();
    tell_counts();
}

main();
