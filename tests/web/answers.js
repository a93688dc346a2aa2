// node answers.js MODULE.wasm PROGRAM CASES: asks the module and the built program the same, and holds what comes of both together: the
// status, both streams and the files that were made, byte for byte. CASES has what tests/lib/tables.py made of the tables. Before the
// last line, 'N passed, M failed', stands what differs.
'use strict';
const fs = require('fs');
const os = require('os');
const path = require('path');
const { ask_module, ask_built, judge, tell_counts, module_of } = require('./asking.js');

const [, , wasm, program, cases] = process.argv;
const asked = module_of(wasm);

// What is asked of each capture; its name comes last.
const OF_A_CAPTURE = [
    'check', 'check --all', 'check --hands --rate 30', 'check --sync --rate 24', 'explain', 'explain --bytes --all', 'run', 'run --hands',
    'why', 'why --all --rate 29.97df', 'try', 'touches', 'digest', 'delays', 'motion', 'clock', 'info', 'json --bytes', 'json check --all',
    'json run', 'json why', 'picture', 'picture --width 800 --hands', 'page --all', 'page --from 0.003 --to 0.02',
    'split --rows 20 --to part',
].map(text => text.split(' '));
// What is asked of each export, and of each capture beside them.
const OF_AN_EXPORT = [
    'convert sigrok', 'convert sigrok --samplerate 2000000', 'convert sigrok --samplerate 2000000 --from 0.02', 'convert saleae',
    'convert saleae --controller Editor --deck Deck', 'convert saleae --controller Editor', 'convert log --controller COM3 --deck COM4',
    'convert log --controller COM3 --deck COM4 --live', 'convert log --unit ms --controller COM3 --deck COM4', 'convert log', 'check',
    'check --all', 'check --sync', 'explain', 'info', 'info --sync', 'why', 'try', 'digest', 'json', 'page', 'clock', 'picture',
    'split --to part',
].map(text => text.split(' '));
// What opens no capture, or one that is not there or is none.
const OTHERS = [
    '', '--version', '-V', '--help', 'help', 'help check', 'help convert', 'help convert log', 'frobnicate', 'convert',
    'check --rate 31 play.csv', 'check --rate 29.97 play.csv', 'check --deck none.toml play.csv', 'check --deck play.csv play.csv',
    'check none.csv', 'check .', 'check play.csv/x', 'check play.csv echo.csv', 'check ANSWERS', 'split --rows 0 --to part play.csv',
    'split play.csv', 'picture --width 3 play.csv', 'page --from 2 --to 1 play.csv', 'digest --from x play.csv',
    `check ${'n'.repeat(300)}.csv`, `check ${'n'.repeat(5000)}`,
].map(text => text.split(' ').filter(word => word));

// same WORDS FOLDER INPUT: both answer these words alike, in this folder and on this standard input.
function same(words, folder, input) {
    const came = ask_module(asked, words, folder, input);
    const wanted = ask_built(program, words, folder, input);
    const name = `${path.basename(folder)}: ${words.join(' ').slice(0, 100)}`;
    judge(name, came === wanted, `wanted ${wanted}`, `came ${came}`);
}

// A copy of a folder of the repository, so that a part that is made there is the test's own.
const room = fs.mkdtempSync(path.join(os.tmpdir(), 'answers-'));
function copy_of(folder) {
    const copy = path.join(room, path.basename(folder));
    fs.cpSync(folder, copy, { recursive: true });
    return copy;
}
const names_in = (folder, end) => fs.readdirSync(folder).filter(name => name.endsWith(end)).sort();

function all_examples() {
    const folder = copy_of('examples');
    for (const name of names_in(folder, '.csv')) for (const words of OF_A_CAPTURE) same([...words, name], folder);
    const views = path.join(folder, 'views');
    for (const name of names_in(views, '.csv')) for (const words of OF_A_CAPTURE) same([...words, name], views);
    const shipped = path.resolve('decks/nine-pin-commands.toml');
    for (const sheet of [...names_in(folder, '.toml'), shipped]) {
        const capture = sheet === shipped ? 'play.csv' : sheet.replace('.toml', '.csv');
        for (const verb of ['check', 'explain', 'why', 'digest', 'page', 'try', 'json']) same([verb, '--deck', sheet, capture], folder);
        same(['check', sheet], folder);
    }
    for (const words of OTHERS) same(words, folder);
}

function all_exports() {
    const folder = copy_of('examples/exports');
    for (const name of fs.readdirSync(folder).sort()) for (const words of OF_AN_EXPORT) same([...words, name], folder);
}

// A part whose name is taken is refused, and what has the name stays.
function taken_names() {
    const views = path.join(copy_of('examples'), 'views');
    const words = ['split', '--rows', '20', '--to', 'part', 'session.csv'];
    same(words, views);
    fs.writeFileSync(path.join(views, 'part-002.csv'), 'kept');
    same(words, views);
    judge('the file that has the name', fs.readFileSync(path.join(views, 'part-002.csv'), 'latin1') === 'kept');
}

// Names with what a name can have, and names that look like words of the command line.
function odd_names() {
    const folder = copy_of('examples');
    for (const name of ['<b>"it\'s" &amp; <i>.csv', 'a\nb\tc.csv', 'Café 日本 \u{1F4FC}.csv', '--all', '-', '%s%n.csv', '..csv']) {
        fs.copyFileSync(path.join(folder, 'late-reply.csv'), path.join(folder, name));
        for (const words of [['check'], ['why'], ['info'], ['page'], ['split', '--rows', '3', '--to', 'part']]) {
            same([...words, name], folder);
            same([...words, '--', name], folder);
        }
        same(['check', `${name}.none`], folder);
    }
}

// Each case of the tables, by its own words, on standard input; and by one list more, by turns.
function all_cases() {
    let turn = 0;
    const names = fs.readdirSync(cases).map(table => path.join(cases, table))
        .flatMap(table => names_in(table, '.csv').map(name => path.join(table, name)));
    judge(`cases: ${names.length}`, names.length > 400);
    for (const name of names) {
        const input = fs.readFileSync(name);
        const lists = new Set(fs.readFileSync(name.replace(/csv$/, 'words'), 'utf8').trim().split('\n'));
        lists.add(OF_A_CAPTURE[turn++ % (OF_A_CAPTURE.length - 1)].join(' '));
        // A page has no /dev/stdin, and hands out a part under any name: it has no folder to make it in.
        for (const words of lists) if (!/\/dev\/|--to \S*\//.test(words)) same(words.split(/ +/), room, input);
    }
}

try {
    all_examples();
    all_exports();
    taken_names();
    odd_names();
    all_cases();
} finally {
    fs.rmSync(room, { recursive: true });
}
tell_counts();
