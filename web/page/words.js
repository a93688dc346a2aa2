'use strict';
// Words of a command line, times and sizes, and what a status means. All files here are one script, in the order of their names; main.js
// begins once all of it is there.

// Which of the terms each subcommand takes.
const JUDGING = ['all', 'hands', 'sync', 'rate', 'sheet'], SHOWING = [...JUDGING, 'stretch'];
const TAKES = {
    check: JUDGING, why: JUDGING, explain: JUDGING, picture: JUDGING, digest: SHOWING, motion: SHOWING, delays: SHOWING, json: SHOWING,
    page: ['hands', 'sync', 'rate', 'sheet', 'stretch'], run: ['hands', 'sync', 'rate', 'sheet'],
    touches: ['sync', 'rate', 'sheet'], try: ['all', 'sync', 'rate', 'sheet'], info: ['sync', 'rate'],
};

const STATUS = ['yes', 'no', 'the program does not take these words', 'this can’t be read', 'this can’t be opened, or read to its end',
    'not enough memory'];
const STATUS_OF = { info: ['the capture can be read'], picture: ['yes, so there is nothing to draw', 'the picture of a no', 'this record breaks nothing'] };
const status_text = (said, view) => `Status ${said.status}: ${(STATUS_OF[view] || STATUS)[said.status] || STATUS[said.status]}`;

function element(id) {
    return document.getElementById(id);
}
const text_of = bytes => new TextDecoder().decode(bytes);

// make('button', {type: 'button'}, 'Copy'): an element with attributes and text. Text never becomes markup.
function make(name, attributes = {}, text = '') {
    const made = document.createElement(name);
    for (const [key, value] of Object.entries(attributes)) made.setAttribute(key, value);
    made.textContent = text;
    return made;
}

function make_button(text, act, attributes = {}) {
    const button = make('button', { type: 'button', ...attributes }, text);
    button.addEventListener('click', act);
    return button;
}

// A word that does not look like an option.
const file_word = name => name.startsWith('-') ? './' + name : name;

// A file under the name that the program gets: text without a half of a pair.
const named = file => ({ name: file_word(new TextDecoder().decode(new TextEncoder().encode(file.name))), file });

// words_of('why', terms, capture): the words that ask so.
function words_of(view, terms, capture) {
    const takes = term => TAKES[view].includes(term) && terms[term];
    const words = [view, ...['all', 'hands', 'sync'].filter(takes).map(term => `--${term}`)];
    if (takes('rate') && terms.rate !== '25') words.push('--rate', terms.rate);
    if (takes('sheet')) words.push('--deck', terms.sheet.name);
    if (TAKES[view].includes('stretch')) for (const end of ['from', 'to']) if (terms[end]) words.push(`--${end}`, terms[end]);
    return [...words, capture.name];
}

const files_of = (terms, capture) => terms.sheet ? [capture, terms.sheet] : [capture];

function quoted(word) {
    const control = /[^\P{Cc}]/gu;
    if (/^[\w@%+=:,./-]+$/.test(word)) return word;
    if (!control.test(word)) return `'${word.replaceAll("'", "'\\''")}'`;
    const code = c => '\\u' + c.charCodeAt(0).toString(16).padStart(4, '0');
    return `$'${word.replace(/['\\]/g, '\\$&').replace(control, code)}'`;
}

// The command line for a shell.
const command_of = (words, to = '') => ['ninecheck', ...words].map(quoted).join(' ') + (to ? ` > ${quoted(to)}` : '');

// A time as a clock, with so many decimals, cut and not rounded.
function clock_of(us, decimals = 3) {
    const seconds = Math.floor(us / 1e6), rest = String(us % 1e6).padStart(6, '0').slice(0, decimals);
    const parts = [Math.floor(seconds / 3600), Math.floor(seconds / 60) % 60, seconds % 60];
    return `${parts.map(n => String(n).padStart(2, '0')).join(':')}.${rest}`;
}

const grouped = n => String(n).replace(/\B(?=(\d{3})+$)/g, ',');
const seconds_text = ms => ms < 100 ? `${Math.ceil(ms)} ms` : `${(ms / 1000).toFixed(1)} s`;
function size_text(bytes) {
    if (bytes === 1) return '1 byte';
    if (bytes < 1e6) return bytes < 1e4 ? `${grouped(bytes)} bytes` : `${(bytes / 1e3).toFixed(0)} kB`;
    return `${(bytes / 1e6).toFixed(1)} MB`;
}
