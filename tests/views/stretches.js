// node stretches.js FOLDER: pages of stretches of captures that break, as a person reads them in chromium. A line of FOLDER/asked has the name
// of a page, how many breaks its capture has, and the words that it was made with; the page is FOLDER/NAME.html. The last line is 'N passed, M
// failed'.
'use strict';
const fs = require('fs');
const path = require('path');
const { Chromium } = require('../web/chromium.js');
const { judge, tell_counts } = require('../web/asking.js');

const [, , folder] = process.argv;
// What says that the whole capture keeps the rules.
const ACQUITS = /keeps? the rules|\ba deck can have given these replies|no record breaks a rule\./i;
const COUNTED = /^([\d,]+) breaks?(?: in this stretch, ([\d,]+) outside of it)?$/;
const number_of = text => Number((text || '0').replace(/,/g, ''));

// What a person reads: the title of the window, the heading, and all of the page, also what is folded.
const READ = `(() => {
    for (const fold of document.querySelectorAll('details')) fold.open = true;
    return { title: document.title, heading: document.querySelector('h1').innerText, text: document.body.innerText };
})()`;

async function read_page(browser, name) {
    const file = path.join(folder, `${name}.html`);
    await browser.open(file);
    await browser.until(`document.readyState === 'complete' && location.pathname === ${JSON.stringify(path.resolve(file))}`);
    return browser.value(READ);
}

async function judge_page(browser, line) {
    const [name, breaks, ...words] = line.split(' ');
    const { title, heading, text } = await read_page(browser, name);
    const counted = COUNTED.exec(heading);
    const told = `${name} ${words.join(' ')}`;
    const total = counted ? number_of(counted[1]) + number_of(counted[2]) : 0;
    judge(`${told}: its heading counts all ${breaks} breaks`, total === Number(breaks), heading);
    judge(`${told}: its title says the same`, title.startsWith(`${heading}: `), title);
    judge(`${told}: nothing says that the capture keeps the rules`, !ACQUITS.test(text), (ACQUITS.exec(text) || [''])[0]);
}

async function main() {
    const browser = await Chromium.begin();
    const lines = fs.readFileSync(path.join(folder, 'asked'), 'utf8').split('\n').filter(Boolean);
    for (const line of lines) await judge_page(browser, line);
    judge('no page asks for anything or has an error', browser.wrong.length === 0, browser.wrong[0]);
    await browser.end();
    tell_counts();
}

main();
