// node look.js FOLDER: the page of a break, FOLDER/no.html, and that of a yes, FOLDER/yes.html, as chromium draws them, light and dark: the
// style sheet is there and has effect, what breaks a rule is red by its style and on the screen, and nothing else is. The last line is
// 'N passed, M failed'.
'use strict';
const fs = require('fs');
const path = require('path');
const zlib = require('zlib');
const { Chromium } = require('../web/chromium.js');
const { judge, tell_counts } = require('../web/asking.js');

const [, , folder] = process.argv;
// The colours that a page has, by its style: what breaks, text, and the ground.
const COLOURS = {
    light: { bad: [176, 0, 32], ink: [27, 29, 32], ground: [255, 255, 255] },
    dark: { bad: [255, 123, 114], ink: [228, 230, 232], ground: [20, 23, 26] },
};
const as_style = ([red, green, blue]) => `rgb(${red}, ${green}, ${blue})`;

// The pixels of a PNG without a palette and not interlaced, as chromium writes it: its width, and three bytes each.
function pixels_of(png) {
    const parts = [];
    let width, depth;
    for (let at = 8; at < png.length; at += 12 + png.readUInt32BE(at)) {
        const name = png.toString('latin1', at + 4, at + 8);
        const part = png.subarray(at + 8, at + 8 + png.readUInt32BE(at));
        if (name === 'IHDR') {
            width = part.readUInt32BE(0);
            depth = part[9] === 6 ? 4 : 3;
        }
        if (name === 'IDAT') parts.push(part);
    }
    return { width, depth, bytes: unfiltered(zlib.inflateSync(Buffer.concat(parts)), width * depth, depth) };
}

// The rows of a PNG without its filters: each byte was written as the difference to what its neighbours foretell.
function unfiltered(packed, length, depth) {
    const rows = packed.length / (length + 1), bytes = Buffer.alloc(rows * length);
    for (let row = 0; row < rows; row++) {
        const filter = packed[row * (length + 1)];
        for (let at = 0; at < length; at++) {
            const here = row * length + at;
            const left = at >= depth ? bytes[here - depth] : 0, above = row ? bytes[here - length] : 0;
            const corner = row && at >= depth ? bytes[here - length - depth] : 0;
            const foretold = [0, left, above, (left + above) >> 1, nearest(left, above, corner)][filter];
            bytes[here] = packed[row * (length + 1) + 1 + at] + foretold;
        }
    }
    return bytes;
}
function nearest(left, above, corner) {
    const guess = left + above - corner;
    const [of_left, of_above, of_corner] = [left, above, corner].map(it => Math.abs(guess - it));
    if (of_left <= of_above && of_left <= of_corner) return left;
    return of_above <= of_corner ? above : corner;
}

// How many pixels of a box of the screen hold.
function count_in({ width, depth, bytes }, box, holds) {
    let count = 0;
    for (let y = Math.floor(box.top); y < box.bottom; y++) {
        for (let x = Math.floor(box.left); x < box.right; x++) {
            const at = (y * width + x) * depth;
            if (holds(bytes[at], bytes[at + 1], bytes[at + 2])) count++;
        }
    }
    return count;
}
const is_colour = wanted => (...came) => came.every((it, at) => it === wanted[at]);
const is_red = (red, green, blue) => red > 120 && red > 1.6 * green && red > 1.6 * blue;
const is_green = (red, green, blue) => green > 90 && green > 1.3 * red && green > 1.3 * blue;

// What the browser made of the page's style: of its heading, its text, the mark of a break, and what lies in boxes.
const STYLES = `(() => {
    const style = (it, part) => it && getComputedStyle(it, part);
    const box = it => { const { left, top, right, bottom } = it.getBoundingClientRect(); return { left, top, right, bottom }; };
    const heading = document.querySelector('h1'), mark = document.querySelector('.mark'), lane = document.querySelector('.lane');
    return {
        rules: [...document.styleSheets].reduce((sum, it) => sum + it.cssRules.length, 0),
        ground: style(document.body).backgroundColor, text: style(document.body).color, letters: style(document.body).fontSize,
        width: style(document.querySelector('main')).maxWidth, lane: style(lane).display,
        heading: style(heading).color, size: style(heading).fontSize, at: box(heading),
        mark: mark && style(mark, '::after').backgroundColor, mark_at: mark && box(mark),
        links: [...document.querySelectorAll('.lines .broken a')].map(it => style(it).color),
        whole: { left: 0, top: 0, right: innerWidth, bottom: innerHeight },
    };
})()`;

async function drawn(browser, name, is_dark) {
    await browser.dark(is_dark);
    const file = path.resolve(folder, `${name}.html`);
    await browser.open(file);
    await browser.until(`document.readyState === 'complete' && location.pathname === ${JSON.stringify(file)}`);
    const shot = path.join(folder, `${name}.png`);
    await browser.shot(shot);
    return { style: await browser.value(STYLES), screen: pixels_of(fs.readFileSync(shot)) };
}

// What is the same on both pages.
function judge_sheet(told, { style, screen }, { ink, ground }) {
    judge(`${told}: it has a style sheet`, style.rules > 100, style.rules);
    judge(`${told}: its type`, style.letters === '15px' && style.size === '34px' && style.width === '1280px', JSON.stringify(style));
    judge(`${told}: its lanes are a grid`, style.lane === 'grid', style.lane);
    judge(`${told}: its text and its ground`, style.text === as_style(ink) && style.ground === as_style(ground), style.text, style.ground);
    const empty = count_in(screen, style.whole, is_colour(ground));
    judge(`${told}: most of the screen is its ground`, empty > 0.6 * screen.bytes.length / screen.depth, empty);
    judge(`${told}: nothing is green`, count_in(screen, style.whole, is_green) === 0);
}

function judge_break(told, { style, screen }, { bad }) {
    judge(`${told}: its heading is red`, style.heading === as_style(bad), style.heading);
    judge(`${told}: and drawn so`, count_in(screen, style.at, is_colour(bad)) > 100, count_in(screen, style.at, is_colour(bad)));
    judge(`${told}: the mark of the break is red`, style.mark === as_style(bad), style.mark);
    judge(`${told}: and drawn so`, count_in(screen, style.mark_at, is_colour(bad)) > 20, count_in(screen, style.mark_at, is_colour(bad)));
    judge(`${told}: its line is red`, style.links.length > 0 && style.links.every(it => it === as_style(bad)), style.links);
}

function judge_yes(told, { style, screen }, { ink }) {
    judge(`${told}: its heading has the colour of text`, style.heading === as_style(ink), style.heading);
    judge(`${told}: and is drawn so`, count_in(screen, style.at, is_colour(ink)) > 100);
    judge(`${told}: nothing is red`, count_in(screen, style.whole, is_red) === 0, count_in(screen, style.whole, is_red));
}

async function main() {
    const browser = await Chromium.begin();
    for (const [scheme, colours] of Object.entries(COLOURS)) {
        const no = await drawn(browser, 'no', scheme === 'dark');
        judge_sheet(`a break, ${scheme}`, no, colours);
        judge_break(`a break, ${scheme}`, no, colours);
        const yes = await drawn(browser, 'yes', scheme === 'dark');
        judge_sheet(`a yes, ${scheme}`, yes, colours);
        judge_yes(`a yes, ${scheme}`, yes, colours);
    }
    judge('no page asks for anything or has an error', browser.wrong.length === 0, browser.wrong[0]);
    await browser.end();
    tell_counts();
}

main();
