'use strict';
// The picture of the session in one strip: traffic and breaks, as the session page has them. A stretch is drawn over it with the mouse, or
// its ends are moved with the keys; Escape gives the whole session back.

const STEPS = 1000;
const KEYS = { ArrowRight: 5, ArrowUp: 5, ArrowLeft: -5, ArrowDown: -5, PageUp: 50, PageDown: -50, Home: -STEPS, End: STEPS };
// After so long without a key the stretch is asked for.
const PAUSE_MS = 600;

// first, last: the ends of the session in microseconds; from, to: those of the stretch in steps; of, drawn: the
// capture and the session page that are drawn; anchor: where the mouse was pressed.
const strip = { first: 0, last: 0, from: 0, to: STEPS, of: null, drawn: null, anchor: null, timer: 0 };

function start_strip() {
    const ground = element('strip');
    ground.addEventListener('pointerdown', event => {
        ground.setPointerCapture(event.pointerId);
        strip.anchor = step_at(event);
    });
    ground.addEventListener('pointermove', event => {
        if (strip.anchor !== null) set_stretch(Math.min(strip.anchor, step_at(event)), Math.max(strip.anchor, step_at(event)));
    });
    ground.addEventListener('pointerup', event => {
        const is_drawn = strip.anchor !== null && strip.anchor !== step_at(event);
        strip.anchor = null;
        if (is_drawn) ask_stretch();
    });
    for (const end of ['from', 'to']) element(`strip-${end}`).addEventListener('keydown', event => move_end(event, end));
    addEventListener('keydown', event => {
        if (event.key === 'Escape' && !is_whole()) give_back_whole();
    });
    element('whole').addEventListener('click', () => {
        give_back_whole();
        element('strip-from').focus();
    });
}

const is_whole = () => strip.from === 0 && strip.to === STEPS;
const inside = step => Math.min(STEPS, Math.max(0, Math.round(step)));

function step_at(event) {
    const { left, width } = element('strip').getBoundingClientRect();
    return inside((event.clientX - left) / width * STEPS);
}

// begin_strip(info): the ends of the session are the first and the last time that the capture has.
function begin_strip(info) {
    const us = name => Number((new RegExp(`^${name} time: (\\d+\\.\\d{6}) s$`, 'm').exec(info) || ['', '0'])[1].replace('.', ''));
    Object.assign(strip, { first: us('first'), last: us('last') });
    element('stretch').hidden = strip.last <= strip.first;
    element('strip-begin').textContent = clock_of(strip.first);
    element('strip-end').textContent = clock_of(strip.last);
    const { from, to } = session.terms;
    set_stretch(step_of(from, 0), step_of(to, STEPS));
    if (strip.of !== session.capture) for (const id of ['strip-traffic', 'strip-breaks']) element(id).setAttribute('d', '');
    strip.of = session.capture;
}

const us_at = step => strip.first + Math.round((strip.last - strip.first) * step / STEPS);

// The step of a time in seconds or as a clock, as From and To have it.
function step_of(time, otherwise) {
    const us = time.split(':').reduce((sum, part) => sum * 60 + Number(part), 0) * 1e6;
    return time ? inside((us - strip.first) / (strip.last - strip.first) * STEPS) : otherwise;
}

// The time of a step for From and To; nothing at the ends of the session.
const time_at = step => step <= 0 || step >= STEPS ? '' : clock_of(us_at(step), 6);

function move_end(event, end) {
    const by = KEYS[event.key];
    if (by === undefined) return;
    event.preventDefault();
    if (end === 'from') set_stretch(Math.min(inside(strip.from + by), strip.to - 1), strip.to);
    else set_stretch(strip.from, Math.max(inside(strip.to + by), strip.from + 1));
    clearTimeout(strip.timer);
    strip.timer = setTimeout(ask_stretch, PAUSE_MS);
}

function set_stretch(from, to) {
    Object.assign(strip, { from, to });
    Object.assign(element('strip-shown').style, { left: `${from / STEPS * 100}%`, width: `${(to - from) / STEPS * 100}%` });
    for (const [id, step] of [['strip-from', from], ['strip-to', to]]) {
        element(id).style.left = `${step / STEPS * 100}%`;
        element(id).setAttribute('aria-valuenow', String(step));
        element(id).setAttribute('aria-valuetext', clock_of(us_at(step)));
    }
    element('whole').hidden = is_whole();
    element('strip-said').textContent = is_whole() ? 'The whole session' : `${clock_of(us_at(from))} to ${clock_of(us_at(to))}`;
}

function ask_stretch() {
    clearTimeout(strip.timer);
    change_terms({ from: time_at(strip.from), to: time_at(strip.to) });
}

function give_back_whole() {
    Object.assign(strip, { from: 0, to: STEPS, anchor: null });
    ask_stretch();
}

// The whole session's page gives the strip its picture, and the first break its time.
async function show_session() {
    const said = await answer_to('page', false, whole(session.terms));
    const html = text_of(said.out.subarray(0, 1 << 20));
    const lead = /<p class="lead">.*?[Rr]ecord[^>]*>(?:record )?([\d,]+)<\/a> at (\d+:\d\d:\d\d\.\d{3})/.exec(html);
    if (lead) show_time(Number(lead[1].replaceAll(',', '')), lead[2]);
    if (strip.drawn === said) return;
    strip.drawn = said;
    element('strip-traffic').setAttribute('d', (/<path class="traf" d="([^"]*)"/.exec(html) || ['', ''])[1]);
    const marks = [...html.matchAll(/<a class="mark" [^>]*style="left:([\d.]+)%"/g)].map(it => it[1] * 10);
    const many = [...html.matchAll(/<path class="breaks" d="([^"]*)"/g)].flatMap(it => [...it[1].matchAll(/M([\d.]+)/g)].map(at => at[1]));
    element('strip-breaks').setAttribute('d', [...marks, ...many].map(at => `M${Number(at).toFixed(2)} 0V56`).join(''));
}
