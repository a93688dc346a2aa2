'use strict';
// The views in tabs, which are the buttons of the page that name them. Each shows the program's own text, and the command line that gives
// it; it is asked once its tab is opened.

// So many lines of a text are shown at a time, in blocks of so many: the browser lays out those blocks alone that are in sight.
const LINES = 5000, BLOCK_LINES = 250;

// begins: where the pieces of the text begin that were shown, up to the one that is.
const tabs = { all: [...element('tabs').children], open: element('tab-page'), framed: null, address: '', bytes: null, begins: [0], end: 0 };

function start_tabs() {
    for (const tab of tabs.all) tab.addEventListener('click', () => open_tab(tab));
    element('tabs').addEventListener('keydown', move_focus);
    mark_open();
    element('json').addEventListener('click', () => save_view(element('json')));
    element('save-page').addEventListener('click', () => save_view(element('tab-page')));
    element('before').addEventListener('click', () => turn(() => tabs.begins.pop()));
    element('after').addEventListener('click', () => turn(() => tabs.begins.push(tabs.end)));
}

// Arrows go from tab to tab; Enter or the space bar opens the one that has the focus.
function move_focus(event) {
    const { all } = tabs, at = all.indexOf(document.activeElement);
    const to = { ArrowRight: at + 1, ArrowLeft: at - 1 + all.length, Home: 0, End: all.length - 1 }[event.key];
    if (to === undefined) return;
    event.preventDefault();
    all[to % all.length].focus();
}

function mark_open() {
    for (const tab of tabs.all) {
        tab.setAttribute('aria-selected', String(tab === tabs.open));
        tab.tabIndex = tab === tabs.open ? 0 : -1;
    }
    element('panel').setAttribute('aria-labelledby', tabs.open.id);
}

function open_tab(tab) {
    tabs.open = tab;
    mark_open();
    clear_panel();
    wait_panel();
    show_tab(true).catch(fault => tell_fault(fault, session.capture.name));
}

function clear_panel() {
    for (const id of ['frame', 'picture', 'text', 'pieces', 'panel-said']) element(id).hidden = true;
}

// What the panel shows stands, in a pale form, until the next has come, which this command line gives.
function wait_panel() {
    const tab = tabs.open, { view, type, ending } = tab.dataset, { terms, capture } = session;
    const command = command_of(words_of(view, terms, capture), type ? saved_name(capture.name, ending) : '');
    const save_it = make_button('Save', () => save_view(tab), { 'aria-label': `Save: ${tab.textContent}` });
    element('panel-command').replaceChildren(command_row(command, save_it));
    element('panel').setAttribute('aria-busy', 'true');
    element('panel-note').textContent = 'Working.';
}

// Shows the view of the open tab, once it has come.
async function show_tab(is_next = false) {
    const tab = tabs.open, { view } = tab.dataset, { terms } = session;
    let said;
    try {
        said = await answer_to(view, is_next);
    } catch (fault) {
        if (tab === tabs.open && terms === session.terms) show_no_answer(fault);
        throw fault;
    }
    if (tab !== tabs.open || terms !== session.terms) return;
    clear_panel();
    element('panel').setAttribute('aria-busy', 'false');
    element('panel-note').textContent = `${status_text(said, view)}, ${seconds_text(said.ms)}, ${size_text(said.out.length)}`;
    element('panel-said').textContent = text_of(said.err);
    element('panel-said').hidden = said.err.length === 0;
    if (said.out.length === 0) return;
    if (view === 'page') await show_frame(said);
    else if (view === 'picture') show_picture(said);
    else show_text(said.out);
}

// Where the panel waits for an answer, none comes.
function show_no_answer(fault) {
    if (element('panel').getAttribute('aria-busy') !== 'true') return;
    clear_panel();
    element('panel').setAttribute('aria-busy', 'false');
    element('panel-note').textContent = fault instanceof Cancelled ? 'Cancelled.' : 'There is no answer.';
    element('panel-command').append(make_button('Ask', () => open_tab(tabs.open)));
}

// The session page, in a frame that runs no script.
function show_frame(said) {
    const frame = element('frame');
    frame.hidden = false;
    if (tabs.framed === said) return null;
    tabs.framed = said;
    URL.revokeObjectURL(tabs.address);
    tabs.address = URL.createObjectURL(new Blob([said.out], { type: 'text/html' }));
    return new Promise(done => {
        frame.addEventListener('load', done, { once: true });
        frame.src = tabs.address;
    });
}

function show_picture(said) {
    const src = URL.createObjectURL(new Blob([said.out], { type: 'image/svg+xml' }));
    element('picture').replaceChildren(make('img', { src, alt: `What breaks a rule, as a picture: ${element('verdict').textContent}` }));
    element('picture').hidden = false;
}

function show_text(bytes) {
    Object.assign(tabs, { bytes, begins: [0] });
    element('text').hidden = false;
    show_piece();
}

// Where so many lines of a text end that begin here.
function end_of(bytes, begin, count) {
    let at = begin;
    for (let lines = 0; lines < count; lines++) {
        const end = bytes.indexOf(10, at);
        if (end < 0) return bytes.length;
        at = end + 1;
    }
    return at;
}

function show_piece() {
    const { bytes, begins } = tabs, begin = begins[begins.length - 1], end = end_of(bytes, begin, LINES), blocks = [];
    tabs.end = end;
    for (let at = begin, next; at < end; at = next) {
        next = end_of(bytes, at, BLOCK_LINES);
        blocks.push(make('span', {}, text_of(bytes.subarray(at, next))));
    }
    element('text').replaceChildren(...blocks);
    element('text').scrollTop = 0;
    element('pieces').hidden = begin === 0 && end === bytes.length;
    const first = (begins.length - 1) * LINES, last = end < bytes.length ? grouped(first + LINES) : 'the end';
    element('piece-note').textContent = `Lines ${grouped(first + 1)} to ${last} of ${size_text(bytes.length)}. Save has all.`;
    element('before').disabled = begin === 0;
    element('after').disabled = end === bytes.length;
}

function turn(change) {
    change();
    show_piece();
}

// Saves the view that a button names.
async function save_view(button) {
    const { view, type, ending } = button.dataset;
    try {
        const said = await answer_to(view, true);
        if (said.out.length === 0) tell_refusal(said, words_of(view, session.terms, session.capture), view);
        else save(saved_name(session.capture.name, ending), said.out, type || 'text/plain');
    } catch (fault) {
        tell_fault(fault, session.capture.name);
    }
}
