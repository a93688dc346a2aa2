'use strict';
// What begins it all, and what the page says of its own state.

const NO_PROGRAM = 'This browser can’t run the program: it needs WebAssembly, which may also be switched off. Use a newer Chrome, '
    + 'Edge, Firefox or Safari, or the program itself on Linux.';
const FAULTS = {
    memory: ['The browser gave the program no more memory', 'Close other tabs and ask again, or cut the capture into parts with the program on '
        + 'Linux (ninecheck split --to part FILE) and drop one of them. The verdict needs a few megabytes however long the capture is; the '
        + 'session page, Why and A run need more.'],
    stack: ['The browser gave the program no more stack', 'Ask again in another browser, or use the program itself on Linux.'],
    file: ['The file can’t be read', 'It was moved, changed or taken away, or it is a folder. Drop it again.'],
    program: ['The program stopped', 'This is a fault of ninecheck or of the browser, and no answer. Try another browser, and report it.'],
};
const TICK_MS = 200;

function tell_state(text) {
    element('state').textContent = text;
}

// A message that stands until it is closed, or until something else is asked. What stood before goes on standing.
function tell_message(title, text, program_text = '', command = '') {
    const parts = { title, text, program: program_text, command };
    for (const [part, shown] of Object.entries(parts)) {
        element(`message-${part}`).textContent = shown;
        element(`message-${part}`).hidden = shown === '';
    }
    element('message-stands').hidden = !session.capture;
    element('message').hidden = false;
    element('message').scrollIntoView({ block: 'nearest' });
    tell_state('');
}

function close_message() {
    element('message').hidden = true;
    tell_state('');
}

// The program's own message, as it is.
function tell_refusal(said, words, view) {
    const advice = said.status === 5 ? FAULTS.memory[1] : '';
    tell_message(status_text(said, view), advice, text_of(said.err) || text_of(said.out), command_of(words));
}

function tell_fault(fault, name) {
    if (fault instanceof Cancelled) return;
    // A DOMException is of a file that the page itself reads.
    if (!(fault instanceof Fault || fault instanceof DOMException)) throw fault;
    const [title, text] = FAULTS[fault instanceof Fault ? fault.kind : 'file'] || FAULTS.program;
    tell_message(`${title}: ${name}`, text, fault.message);
}

// What is asked now, how much of the file was read, and how long it has taken. A screen reader is told what is asked alone.
const working = { now: null, progress: null };
function show_working(now, progress) {
    const is_other = now !== working.now;
    Object.assign(working, { now, progress });
    element('working').hidden = !now;
    if (now && is_other) element('working-what').textContent = command_of(now.words);
    tick();
}

function tick() {
    const { now, progress } = working;
    if (!now) return;
    element('working-read').value = progress && progress.size ? progress.read / progress.size : 0;
    const read = progress ? `${size_text(progress.read)} of ${size_text(progress.size)} read, ` : '';
    element('working-note').textContent = read + seconds_text(performance.now() - now.begun);
}

// A file may be dropped anywhere on the page, over the frame of the session page too: while it is dragged the frame lets the mouse through.
function start_drops() {
    const over = is_over => event => {
        event.preventDefault();
        document.body.classList.toggle('over', is_over);
    };
    for (const name of ['dragenter', 'dragover']) addEventListener(name, over(true));
    addEventListener('dragleave', event => {
        if (!event.relatedTarget) over(false)(event);
    });
    addEventListener('drop', event => {
        over(false)(event);
        take_files([...event.dataTransfer.files]);
    });
    for (const [button, input] of [['choose', 'files'], ['choose-sheet', 'sheet-file']]) {
        element(button).addEventListener('click', () => element(input).click());
        element(input).addEventListener('change', () => {
            take_files([...element(input).files]);
            element(input).value = '';
        });
    }
    const examples = JSON.parse(element('example-texts').textContent);
    element('examples').querySelectorAll('button').forEach((button, at) => {
        button.addEventListener('click', () => take_files([new File([examples[at].text], examples[at].name)]));
    });
}

function start_buttons() {
    element('cancel').addEventListener('click', () => {
        cancel();
        tell_state(session.capture ? 'Cancelled. The last answer stands.' : 'Cancelled.');
    });
    element('close-message').addEventListener('click', close_message);
    element('export').addEventListener('submit', event => {
        event.preventDefault();
        convert();
    });
    element('leave-export').addEventListener('click', () => { element('export').hidden = true; });
    setInterval(tick, TICK_MS);
}

async function start() {
    for (const begin of [start_drops, start_terms, start_tabs, start_strip, start_buttons]) begin();
    try {
        await start_asking(show_working);
        if (asking.last === 0) tell_state('Ready.');
    } catch (error) {
        asking.fails = String(error);
        tell_message('Nothing can be judged here', NO_PROGRAM, asking.fails);
    }
}

addEventListener('DOMContentLoaded', start);
