'use strict';
// What was dropped, and what each file is. The program says that: `check` of the file's beginning names an export by its header, and what
// is none of these may be a deck's sheet.

const BEGINNING = 1 << 16, SHEET_SIZE = 1 << 20, SWAPPED_AT_ONCE = 1 << 20;
const EMPTY_CAPTURE = { name: 'empty.csv', file: new Blob(['time_us,wire,byte\n']) };
const EXPORTS = { sigrok: 'an export of sigrok-cli', saleae: 'an export of Saleae Logic', log: 'a serial log' };

const beginning_of = ({ name, file }) => ({ name, file: file.slice(0, BEGINNING) });

// kind_of(it): {kind: 'capture', 'sigrok', 'saleae', 'log', 'sheet' or 'none', said, words}.
async function kind_of(it) {
    const words = ['check', it.name], said = await ask(words, [beginning_of(it)]), error = text_of(said.err);
    if (!error.startsWith('unreadable at row 0: header')) return { kind: 'capture', said, words };
    const known = /: ninecheck convert (sigrok|saleae|log) makes a capture of it\n$/.exec(error);
    if (known) return { kind: known[1], said, words };
    return await sheet_of(it) || { kind: 'none', said, words };
}

// What a file is that may be a sheet: null where it is none. A sheet with a fault is one too, if its name says so or it is TOML.
async function sheet_of(it) {
    if (it.file.size > SHEET_SIZE) return null;
    const words = ['check', '--deck', it.name, EMPTY_CAPTURE.name], said = await ask(words, [it, EMPTY_CAPTURE]);
    if (said.status === 0) return { kind: 'sheet', said, words };
    return /\.toml$/i.test(it.name) || !/: not TOML\n$/.test(text_of(said.err)) ? { kind: 'none', said, words } : null;
}

// take_files(files): sorts what was dropped, and goes on with it. What was dropped last counts.
async function take_files(files) {
    if (asking.fails) {
        tell_message('Nothing can be judged here', NO_PROGRAM, asking.fails);
        return;
    }
    if (files.length === 0) {
        tell_message('No file was dropped', 'Drop a file from a folder.');
        return;
    }
    cancel();
    close_message();
    const sorted = [];
    try {
        for (const it of files.map(named)) sorted.push({ ...it, ...await kind_of(it) });
    } catch (fault) {
        tell_fault(fault, files[sorted.length].name);
        return;
    }
    const bad = sorted.find(it => it.kind === 'none');
    if (bad) tell_refusal(bad.said, bad.words);
    else take_sorted(sorted);
}

function take_sorted(sorted) {
    const sheets = sorted.filter(it => it.kind === 'sheet'), captures = sorted.filter(it => it.kind === 'capture');
    const exported = sorted.filter(it => it.kind in EXPORTS);
    if (sheets.length > 1) {
        tell_message('These are several sheets', 'A deck has one sheet. Drop one of them.');
    } else if (captures.length + Math.min(exported.length, 1) > 1) {
        tell_message('These are several captures', `One is judged at a time. Drop one of them: ${names_of([...captures, ...exported])}.`);
    } else if (exported.length > 2 || exported.some(it => it.kind !== exported[0].kind)) {
        tell_message('These exports do not belong together', 'Drop one export, or the two of the controller’s wire and the deck’s.');
    } else {
        if (sheets.length) take_sheet(sheets[0]);
        if (captures.length) element('export').hidden = true;
        if (exported.length) ask_export(exported);
        else if (captures.length || session.capture) judge(captures.length ? captures[0] : session.capture, read_terms());
        else tell_message('The sheet is taken', `The next capture is judged with ${sheets[0].name}.`);
    }
}

const names_of = files => files.map(it => it.name).join(', ');

// The capture with its wires swapped, piece by piece. made_by: the command line that does the same.
async function swapped({ name, file }) {
    const parts = [], swap = text => text.replace(/,([CD]),/g, (whole, wire) => wire === 'C' ? ',D,' : ',C,');
    let rest = '';
    for (let at = 0; at < file.size; at += SWAPPED_AT_ONCE) {
        const lines = (rest + await file.slice(at, at + SWAPPED_AT_ONCE).text()).split('\n');
        rest = lines.pop();
        parts.push(swap(lines.join('\n') + '\n'));
    }
    const to = saved_name(name, '-swapped.csv'), made_by = `sed 's/,C,/,X,/; s/,D,/,C,/; s/,X,/,D,/' ${quoted(name)} > ${quoted(to)}`;
    return { name: to, file: new File([...parts, swap(rest)], to), made_by };
}
