'use strict';
// An export: the few words that its converter needs, filled in where they are known, and the capture that is made of it.

// As many bytes of an export's beginning, and of its end, are looked at for names.
const LOOKED_AT = 1 << 18;
const MEGASAMPLES = [1, 2, 3, 4, 5, 6, 6.25, 8, 10, 12, 12.5, 16, 20, 24, 25, 30, 32, 40, 48, 50, 80, 100, 125, 200, 250, 500];
const UNITS = [['', 'seconds'], ['ms', 'milliseconds'], ['us', 'microseconds']];

// The export that is asked about: one file, or the two of a pair, and the fields of its form.
let exporting = { files: [], kind: '', fields: [] };

async function ask_export(files) {
    const { kind } = files[0];
    try {
        exporting = { files, kind, fields: await fields_of(files, kind) };
    } catch (fault) {
        tell_fault(fault, names_of(files));
        return;
    }
    element('export-title').textContent = `${names_of(files)} ${files.length > 1 ? 'are two of Saleae Logic' : `is ${EXPORTS[kind]}`}`;
    element('export-fields').replaceChildren(...exporting.fields.map(it => it.label));
    for (const id of ['export-from', 'export-to']) element(id).value = '';
    element('export-said').hidden = true;
    element('export').hidden = false;
    element('convert').focus();
    tell_state('An export: look at the fields, and press Convert and judge.');
}

async function fields_of(files, kind) {
    if (kind === 'sigrok') return [await rate_field(files[0])];
    if (files.length > 1) {
        const names = files.map((it, at) => [String(at), it.name]);
        const is_second = is_deck(files[0].name) && !is_deck(files[1].name);
        return [choice_field('first', 'The controller’s file', names, is_second ? '1' : '0')];
    }
    const text = await looked_at(files[0].file);
    if (kind === 'saleae') return name_fields(saleae_lines(text), 'analyzer');
    const lines = log_lines(text);
    const counts = lines.length && /^\d+$/.test(lines[0].time);
    return [...name_fields(lines, 'port'), ...(counts ? [choice_field('--unit', 'Its times are', UNITS, '')] : [])];
}

// sigrok's samples a second. Asked at 1,000,000 the converter says how long a byte would last, of which 208 1/3 us are right.
async function rate_field(it) {
    const said = await ask(['convert', 'sigrok', '--samplerate', '1000000', it.name], [beginning_of(it)]);
    const lasts = /a byte lasts (\d+) us where/.exec(text_of(said.err)), mega = lasts ? lasts[1] / 208.333 : 1;
    const nearest = MEGASAMPLES.reduce((best, n) => Math.abs(n - mega) < Math.abs(best - mega) ? n : best);
    const input = make('input', { type: 'text', inputmode: 'numeric', size: '12', autocomplete: 'off' });
    input.value = Math.abs(nearest - mega) < 0.02 * mega ? String(nearest * 1e6) : '';
    return labelled('--samplerate', 'Samples a second, by the length of its bytes', input);
}

async function looked_at(file) {
    const begin = await file.slice(0, LOOKED_AT).text();
    return file.size > 2 * LOOKED_AT ? begin + '\n' + await file.slice(-LOOKED_AT).text() : begin;
}

// Each line of a log: its time, and the port that it names.
function log_lines(text) {
    const form = /^\[?((?:\d{4}-\d\d-\d\d[ T])?[\d:.]+)\]?[ \t]+(\S+)/;
    return text.split(/\r?\n/).map(line => form.exec(line)).filter(it => it).map(([, time, name]) => ({ time, name }));
}

// Each line of a table: its time, and the analyzer that it names.
function saleae_lines(text) {
    const plain = field => field.replace(/,$/, '').replace(/^"(.*)"$/, '$1').replaceAll('""', '"');
    const rows = text.split(/\r?\n/).map(line => (line.match(/("([^"]|"")*"|[^,]*)(,|$)/g) || []).map(plain));
    const titles = [['name', 'Analyzer Name'], ['start_time', 'Time [s]']];
    const [name, time] = titles.map(either => rows[0].findIndex(it => either.includes(it)));
    return rows.slice(1).filter(row => name >= 0 && row[name] && row[time]).map(row => ({ time: row[time], name: row[name] }));
}

const is_deck = name => /deck|vtr|vcr|tape|player|recorder/i.test(name);

// Which port or analyzer is whose: the deck's is the one whose name says so, or else the one that did not speak first.
function name_fields(lines, what) {
    const names = [...new Set(lines.map(it => it.name))].slice(0, 20);
    if (names.length === 0) return [];
    const first = lines.reduce((best, it) => Number(it.time) < Number(best.time) ? it : best).name;
    const deck = names.find(is_deck) || names.find(it => it !== first);
    const controller = deck === first ? names.find(it => it !== deck) : first;
    const field = (option, whose, value) => choice_field(option, `${whose} ${what}`, names.map(it => [it, it]), value);
    return [field('--controller', 'The controller’s', controller), field('--deck', 'The deck’s', deck)];
}

function choice_field(option, title, choices, value) {
    const select = make('select');
    for (const [key, text] of choices) select.append(make('option', { value: key }, text));
    select.value = value;
    return labelled(option, title, select);
}

function labelled(option, title, control) {
    const label = make('label', {}, title);
    label.append(control);
    return { option, control, label };
}

// The words of the converter as the fields stand, and the files in its order.
function convert_words() {
    const { kind, fields } = exporting, words = ['convert', kind];
    let { files } = exporting;
    for (const { option, control } of fields) {
        if (option !== 'first' && control.value.trim()) words.push(option, control.value.trim());
        if (option === 'first' && control.value === '1') files = [files[1], files[0]];
    }
    const ends = ['from', 'to'].filter(end => element(`export-${end}`).value.trim());
    words.push(...ends.map(end => `--${end}=${element(`export-${end}`).value.trim()}`));
    return { words: [...words, ...files.map(it => it.name)], files };
}

async function convert() {
    const mine = exporting, { words, files } = convert_words();
    cancel();
    let said;
    try {
        said = await ask(words, files);
    } catch (fault) {
        tell_fault(fault, names_of(files));
        return;
    }
    const note = text_of(said.err);
    element('export-said').textContent = note;
    element('export-said').hidden = note === '';
    element('export').hidden = said.status === 0;
    if (said.status !== 0) return;
    const name = saved_name(files[0].name, '-capture.csv');
    judge({ name, file: new File([said.out], name), made_by: command_of(words, name), note, swap: () => swap_export(mine) }, read_terms());
}

// The same export with the other port, analyzer or file as the controller's.
function swap_export(mine) {
    exporting = mine;
    const [one, other] = mine.fields.map(it => it.control);
    if (other) [one.value, other.value] = [other.value, one.value];
    else one.value = one.value === '0' ? '1' : '0';
    convert();
}
