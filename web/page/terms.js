'use strict';
// The terms that stand beside the answer. A change asks again.

const sheets = { none: null, shipped: null, own: null };

function start_terms() {
    const { name, text } = JSON.parse(element('shipped-sheet').textContent);
    sheets.shipped = { name: `decks/${name}`, file: new Blob([text]) };
    element('terms').addEventListener('submit', event => event.preventDefault());
    element('terms').addEventListener('change', event => {
        if (event.target.id !== 'sheet-file') ask_again();
    });
}

const read_terms = () => ({
    rate: element('rate').value,
    hands: element('hands').checked,
    all: element('all').checked,
    sync: element('sync').checked,
    sheet: sheets[element('sheet').value],
    from: element('from').value.trim(),
    to: element('to').value.trim(),
});

function ask_again() {
    if (session.capture) judge(session.capture, read_terms());
}

// change_terms({rate: '30', hands: true}): these as named, the others as they stand.
function change_terms(changed) {
    for (const name of ['rate', 'from', 'to']) if (name in changed) element(name).value = changed[name];
    for (const name of ['hands', 'all', 'sync']) if (name in changed) element(name).checked = changed[name];
    if ('sheet' in changed) element('sheet').value = changed.sheet || 'none';
    ask_again();
}

// A sheet that was dropped or chosen, and that the program takes.
function take_sheet(sheet) {
    sheets.own = sheet;
    const option = element('own-sheet');
    option.textContent = sheet.name;
    option.hidden = option.disabled = false;
    element('sheet').value = 'own';
}

// Whether the program takes the times of a stretch: a message where it does not.
async function takes_stretch(terms) {
    if (!terms.from && !terms.to) return true;
    const words = words_of('digest', { ...terms, sheet: null }, EMPTY_CAPTURE), said = await ask(words, [EMPTY_CAPTURE]);
    if (said.status === 0) return true;
    tell_message('From and To want a time', 'Seconds, such as 12.5, or a clock, such as 14:30:47.25, with at most six decimals.');
    return false;
}
