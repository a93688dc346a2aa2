'use strict';
// What is copied, and what is saved to a file.

// The name of what is made of a capture: night.csv gives night-why.txt.
const saved_name = (name, ending) => name.replace(/^.*\//, '').replace(/\.(csv|txt|log)$/i, '') + ending;

function save(name, part, type) {
    const address = URL.createObjectURL(new Blob([part], { type }));
    make('a', { href: address, download: name }).click();
    setTimeout(() => URL.revokeObjectURL(address), 60000);
    tell_state(`Saved as ${name}.`);
}

function copy(text) {
    navigator.clipboard.writeText(text).then(() => tell_state('Copied.'), () => tell_state('The browser did not let it be copied.'));
}

// A command line with its buttons.
function command_row(command, ...buttons) {
    const row = make('div', { class: 'command' });
    row.append(make('code', {}, command), make_button('Copy', () => copy(command), { 'aria-label': 'Copy the command line' }), ...buttons);
    return row;
}
