// node ask.js MODULE.wasm TIMES FILE WORDS...: asks the module these words of this file so often, as a page's worker does, which has the
// module compiled once and reads the file in pieces. Where FILE is a number there is no file, but so many rows of PLAY and its
// acknowledgement, which are made as they are read. Writes one line of JSON: how long the module took to be ready, what processor time
// the first asking took, in which the engine compiles what is used most, and the best of those after it, in milliseconds; the memory of
// the program in bytes, its status, and the end of what it wrote.
'use strict';
const fs = require('fs');
const { ask } = require('../../web/host.js');

const [, , wasm, times, name, ...words] = process.argv;
const PIECE = 1 << 20;

function in_pieces(size, fill) {
    const room = new Uint8Array(PIECE);
    let begin = 0, length = 0;
    return {
        size,
        read(from, to) {
            if (from < begin || to > begin + length) {
                begin = from;
                length = fill(room, from);
            }
            return room.subarray(from - begin, Math.min(to - begin, length));
        },
    };
}

function on_disk(path) {
    const file = fs.openSync(path);
    return in_pieces(fs.fstatSync(file).size, (room, from) => fs.readSync(file, room, 0, room.length, from));
}

// Rows of one length, 400 microseconds apart, so that each place of the text belongs to a row that is known by it.
const HEADER = Buffer.from('time_us,wire,byte\n');
const PLAY = ['C,20', 'C,01', 'C,21', 'D,10', 'D,01', 'D,11'];
const ROW = '0000000000400,C,20\n'.length;
function made_as_read(rows) {
    const fill = (room, from) => {
        let at = 0;
        if (from < HEADER.length) at = HEADER.copy(room, 0, from);
        for (let place = from + at - HEADER.length; at < room.length && place < rows * ROW;) {
            const row = Math.floor(place / ROW);
            const text = `${String(400 * (row + 1)).padStart(13, '0')},${PLAY[row % 6]}\n`;
            const put = Buffer.from(text).copy(room, at, place % ROW);
            at += put;
            place += put;
        }
        return at;
    };
    return in_pieces(HEADER.length + rows * ROW, fill);
}

const begun = performance.now();
const module_here = new WebAssembly.Module(fs.readFileSync(wasm));
const ready = performance.now() - begun;
const is_number = /^\d+$/.test(name);
const file = is_number ? made_as_read(Number(name)) : on_disk(name);
let said;
const took = Array.from({ length: Number(times) }, () => {
    const before = process.cpuUsage();
    said = ask(module_here, [...words, 'capture.csv'], new Map([['capture.csv', file]]));
    const used = process.cpuUsage(before);
    return (used.user + used.system) / 1000;
});
const end = Buffer.from(said.out.subarray(-100)).toString();
console.log(JSON.stringify({ ready, first: took[0], later: Math.min(...took.slice(1)), memory: said.memory, status: said.status, end }));
