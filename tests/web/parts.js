// node parts.js MODULE.wasm HEAP.wasm STUBS PROGRAM: the parts beside the program, each alone: the heap, what stands over the program,
// and the worker. STUBS has modules that trap in the ways in which a program can. The last line is 'N passed, M failed'.
'use strict';
const fs = require('fs');
const path = require('path');
const vm = require('vm');
const { spawnSync } = require('child_process');
const { ask, Fault, judge, tell_counts, module_of } = require('./asking.js');

const [, , wasm, heap_wasm, stubs, program] = process.argv;
const PAGE = 65536;

// ---- The heap, against a list of what was taken: drawn sizes, in a memory that is soon full.
function drawn_numbers(seed) {
    let state = seed;
    return below => {
        state = (Math.imul(state, 1103515245) + 12345) >>> 0;
        return Math.floor(state / 2 ** 32 * below);
    };
}

class Heap {
    constructor() {
        this.exports = new WebAssembly.Instance(module_of(heap_wasm), {}).exports;
        this.blocks = [];
        this.refused = 0;
        this.faults = [];
    }

    bytes(at, size) { return new Uint8Array(this.exports.memory.buffer, at, size); }

    // The block was answered for so many bytes: it is where none of the others is.
    take_up(at, size, fill) {
        const is_free = this.blocks.every(other => at >= other.at + other.size || other.at >= at + size);
        if (at % 16 || at + size > this.exports.memory.buffer.byteLength || !is_free) this.faults.push(`${size} bytes at ${at}`);
        this.bytes(at, size).fill(fill);
        this.blocks.push({ at, size, fill });
    }

    take(size, fill) {
        const at = Number(this.exports.take(BigInt(size)));
        if (at) this.take_up(at, size, fill);
        else this.refused++;
    }

    // What was written into the block stands there.
    holds(block, size) {
        if (!this.bytes(block.at, size).every(byte => byte === block.fill)) this.faults.push(`what stood at ${block.at} is gone`);
    }

    give_back(number) {
        const [block] = this.blocks.splice(number, 1);
        this.holds(block, block.size);
        this.exports.give_back(BigInt(block.at));
    }

    resize(number, size, fill) {
        const [block] = this.blocks.splice(number, 1);
        const at = Number(this.exports.resize(BigInt(block.at), BigInt(size)));
        if (at) {
            this.holds({ ...block, at }, Math.min(size, block.size));
            this.take_up(at, size, fill);
        } else {
            this.refused++;
            this.holds(block, block.size);
            this.blocks.push(block);
        }
    }
}

function try_heap() {
    const heap = new Heap(), draw = drawn_numbers(9);
    const size = () => [draw(70), draw(3000), 2 ** (4 + draw(14)) + draw(3) - 1, draw(200000)][draw(4)];
    for (let turn = 0; turn < 20000; turn++) {
        const what = draw(100), number = draw(heap.blocks.length || 1);
        if (what < 40 || !heap.blocks.length) heap.take(size(), turn % 251);
        else if (what < 65) heap.resize(number, size(), turn % 251);
        else heap.give_back(number);
    }
    judge('the heap gives what is free, and keeps what is not', !heap.faults.length, heap.faults.slice(0, 5).join('\n'));
    judge('the heap was full at times', heap.refused > 100, heap.refused);
    judge('the heap was not always full', heap.blocks.length > 20, heap.blocks.length);
    for (const huge of [2n ** 22n, 2n ** 32n - 1n, 2n ** 32n, 2n ** 32n + 1n, 2n ** 63n - 1n, 2n ** 64n - 1n])
        judge(`no block of ${huge} bytes`, heap.exports.take(huge) === 0n && heap.exports.resize(BigInt(heap.blocks[0].at), huge) === 0n);
    const before = heap.exports.memory.buffer.byteLength;
    const [fresh] = [heap.exports.take(0n)];
    judge('a block of no size has a place', fresh !== 0n && heap.exports.memory.buffer.byteLength === before);
}

// ---- What stands over the program: traps, and files that can't be read.
const none = new Map();
function fault_of(run) {
    try {
        return `answered ${JSON.stringify(run())}`;
    } catch (fault) {
        return fault instanceof Fault ? fault.kind : `threw ${fault}`;
    }
}

function try_faults(module) {
    const kinds = { unreachable: 'program', divides: 'program', outside: 'program', recursion: 'stack', stack: 'stack', 'no-room': 'memory' };
    for (const [name, kind] of Object.entries(kinds)) {
        const came = fault_of(() => ask(module_of(path.join(stubs, `${name}.wasm`)), ['check'], none));
        judge(`a module that traps: ${name}`, came === kind, came);
    }
    const text = Buffer.from('time_us,wire,byte\n400,C,20\n');
    let reads = 0;
    const gone = { size: 1 << 24, read(from, to) {
        if (reads++) throw new Error('the file was taken away');
        return new Uint8Array(text.subarray(0, Math.min(text.length, to - from)));
    } };
    const came = fault_of(() => ask(module, ['check', 'a.csv'], new Map([['a.csv', gone]])));
    judge('a file that is taken away while it is read', came === 'file' && reads === 2, came);
    const wrote = [], read = [];
    const told = { wrote: (descriptor, bytes) => wrote.push(descriptor, bytes.length), read: (...words) => read.push(words) };
    const said = ask(module, ['check', 'a.csv'], new Map([['a.csv', new Uint8Array(text)]]), told);
    judge('what is written is told', wrote[0] === 1 && wrote[1] === said.out.length, wrote);
    judge('what is read is told', read.length > 1 && String(read.at(-1)) === `a.csv,${text.length},${text.length}`, read);
}

// The module with so many pages of memory at the most.
function with_most(bytes, pages) {
    const number = at => {
        let value = 0, shift = 0, byte;
        do { byte = bytes[at++]; value += (byte & 127) * 2 ** shift; shift += 7; } while (byte > 127);
        return [value, at];
    };
    const encoded = value => value < 128 ? [value] : [value % 128 + 128, ...encoded(Math.floor(value / 128))];
    for (let at = 8; at < bytes.length;) {
        const [size, begin] = number(at + 1);
        if (bytes[at] === 5) {
            const [least] = number(begin + 2);
            const section = [1, 1, ...encoded(least), ...encoded(pages)];
            return Buffer.concat([bytes.subarray(0, at), Buffer.from([5, section.length, ...section]), bytes.subarray(begin + size)]);
        }
        at = begin + size;
    }
    throw new Error('there is no memory in the module');
}

// Memory that is refused is the program's own answer, to the byte that of the built one below a bound.
function try_refusal() {
    const bounded = new WebAssembly.Module(with_most(fs.readFileSync(wasm), 64 * 16));
    const row_without_end = Buffer.concat([Buffer.from('time_us,wire,byte\n'), Buffer.alloc(200 << 20, '1')]);
    const came = ask(bounded, ['check'], none, { input: new Uint8Array(row_without_end) });
    const built = spawnSync('sh', ['-c', 'ulimit -v 65536; exec "$0" check', program], { input: row_without_end });
    judge('memory that is refused, the status', came.status === 5 && built.status === 5, came.status, built.status);
    const is_same = built.stdout.equals(Buffer.from(came.out)) && built.stderr.equals(Buffer.from(came.err));
    judge('memory that is refused, the streams', is_same, built.stderr, Buffer.from(came.err));
    judge('memory that is refused, its size', came.memory <= 64 * 16 * PAGE, came.memory);
}

// ---- The worker, as a page has it: its text, and what a browser gives it.
class Reader {
    readAsArrayBuffer(piece) {
        if (piece.is_gone) throw new Error('NotReadableError');
        return piece.bytes.buffer.slice(piece.bytes.byteOffset, piece.bytes.byteOffset + piece.bytes.length);
    }
}
const file_of = (bytes, is_gone = false) => ({
    size: bytes.length,
    slice: (from, to) => ({ bytes: bytes.subarray(from, to), is_gone }),
});

function worker_of(posted) {
    const self = {};
    const given = { self, postMessage: message => posted.push(message), FileReaderSync: Reader, WebAssembly, TextEncoder, TextDecoder, performance };
    const text = ['host', 'worker'].map(name => fs.readFileSync(path.join(__dirname, `../../web/${name}.js`), 'utf8')).join('\n');
    vm.runInNewContext(text, given);
    return data => self.onmessage({ data });
}

function long_capture() {
    const play = ['C,20', 'C,01', 'C,21', 'D,10', 'D,01', 'D,11'];
    const rows = Array.from({ length: 300000 }, (_, row) => `${400 * (row + 1)},${play[row % 6]}`);
    return Buffer.from(`time_us,wire,byte\n${rows.join('\n')}\n`);
}

async function try_worker() {
    const posted = [], send = worker_of(posted);
    const next = async () => {
        while (!posted.length) await new Promise(soon => setTimeout(soon, 10));
        return posted.shift();
    };
    send({ wasm: new Uint8Array([0, 97, 115, 109, 9, 9, 9, 9]).buffer });
    judge('a module that is none', 'error' in await next());
    send({ wasm: new Uint8Array(fs.readFileSync(wasm)).buffer });
    judge('the module', (await next()).ready === true);

    const long = long_capture(), begun = performance.now();
    send({ id: 7, words: ['info', 'long.csv'], files: [{ name: 'long.csv', file: file_of(long) }], input: null });
    const { id, status, out } = posted.pop(), most = 1 + (performance.now() - begun) / 100;
    judge('an answer', id === 7 && status === 0 && Buffer.from(out).includes('records: 300000,'), id, status);
    judge('how far it is, at most ten times a second', posted.length > 0 && posted.length <= most, posted.length, most);
    const is_told = ({ name, read, size }) => name === 'long.csv' && read <= size && size === long.length;
    judge('how far it is', posted.every(message => message.id === 7 && is_told(message.progress)), JSON.stringify(posted));

    send({ id: 8, words: ['check', 'gone.csv'], files: [{ name: 'gone.csv', file: file_of(long, true) }], input: null });
    const fault = JSON.stringify(posted.pop());
    judge('a file that is gone', fault === '{"id":8,"fault":{"kind":"file","text":"NotReadableError"}}', fault);
    send({ id: 9, words: ['check', 'short.csv'], files: [{ name: 'short.csv', file: { ...file_of(long), size: long.length + 1 } }], input: null });
    const short = JSON.stringify(posted.pop());
    judge('a file that became shorter', short === '{"id":9,"fault":{"kind":"file","text":"the file is shorter than it was"}}', short);
    send({ id: 10, words: ['split', '--rows', '150000', '--to', 'part'], files: [], input: file_of(long) });
    const after = posted.pop(), names = (after.made || []).map(([name]) => name).join();
    judge('an answer after a fault, of the standard input', after.id === 10 && names === 'part-001.csv,part-002.csv', names);
}

try_heap();
const module_here = module_of(wasm);
try_faults(module_here);
try_refusal();
try_worker().then(tell_counts);
