// Asks the program once: with words as on a command line, and with files by name. The same in node, in a page and in a worker.
//
// The program stands over four functions, by which it opens, reads, writes and closes (shim.c says what they answer). Addresses and sizes
// are 64 bits wide there, so they come as BigInt. Each asking has an instance of its own, so that memory is as at the start.
'use strict';

// What stands in place of an answer. kind: 'memory', 'stack', 'file' or 'program'.
class Fault extends Error {
    constructor(kind, cause) {
        super(cause && cause.message ? cause.message : String(cause));
        this.kind = kind;
    }
}

// The numbers by which Linux says why a file isn't opened, read or written.
const ERRNO = { ENOENT: 2, EBADF: 9, EEXIST: 17, EISDIR: 21 };

function join_pieces(pieces) {
    const whole = new Uint8Array(pieces.reduce((size, piece) => size + piece.length, 0));
    let at = 0;
    for (const piece of pieces) {
        whole.set(piece, at);
        at += piece.length;
    }
    return whole;
}

const size_of = file => file instanceof Uint8Array ? file.length : file.size;

// The piece of a file from one place to another; it may be shorter where the file is.
const piece_of = (file, from, to) => file instanceof Uint8Array ? file.subarray(from, to) : file.read(from, to);

// The files that the program sees, the two streams that it writes, and the files that it makes.
class Files {
    constructor(files, told) {
        this.files = files;
        this.told = told;
        this.written = new Map([[1, []], [2, []]]);
        this.made = new Map();
        this.reading = new Map(told.input ? [[0, { file: told.input, name: '', at: 0 }]] : []);
        this.next = 3;
    }

    // The file of this name, or the number by which the system says why there is none.
    find(name) {
        const made = this.made.get(name);
        return made ? join_pieces(made) : this.files.get(name) ?? -ERRNO.ENOENT;
    }

    open(name, makes) {
        const file = this.find(name);
        if (makes) {
            if (file !== -ERRNO.ENOENT) return typeof file === 'number' && file !== -ERRNO.EISDIR ? file : -ERRNO.EEXIST;
            const pieces = [];
            this.made.set(name, pieces);
            this.written.set(this.next, pieces);
            return this.next++;
        }
        if (typeof file === 'number') return file;
        this.reading.set(this.next, { file, name, at: 0 });
        return this.next++;
    }

    // The next bytes of an open file, at most so many. An input that isn't given has ended.
    read(descriptor, most) {
        const open = this.reading.get(descriptor);
        if (!open) return descriptor === 0 ? new Uint8Array(0) : -ERRNO.EBADF;
        const size = size_of(open.file);
        let bytes;
        try {
            bytes = piece_of(open.file, open.at, Math.min(size, open.at + most));
        } catch (error) {
            throw new Fault('file', error);
        }
        open.at += bytes.length;
        if (this.told.read) this.told.read(open.name, open.at, size);
        return bytes;
    }

    write(descriptor, bytes) {
        const pieces = this.written.get(descriptor);
        if (!pieces) return -ERRNO.EBADF;
        pieces.push(bytes);
        if (this.told.wrote) this.told.wrote(descriptor, bytes);
        return bytes.length;
    }

    close(descriptor) {
        this.reading.delete(descriptor);
        if (descriptor > 2) this.written.delete(descriptor);
    }
}

// The four functions, over the memory of the instance. That is asked for anew each time, since its buffer is another once it has grown.
function host_of(files, memory) {
    const bytes_at = (from, size) => memory().slice(Number(from), Number(from) + Number(size));
    return {
        open: (name, size, makes) => files.open(new TextDecoder().decode(bytes_at(name, size)), makes !== 0),
        read(descriptor, to, most) {
            const bytes = files.read(descriptor, Number(most));
            if (typeof bytes === 'number') return BigInt(bytes);
            memory().set(bytes, Number(to));
            return BigInt(bytes.length);
        },
        write: (descriptor, from, size) => BigInt(files.write(descriptor, bytes_at(from, size))),
        close: descriptor => files.close(descriptor),
    };
}

// What a trap is: of the engine's stack, of the program's own, of memory that the engine has not, or of the program.
function fault_of(error, instance) {
    if (error instanceof Fault) return error;
    // Each browser has words of its own for its stack.
    if (/call stack|recursion/i.test(String(error))) return new Fault('stack', error);
    // The program's stack begins at address 0, so it has run over where its pointer is below.
    const pointer = instance && instance.exports.__stack_pointer;
    if (pointer && BigInt.asIntN(64, pointer.value) < 0n) return new Fault('stack', error);
    const is_of_engine = !(error instanceof WebAssembly.RuntimeError);
    if (is_of_engine && (error instanceof RangeError || /memory|allocat/i.test(String(error)))) return new Fault('memory', error);
    return new Fault('program', error);
}

// ask(module, words, files, told): {status, out, err, made, memory}. A trap is thrown as a Fault, and never taken for an answer.
//   files  has get(name): a file, which is a Uint8Array, or {size, read(from, to)} whose read answers one; -errno where it can't be
//          opened; nothing where there is none of that name
//   told   may have input, the file that is the standard input; wrote(descriptor, bytes), called at each write; and
//          read(name, up_to, size), called at each read
//   made   the files that the program made, each with its bytes
function ask(module, words, files, told = {}) {
    const seen = new Files(files, told);
    let instance;
    const memory = () => new Uint8Array(instance.exports.memory.buffer);
    try {
        instance = new WebAssembly.Instance(module, { host: host_of(seen, memory) });
        const all = new TextEncoder().encode(['ninecheck', ...words].map(word => word + '\0').join(''));
        const at = instance.exports.room(BigInt(all.length));
        if (at === 0n) throw new Fault('memory', 'there is no memory for the words');
        memory().set(all, Number(at));
        const status = instance.exports.run(at, BigInt(words.length + 1));
        const [out, err] = [1, 2].map(descriptor => join_pieces(seen.written.get(descriptor)));
        const made = new Map([...seen.made].map(([name, pieces]) => [name, join_pieces(pieces)]));
        return { status, out, err, made, memory: instance.exports.memory.buffer.byteLength };
    } catch (error) {
        throw fault_of(error, instance);
    }
}

if (typeof module !== 'undefined') module.exports = { ask, Fault };
