// The worker around host.js, which stands before it in the same text. A page sends it {wasm: ArrayBuffer} or {module} once, and is
// answered {ready: true} or {error}; then {id, words, files: [{name, file}], input}, each answered by {id, progress}, at most ten times a
// second, and last by {id, status, out, err, made, memory, ms} or {id, fault: {kind, text}}. To cancel, the page ends the worker.
'use strict';

const PIECE = 1 << 20;
const PROGRESS_MS = 100;

// A file of the page, of which no more than a piece is held.
function in_pieces(file) {
    const reader = new FileReaderSync();
    let begin = 0, held = new Uint8Array(0);
    return {
        size: file.size,
        read(from, to) {
            if (from < begin || to > begin + held.length) {
                begin = from;
                held = new Uint8Array(reader.readAsArrayBuffer(file.slice(from, Math.max(to, from + PIECE))));
                // What ended here would be taken for the whole.
                if (held.length < to - from) throw new Error('the file is shorter than it was');
            }
            return held.subarray(from - begin, to - begin);
        },
    };
}

// answer(program, asking, post): asks the program, and posts what comes of it.
function answer(program, { id, words, files, input }, post) {
    let last = 0;
    const begun = performance.now();
    const told = {
        input: input ? in_pieces(input) : null,
        read(name, read, size) {
            const now = performance.now();
            if (now - last < PROGRESS_MS) return;
            last = now;
            post({ id, progress: { name, read, size } }, []);
        },
    };
    try {
        const said = ask(program, words, new Map(files.map(({ name, file }) => [name, in_pieces(file)])), told);
        const made = [...said.made];
        const moved = [said.out, said.err, ...made.map(([, bytes]) => bytes)].map(bytes => bytes.buffer);
        post({ id, status: said.status, out: said.out, err: said.err, made, memory: said.memory, ms: performance.now() - begun }, moved);
    } catch (fault) {
        post({ id, fault: { kind: fault.kind || 'program', text: fault.message } }, []);
    }
}

let program = null;

async function take_module(data) {
    try {
        program = data.module || await WebAssembly.compile(data.wasm);
        postMessage({ ready: true });
    } catch (error) {
        postMessage({ error: String(error) });
    }
}

self.onmessage = ({ data }) => {
    if (data.wasm || data.module) take_module(data);
    else answer(program, data, (message, moved) => postMessage(message, moved));
};
