'use strict';
// The worker that runs the program. Askings stand in a queue and run one at a time. To cancel, the worker is ended, and another one begins
// with the module that is kept.

const asking = { module: null, address: '', worker: null, is_ready: false, queue: [], now: null, last: 0, show: null, fails: '' };

class Cancelled extends Error {}

// What stands in place of an answer. kind: 'memory', 'stack', 'file' or 'program'.
class Fault extends Error {
    constructor({ kind, text }) {
        super(text);
        this.kind = kind;
    }
}

// The module that is packed into the page.
async function module_of_page() {
    const packed = atob(element('wasm').textContent.trim());
    const bytes = new Uint8Array(packed.length);
    for (let at = 0; at < packed.length; at++) bytes[at] = packed.charCodeAt(at);
    const plain = new Blob([bytes]).stream().pipeThrough(new DecompressionStream('gzip'));
    return WebAssembly.compile(await new Response(plain).arrayBuffer());
}

// start_asking(show): makes the program ready. show(now, progress) tells what is asked and how far it is, with null where nothing is.
async function start_asking(show) {
    asking.show = show;
    asking.module = await module_of_page();
    asking.address = URL.createObjectURL(new Blob([element('worker').textContent], { type: 'text/javascript' }));
    await new Promise(start_worker);
}

function start_worker(ready = () => {}, failed = () => {}) {
    asking.is_ready = false;
    asking.worker = new Worker(asking.address);
    asking.worker.onmessage = ({ data }) => {
        if (data.error) failed(new Error(data.error));
        if (!data.ready) return hear(data);
        asking.is_ready = true;
        ready();
        begin_next();
    };
    asking.worker.onerror = event => {
        failed(new Error(event.message));
        if (asking.now) hear({ id: asking.now.id, fault: { kind: 'program', text: event.message || 'the worker ended' } });
    };
    asking.worker.postMessage({ module: asking.module });
}

function restart_worker() {
    asking.worker.terminate();
    start_worker();
}

// ask(words, files, is_next): a promise of {status, out, err, ms}; a Fault or Cancelled is thrown. is_next: before all that wait.
function ask(words, files, is_next = false) {
    return new Promise((resolve, reject) => {
        const it = { words, files, resolve, reject };
        if (is_next) asking.queue.unshift(it);
        else asking.queue.push(it);
        begin_next();
    });
}

function begin_next() {
    if (asking.now || !asking.is_ready || asking.queue.length === 0) return;
    asking.now = { ...asking.queue.shift(), id: ++asking.last, begun: performance.now() };
    const { id, words, files } = asking.now;
    asking.show(asking.now, null);
    asking.worker.postMessage({ id, words, files: files.map(({ name, file }) => ({ name, file })), input: null });
}

function hear(data) {
    const now = asking.now;
    if (!now || data.id !== now.id) return;
    if (data.progress) {
        asking.show(now, data.progress);
        return;
    }
    asking.now = null;
    // The memory that a fault leaves is free only once the worker has ended.
    if (data.fault) restart_worker();
    if (data.fault) now.reject(new Fault(data.fault));
    else now.resolve(data);
    begin_next();
    if (!asking.now) asking.show(null, null);
}

// Nothing is asked any more.
function cancel() {
    const ended = [asking.now, ...asking.queue].filter(it => it);
    if (asking.now) restart_worker();
    asking.now = null;
    asking.queue = [];
    for (const it of ended) it.reject(new Cancelled());
    asking.show(null, null);
}
