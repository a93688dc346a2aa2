// What scripts of this room ask of: the module of the browser's program over files of the disk, and the built program.
'use strict';
const fs = require('fs');
const path = require('path');
const { spawnSync } = require('child_process');
const { ask, Fault } = require('../../web/host.js');

// What Linux calls the reasons for which a file isn't opened. The program was told them by the system, so it is told them here.
const ERRNO = { ENOENT: 2, EACCES: 13, ENOTDIR: 20, EISDIR: 21, ENAMETOOLONG: 36 };

// The files below a folder, as a host gives them. A name is as the system reads it: no file has an empty one, and behind a file's
// name stands no `/`.
const files_below = folder => ({
    get(name) {
        if (name === '') return -ERRNO.ENOENT;
        try {
            return new Uint8Array(fs.readFileSync(path.isAbsolute(name) ? name : `${folder}/${name}`));
        } catch (error) {
            if (!(error.code in ERRNO)) throw error;
            return -ERRNO[error.code];
        }
    },
});

// Each of both answers {status, out, err, made} as one text of all, which shows where they differ.
const as_text = ({ status, out, err, made }) => JSON.stringify({
    status,
    out: Buffer.from(out).toString('latin1'),
    err: Buffer.from(err).toString('latin1'),
    made: [...made].map(([name, bytes]) => [name, Buffer.from(bytes).toString('latin1')]).sort(),
});

function ask_module(module, words, folder, input) {
    return as_text(ask(module, words, files_below(folder), { input: input && new Uint8Array(input) }));
}

// The built program makes its files in the folder, from where they are taken. Where it refuses before it reads, what it was handed
// finds no reader: EPIPE, and the answer stands.
function ask_built(program, words, folder, input) {
    const there = new Set(fs.readdirSync(folder));
    const how = { cwd: folder, input: input || Buffer.alloc(0), maxBuffer: 1 << 28 };
    const said = spawnSync(program, words, how);
    if (said.error && said.error.code !== 'EPIPE') throw said.error;
    const names = fs.readdirSync(folder).filter(name => !there.has(name));
    const made = names.map(name => [name, fs.readFileSync(path.join(folder, name))]);
    for (const name of names) fs.unlinkSync(path.join(folder, name));
    return as_text({ status: said.status, out: said.stdout, err: said.stderr, made });
}

// Counts checks, as tests/lib/judge.sh does.
const counts = { passed: 0, failed: 0 };
function judge(name, is_so, ...told) {
    if (is_so) {
        counts.passed++;
        return;
    }
    counts.failed++;
    console.log(`FAILED ${name}`);
    for (const text of told) console.log(String(text).slice(0, 2000));
}
function tell_counts() {
    console.log(`${counts.passed} passed, ${counts.failed} failed`);
    process.exitCode = counts.failed ? 1 : 0;
}

const module_of = file => new WebAssembly.Module(fs.readFileSync(file));

module.exports = { ask, Fault, ask_module, ask_built, judge, tell_counts, module_of };
