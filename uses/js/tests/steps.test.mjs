// A text that is twice as long takes twice the steps, whatever it has: loads and stores of the module, which binaryen makes it tell, and
// blocks of the package's code in JavaScript, which V8 counts. Both are the same on each machine, and at each run.
import assert from 'node:assert/strict';
import { spawnSync } from 'node:child_process';
import fs from 'node:fs';
import inspector from 'node:inspector/promises';
import os from 'node:os';
import path from 'node:path';
import test from 'node:test';
import * as ecma from '../ecma/ecma.mjs';
import { PACKAGE } from './package.mjs';

const FEATURES = ['--enable-bulk-memory', '--enable-sign-ext', '--enable-nontrapping-float-to-int'];
const isThere = spawnSync('wasm-opt', ['--version']).error === undefined;

/** How many loads and stores there were. */
let accesses = 0;

/** The module without SIMD, compiled, whose every load and store calls for a place of an import. */
function telling() {
    const folder = fs.mkdtempSync(path.join(os.tmpdir(), 'fintaluy-')), made = path.join(folder, 'telling.wasm');
    try {
        const ran = spawnSync('wasm-opt', [...FEATURES, '--instrument-memory', path.join(PACKAGE, 'ecma-plain.wasm'), '-o', made], { encoding: 'utf8' });
        assert.equal(ran.status, 0, ran.stderr);
        return new WebAssembly.Module(fs.readFileSync(made));
    } finally {
        fs.rmSync(folder, { recursive: true });
    }
}

/** Loads a module that tells of its accesses. */
function loadTelling(module) {
    const place = (id, bytes, offset, at) => (accesses++, at), value = (id, it) => it;
    const env = Object.fromEntries(WebAssembly.Module.imports(module).map(({ name }) => [name, name.endsWith('_ptr') ? place : value]));
    const { Instance } = WebAssembly;
    WebAssembly.Instance = class {
        constructor(it) {
            this.exports = new Instance(it, { env }).exports;
        }
    };
    ecma.loadSync(module);
}

const session = new inspector.Session();

/** How often blocks of the package's code were entered since the last call. */
async function blocks() {
    const { result } = await session.post('Profiler.takePreciseCoverage');
    const ranges = result.filter(({ url }) => url.includes('/uses/js/ecma/')).flatMap((it) => it.functions).flatMap((it) => it.ranges);
    return ranges.reduce((sum, { count }) => sum + count, 0);
}

/** The steps that `imports` takes for a text. */
async function stepsOf(text) {
    await blocks();
    accesses = 0;
    ecma.imports(text);
    return { accesses, blocks: await blocks() };
}

/** Whether the steps for a text twice as long are twice as many, within 2.5 %. */
function isTwice(one, other, text) {
    assert.ok(one.accesses > 1000 && one.blocks > 0, text);
    for (const name of ['accesses', 'blocks']) assert.ok(other[name] <= 2.05 * one[name] + 100, `${text}: ${one[name]} ${name}, then ${other[name]}`);
}

const PARTS = ['import(', 'import {', 'import a ', 'export let a ', 'export {', 'export let a = (', 'import {} ', 'import(é', 'import(import(é),', 'import "é"; ', 'export {é};'];

test('steps of imports grow as the text', { skip: isThere ? false : 'wasm-opt is not installed' }, async () => {
    loadTelling(telling());
    session.connect();
    await session.post('Profiler.enable');
    await session.post('Profiler.startPreciseCoverage', { callCount: true, detailed: true });
    for (const part of PARTS) isTwice(await stepsOf(part.repeat(300)), await stepsOf(part.repeat(600)), part);
    // Backslashes before a quote: in front of each place the quote could be escaped.
    for (const end of ['"', ' "', '\\"']) isTwice(await stepsOf(`import "${'\\'.repeat(20_000)}${end}`), await stepsOf(`import "${'\\'.repeat(40_000)}${end}`), `backslashes and ${end}`);
    session.disconnect();
});
