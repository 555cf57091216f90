// The files of the package: what it exports and declares, its kinds, and the ways to load it.
import assert from 'node:assert/strict';
import { spawnSync } from 'node:child_process';
import fs from 'node:fs';
import http from 'node:http';
import path from 'node:path';
import test from 'node:test';
import { pathToFileURL } from 'node:url';
import { gzipSync } from 'node:zlib';
import * as ecma from '../ecma/ecma.mjs';
import { PACKAGE, TOP, bytesOf, installed, refuses } from './package.mjs';

const told = JSON.parse(fs.readFileSync(path.join(PACKAGE, 'package.json'), 'utf8'));

test('no dependencies, no scripts', () => {
    for (const name of ['dependencies', 'scripts', 'optionalDependencies', 'peerDependencies']) assert.equal(told[name], undefined);
    assert.equal(told.type, 'module');
    assert.equal(told.sideEffects, false);
});

test('what is exported is there, and declared', async () => {
    for (const [name, target] of Object.entries(told.exports)) {
        for (const file of typeof target === 'string' ? [target] : Object.values(target)) assert.ok(fs.existsSync(path.join(PACKAGE, file)), `${name}: ${file}`);
    }
    for (const name of ['ecma', 'kinds', 'acorn']) {
        const module = await import(pathToFileURL(path.join(PACKAGE, `${name}.mjs`)));
        const types = fs.readFileSync(path.join(PACKAGE, `${name}.d.mts`), 'utf8');
        const values = [...types.matchAll(/^export (?:declare )?(?:function|class|const) (\w+)/gm), ...types.matchAll(/^export \{ (\w+) \}/gm)].map((it) => it[1]);
        assert.deepEqual(Object.keys(module).sort(), values.sort(), name);
    }
});

test('the package with the module inside is the same', async () => {
    const inside = await import('../ecma/inline.mjs'), { MODULE } = await import('../ecma/ecma-plain.mjs');
    assert.deepEqual(Object.keys(inside), Object.keys(ecma));
    for (const [name, value] of Object.entries(ecma)) assert.equal(inside[name] === value, name !== 'load', name);
    assert.deepEqual(Buffer.from(MODULE, 'base64'), bytesOf('ecma-plain.wasm'));
});

test('the module inside is loaded where nothing can be fetched or read', async () => {
    await installed((folder) => {
        const script = `
            delete globalThis.fetch;
            delete globalThis.process;
            const { count, load } = await import('fintaluy/inline');
            const code = await load(new URL('file:///ecma.wasm')).catch((error) => error.code);
            await Promise.all([load(), load()]);
            console.log(code, count('a b'));`;
        fs.writeFileSync(path.join(folder, 'script.mjs'), script);
        const made = spawnSync(process.execPath, ['script.mjs'], { cwd: folder, encoding: 'utf8' });
        assert.equal(made.stdout, 'NOT_LOADED 2\n', made.stderr);
    });
});

test('a module has at most 95 kB by gzip', () => {
    for (const name of ['ecma.wasm', 'ecma-plain.wasm']) assert.ok(gzipSync(bytesOf(name), { level: 9 }).length <= 95_000, name);
});

test('the kinds are those of the header', () => {
    const header = fs.readFileSync(path.join(TOP, 'uses', 'c', 'ecma_kinds.h'), 'utf8');
    const kinds = Object.fromEntries([...header.matchAll(/^ +ECMA_(\w+) = (\d+)/gm)].map(([, name, number]) => [name, Number(number)]));
    assert.ok(Object.keys(kinds).length > 100);
    assert.deepEqual({ ...ecma.Kind }, kinds);
    const types = fs.readFileSync(path.join(PACKAGE, 'kinds.d.mts'), 'utf8');
    assert.deepEqual(Object.fromEntries([...types.matchAll(/readonly (\w+): (\d+);/g)].map(([, name, number]) => [name, Number(number)])), kinds);
});

test('by names of the package, before and behind load', async () => {
    await installed((folder) => {
        const script = `
            import { Kind, count, load } from 'fintaluy';
            import { tokenizer } from 'fintaluy/acorn';
            import { Kind as same } from 'fintaluy/kinds';
            let code;
            try { count('a'); } catch (error) { code = error.code; }
            await Promise.all([load(), load()]);
            await load();
            console.log(code, Kind === same, count('a b'), typeof tokenizer);`;
        fs.writeFileSync(path.join(folder, 'script.mjs'), script);
        const made = spawnSync(process.execPath, ['script.mjs'], { cwd: folder, encoding: 'utf8' });
        assert.equal(made.stdout, 'NOT_LOADED true 2 function\n', made.stderr);
    });
});

test('an engine without SIMD gets the module without', async () => {
    await installed((folder) => {
        const script = `
            const { compile } = WebAssembly, sizes = [];
            WebAssembly.validate = () => false;
            WebAssembly.compile = (bytes) => (sizes.push(bytes.length), compile(bytes));
            const { count, load } = await import('fintaluy');
            await load();
            console.log(sizes.join(), count('a b'));`;
        fs.writeFileSync(path.join(folder, 'script.mjs'), script);
        const made = spawnSync(process.execPath, ['script.mjs'], { cwd: folder, encoding: 'utf8' });
        assert.equal(made.stdout, `${bytesOf('ecma-plain.wasm').length} 2\n`, made.stderr);
    });
});

test('what can be loaded', async () => {
    const file = pathToFileURL(path.join(PACKAGE, 'ecma.wasm')), bytes = bytesOf('ecma.wasm');
    const response = (type) => new Response(bytes, { headers: { 'content-type': type } });
    for (const source of [undefined, file, file.href, bytes, bytes.buffer.slice(bytes.byteOffset, bytes.byteOffset + bytes.length), new WebAssembly.Module(bytes), response('application/wasm'), response('text/plain')]) {
        await ecma.load(source);
        assert.equal(ecma.count('a b'), 2);
    }
    for (const source of [bytes, new WebAssembly.Module(bytes)]) {
        ecma.loadSync(source);
        assert.equal(ecma.count('a b'), 2);
    }
    const other = new Uint8Array([0, 97, 115, 109, 1, 0, 0, 0]);
    for (const source of [new Uint8Array([1, 2, 3]), other]) {
        await assert.rejects(ecma.load(source), { name: 'EcmaError', code: 'NOT_LOADED' });
        refuses('NOT_LOADED', () => ecma.loadSync(source));
    }
    const absent = new URL('./absent.wasm', file);
    for (const source of [new Response('', { status: 404 }), absent, absent.href, 'no address']) {
        await assert.rejects(ecma.load(source), { name: 'EcmaError', code: 'NOT_LOADED' });
    }
    assert.equal(ecma.count('a b'), 2);
});

test('over HTTP', async () => {
    const server = http.createServer((request, response) => {
        response.writeHead(request.url === '/ecma.wasm' ? 200 : 404, { 'content-type': 'application/wasm' });
        response.end(request.url === '/ecma.wasm' ? bytesOf('ecma.wasm') : '');
    });
    await new Promise((resolve) => server.listen(0, '127.0.0.1', resolve));
    const at = `http://127.0.0.1:${server.address().port}`;
    try {
        await ecma.load(`${at}/ecma.wasm`);
        assert.equal(ecma.count('a b'), 2);
        await assert.rejects(ecma.load(new URL(`${at}/other.wasm`)), { code: 'NOT_LOADED' });
    } finally {
        server.close();
    }
});

/** Does `work` while each instance exports what `change` makes of its exports and of how many instances came before it. */
function changing(change, work) {
    const { Instance } = WebAssembly;
    let made = 0;
    WebAssembly.Instance = class {
        constructor(module) {
            this.exports = change(new Instance(module).exports, made++);
        }
    };
    try {
        work();
    } finally {
        WebAssembly.Instance = Instance;
    }
}

const throwing = (error) => () => { throw error; };
/** The exports, whose call of count traps. */
const trapping = (exports) => ({ ...exports, ecma_js_count: throwing(new WebAssembly.RuntimeError('unreachable')) });

test('a module that stops leaves nothing behind', () => {
    changing((exports, before) => (before ? exports : trapping(exports)), () => {
        ecma.loadSync(bytesOf('ecma.wasm'));
        refuses('STOPPED', () => ecma.count('a b'));
        assert.equal(ecma.count('a b'), 2);
    });
});

test('a module that does not start again is an error, and the next call starts it', () => {
    // What an engine throws that has no room for the memory of an instance.
    const noMemory = throwing(new RangeError('Out of memory: Cannot allocate Wasm memory for new instance'));
    const change = [trapping, noMemory, noMemory];
    changing((exports, before) => (change[before] ? change[before](exports) : exports), () => {
        ecma.loadSync(bytesOf('ecma.wasm'));
        refuses('STOPPED', () => ecma.count('a b'));
        refuses('OUT_OF_MEMORY', () => ecma.count('a b'));
        assert.equal(ecma.memory(), 0);
        refuses('OUT_OF_MEMORY', () => ecma.tokenRows('a b'));
        assert.equal(ecma.count('a b'), 2);
    });
});
