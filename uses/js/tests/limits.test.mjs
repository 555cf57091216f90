// A memory of WebAssembly that can't grow as far as a call asks: the call is right or says OUT_OF_MEMORY, and the next one is right.
import assert from 'node:assert/strict';
import { execFile } from 'node:child_process';
import path from 'node:path';
import test from 'node:test';
import { promisify } from 'node:util';
import * as ecma from '../ecma/ecma.mjs';
import { HERE, bytesOf } from './package.mjs';

const PAGE = 1 << 16, LIMITS = 40, SHARES = 2;

/** What comes of the calls of limits.mjs, by their names, at each of some limits in pages. */
async function toldAt(limits) {
    const { stdout } = await promisify(execFile)(process.execPath, [`--wasm-max-mem-pages=${limits[0]}`, path.join(HERE, 'limits.mjs'), ...limits]);
    return JSON.parse(stdout);
}

// The least limit is what the modules begin with, so that nothing grows at all; each further one is a page more, so that some refuse
// the growth for the text, some that for rows, places or the library's own blocks, some a room that is asked for again. At the last
// one all texts of limits.mjs have what they need.
test('limits of memory, from what a module begins with, page by page', async () => {
    const least = await Promise.all(['ecma.wasm', 'ecma-plain.wasm'].map(async (name) => {
        await ecma.load(new WebAssembly.Module(bytesOf(name)));
        return ecma.memory() / PAGE;
    }));
    const first = Math.max(...least), shares = Array.from({ length: SHARES }, (_, i) => i * LIMITS / SHARES);
    const told = await Promise.all(shares.map((from) => toldAt(Array.from({ length: LIMITS / SHARES }, (_, i) => first + from + i))));
    const byLimits = told.flat();
    byLimits.forEach((calls, i) => {
        for (const [name, { other }] of Object.entries(calls)) assert.deepEqual(other, [], `${name}, at most ${first + i} pages`);
    });
    for (const [name, { refused, right }] of Object.entries(byLimits[0])) assert.ok(refused > 0 && right === 0, `${name} fits without growth`);
    for (const [name, { refused }] of Object.entries(byLimits.at(-1))) assert.equal(refused, 0, `${name} does not fit the last limit`);
});

test('a limit below what a module begins with', async () => {
    const script = `import { load } from '${path.join('..', 'ecma', 'ecma.mjs')}'; await load().catch(({ code }) => console.log(code));`;
    const { stdout } = await promisify(execFile)(process.execPath, ['--wasm-max-mem-pages=10', '--input-type=module', '-e', script], { cwd: HERE });
    assert.equal(stdout, 'NOT_LOADED\n');
});
