// Bundles of the package for browsers, by the bundlers that are installed, without a word of warning. They run where nothing of node is.
import assert from 'node:assert/strict';
import { spawnSync } from 'node:child_process';
import fs from 'node:fs';
import path from 'node:path';
import test from 'node:test';
import vm from 'node:vm';
import { BUNDLERS, bundle } from './bundlers.mjs';
import { HERE, bytesOf, installed } from './package.mjs';

/** A program that is to be bundled: what `told` promises is what it came to. */
const entry = (name) => `
    import { EcmaError, count, imports, load, tokenArray } from '${name}';
    import { tokenizer } from 'fintaluy/acorn';
    globalThis.told = load().then(() => [
        tokenArray('a = "é"; // b').map((it) => it.text).join(' '), imports('import "b"')[0][0].n, [...tokenizer('c', { name: 1 })].length, count(new Uint8Array([97])),
    ].join(), (error) => error instanceof EcmaError ? error.message : String(error));`;
const WANTED = 'a = "é" ;,b,1,1';

/** What browsers have and a context of node's vm does not: no file, no process, nothing to fetch from. */
const asBrowser = () => vm.createContext({ TextDecoder, TextEncoder, URL, atob });

for (const bundler of Object.keys(BUNDLERS)) {
    const skip = BUNDLERS[bundler].isThere() ? false : `${bundler} is not installed`;

    test(`a bundle of ${bundler} has the module inside`, { skip }, async () => {
        for (const name of ['fintaluy', 'fintaluy/inline']) {
            for (const words of BUNDLERS[bundler].scripts) {
                await installed(async (folder) => {
                    const context = asBrowser(), made = bundle(bundler, folder, entry(name), words);
                    vm.runInContext(fs.readFileSync(made, 'utf8'), context);
                    assert.equal(await context.told, WANTED, `${name} ${words.join(' ')}`);
                });
            }
        }
    });

    test(`a bundle of ${bundler} asks for the module beside it`, { skip }, async () => {
        await installed((folder) => {
            const made = bundle(bundler, folder, entry('fintaluy/separate'), BUNDLERS[bundler].module);
            fs.writeFileSync(path.join(path.dirname(made), 'ecma.wasm'), bytesOf('ecma.wasm'));
            const ran = spawnSync(process.execPath, ['--experimental-vm-modules', '--no-warnings', path.join(HERE, 'as_module.mjs'), made], { encoding: 'utf8' });
            assert.equal(ran.stdout, `${WANTED}\n`, ran.stderr);
        });
    });
}
