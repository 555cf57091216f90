// What the tests share: the package as its users find it, in a folder of its own.
import assert from 'node:assert/strict';
import fs from 'node:fs';
import os from 'node:os';
import path from 'node:path';
import { fileURLToPath } from 'node:url';

export const HERE = path.dirname(fileURLToPath(import.meta.url));
export const PACKAGE = path.join(HERE, '..', 'ecma');
export const TOP = path.join(HERE, '..', '..', '..');

export const bytesOf = (name) => fs.readFileSync(path.join(PACKAGE, name));

for (const name of ['ecma.wasm', 'ecma-plain.wasm', 'ecma-plain.mjs']) {
    if (!fs.existsSync(path.join(PACKAGE, name))) throw new Error(`uses/js/ecma/${name} is not built: uses/js/build makes it`);
}

/** A folder with the package among its node_modules, for as long as `work` takes. */
export async function installed(work) {
    const folder = fs.mkdtempSync(path.join(os.tmpdir(), 'fintaluy-'));
    try {
        fs.mkdirSync(path.join(folder, 'node_modules'));
        fs.symlinkSync(PACKAGE, path.join(folder, 'node_modules', 'fintaluy'));
        return await work(folder);
    } finally {
        fs.rmSync(folder, { recursive: true });
    }
}

/** Whether `work` throws an EcmaError of a code. */
export function refuses(code, work) {
    assert.throws(work, (error) => {
        assert.equal(error.name, 'EcmaError');
        assert.equal(error.code, code);
        assert.notEqual(error.message, '');
        return true;
    });
}
