// Each block of the README runs, as a module of one who installed the package, and its lines answer what stands behind their arrows.
import assert from 'node:assert/strict';
import fs from 'node:fs';
import path from 'node:path';
import test from 'node:test';
import { pathToFileURL } from 'node:url';
import { PACKAGE, installed } from './package.mjs';

const readme = fs.readFileSync(path.join(PACKAGE, 'README.md'), 'utf8');
const blocks = [...readme.matchAll(/^```js\n([^]*?)^```$/gm)].map(([, code]) => code);

/** A block whose lines with an arrow tell what they answer. */
function telling(code) {
    return code.replace(/^( *)(.*); \/\/ → (.*)$/gm, (_, indent, expression, wanted) => `${indent}told.push([${expression}, ${wanted}, ${JSON.stringify(expression)}]);`);
}

test('the README has examples', () => assert.ok(blocks.length >= 6));

blocks.forEach((code, number) => test(`README, block ${number + 1}`, async () => {
    const lines = code.split('\n').filter((it) => it.includes('// →'));
    await installed(async (folder) => {
        const file = path.join(folder, 'example.mjs');
        fs.writeFileSync(file, `import { load as loadFirst } from 'fintaluy';\nawait loadFirst();\nexport const told = [];\n${telling(code)}`);
        const { told } = await import(pathToFileURL(file));
        assert.equal(told.length, lines.length);
        for (const [answer, wanted, expression] of told) assert.deepEqual(answer, wanted, expression);
    });
}));
