// Texts that are meant to hurt, and many calls: nothing grows, and what comes behind is right.
import assert from 'node:assert/strict';
import test from 'node:test';
import * as ecma from '../ecma/ecma.mjs';
import { bytesOf, refuses } from './package.mjs';

await ecma.load();

const KEPT = 64 << 20;

test('long texts', () => {
    const million = 1_000_000;
    const rows = [
        ['one string', `"${'a'.repeat(70 * million)}"`, 1],
        ['one comment', `/*${'é'.repeat(10 * million)}*/`, 0],
        ['brackets', '('.repeat(million), million],
        ['semicolons', ';'.repeat(2 * million), 2 * million],
        ['wide names', '𝒳 '.repeat(100_000), 100_000],
    ];
    for (const [name, text, wanted] of rows) {
        assert.equal(ecma.count(text), wanted, name);
        assert.ok(ecma.memory() <= KEPT, `${name}: a memory above 64 MB is let go behind its call`);
    }
    // Its rows have more than 64 MB, and more than there is room for at first.
    assert.equal(ecma.tokenRows(';'.repeat(6 * million)).length, 18 * million);
    assert.ok(ecma.memory() <= KEPT);
    assert.ok(ecma.count('`${'.repeat(200_000)) >= 400_000);
    assert.ok(ecma.errors('"\n'.repeat(20_000)).length >= 20_000);
    assert.equal(ecma.count('a b'), 2);
});

test('what does not fit is an error, and the next call is right', () => {
    // The room for its rows and the text have more than 4 GB.
    refuses('OUT_OF_MEMORY', () => ecma.tokenRows(new Uint8Array(800_000_000)));
    assert.ok(ecma.memory() <= KEPT);
    assert.equal(ecma.count('a b'), 2);
    // Nothing of this one is touched.
    refuses('TOO_LONG', () => ecma.count(new Uint8Array(4_294_000_000)));
    assert.equal(ecma.count('a b'), 2);
});

test('100,000 calls do not grow', () => {
    const calls = [
        () => ecma.tokenRows('let a = "b";\n'.repeat(100)),
        () => ecma.errors('é "a\nlet \u2028 1a'),
        () => ecma.imports('import a from "b"; export { a }'),
        () => ecma.canonical('a + b'),
        () => refuses('BAD_OPTION', () => ecma.tokenRows('a', { slashes: [5, 5] })),
        () => refuses('NOT_UTF8', () => ecma.count(new Uint8Array([255]))),
        () => refuses('NO_SLASH', () => ecma.count('a', { slashes: [0] })),
        () => ecma.comments('/* a */ b'),
    ];
    for (let i = 0; i < 1000; i++) calls[i % calls.length]();
    const before = ecma.memory();
    for (let i = 0; i < 100_000; i++) calls[i % calls.length]();
    assert.equal(ecma.memory(), before);
    assert.ok(before <= 2 << 20);
});

test('places of random texts with halves of surrogate pairs', () => {
    const parts = ['\ud800', '\udc00', '\ud83d\ude00', 'é', 'a', '"', "'", '`', '/', '\n', ' ', '𝒳', '\\', '1', '${', '}', '\u2028', '//', '/*', '*/', '\ufeff', '\0'];
    const encoder = new TextEncoder(), decoder = new TextDecoder('utf-8', { ignoreBOM: true });
    let state = 5;
    const next = (bound) => (state = (Math.imul(state, 1103515245) + 12345) >>> 0, (state >>> 8) % bound);
    for (let i = 0; i < 20_000; i++) {
        const text = Array.from({ length: 1 + next(12) }, () => parts[next(parts.length)]).join('');
        const bytes = encoder.encode(text), read = decoder.decode(bytes), units = ecma.tokenRows(text), places = ecma.tokenRows(bytes);
        assert.equal(units.length, places.length);
        for (let j = 0; j < units.length; j += 3) assert.equal(read.slice(units[j], units[j + 1]), decoder.decode(bytes.subarray(places[j], places[j + 1])));
        const one = [...ecma.comments(text), ...ecma.errors(text)], other = [...ecma.comments(bytes), ...ecma.errors(bytes)];
        one.forEach((it, j) => assert.equal(read.slice(it.start, it.end), decoder.decode(bytes.subarray(other[j].start, other[j].end))));
    }
});

test('the module without SIMD answers the same', () => {
    const text = `// ${'é'.repeat(50)}\n"${'a'.repeat(100)}" + /b/g \`c\${d}\` ${' '.repeat(40)} instanceof`;
    const rows = ecma.tokenRows(text);
    ecma.loadSync(bytesOf('ecma-plain.wasm'));
    assert.deepEqual(ecma.tokenRows(text), rows);
    ecma.loadSync(bytesOf('ecma.wasm'));
});
