// What the calls answer: tables of texts and what is expected, which comes from ECMA-262 or is counted by hand.
import assert from 'node:assert/strict';
import test from 'node:test';
import * as ecma from '../ecma/ecma.mjs';
import { refuses } from './package.mjs';

await ecma.load();

const encoder = new TextEncoder();
const spelled = (text, options) => ecma.tokenArray(text, options).map((it) => it.text);
const typed = (text, options) => ecma.tokenArray(text, options).map((it) => it.type);

test('types of tokens', () => {
    const rows = [
        ['#!/bin/sh', ['shebang']],
        ['let x = null;', ['keyword', 'name', 'punctuator', 'keyword', 'punctuator']],
        ['`a${b}`', ['punctuator', 'template', 'punctuator', 'name', 'punctuator', 'template', 'punctuator']],
        ['1 1n "a", /b/c', ['number', 'bigint', 'string', 'punctuator', 'regexp']],
        ['\0', ['error']],
        ['of async', ['name', 'name']],
        ['', []],
    ];
    for (const [text, wanted] of rows) assert.deepEqual(typed(text), wanted, text);
});

test('values of tokens', () => {
    const rows = [
        ['"\\x41\\u0042\\u{43}"', 'ABC'],
        ["'a\\\r\nb'", 'ab'],
        ["'\\101\\0\\8'", 'A\u00008'],
        ['""', ''], ['"a\\\\"', 'a\\'], ['"\\""', '"'],
        // A string that is not closed says what stands behind its quote.
        ['"', ''], ["'", ''], ['"a', 'a'], ['"\'é', "'é"], ["'a\"", 'a"'], ['"a\\"', 'a"'], ['"a\\\\\\"', 'a\\"'],
        ['"a\n"b', 'a'], ['"a\\\n', 'a'],
        ['\\u{61}b', 'ab'],
        ['0x1f', 31], ['0b11', 3], ['0o17', 15], ['017', 15], ['089', 89], ['1e3', 1000], ['.5', 0.5], ['1_000', 1000], ['7', 7],
        ['0x1_fn', 31n],
        ['if', 'if'],
        ['=>', '=>'],
        ['\0', undefined],
    ];
    for (const [text, wanted] of rows) assert.deepEqual(ecma.tokenArray(text)[0].value, wanted, text);
    assert.equal(ecma.cook('\\u{110000}\\'), '\ufffd\\');
    const template = (text) => ecma.tokenArray(text).find((it) => it.type === 'template').value;
    assert.equal(template('`a\\n\r\nb`'), 'a\n\nb');
    assert.equal(template('`\\\\1`'), '\\1');
    for (const wrong of ['\\1', '\\01', '\\x4', '\\u{110000}', '\\u12']) assert.equal(template(`a\`${wrong}\``), undefined, wrong);
});

test('the iterator, the array and the rows agree', () => {
    const text = 'let a = `b${1}`; // c';
    const rows = ecma.tokenRows(text), array = ecma.tokenArray(text), each = [...ecma.tokens(text)];
    assert.equal(ecma.count(text), array.length);
    assert.deepEqual(each, array);
    array.forEach((it, i) => assert.deepEqual([it.start, it.end, it.kind], [rows[3 * i], rows[3 * i + 1], rows[3 * i + 2] & 0xffff]));
    const iterator = ecma.tokens(text);
    for (const token of iterator) if (token.text === 'a') break;
    assert.equal(iterator.next().done, true);
    assert.deepEqual(JSON.parse(JSON.stringify(array[0])), { type: 'keyword', start: 0, end: 3, text: 'let', lineBreakBefore: true, respelled: false });
});

test('places of strings are units, of bytes are bytes', () => {
    const text = '"é𝒳" + b // 𝒳\n/* é */ c \u2028 "𝒳';
    const bytes = encoder.encode(text), decoder = new TextDecoder('utf-8', { ignoreBOM: true });
    const part = (start, end) => decoder.decode(bytes.subarray(start, end));
    assert.deepEqual(spelled(bytes), spelled(text));
    const pairs = [ecma.tokenArray, ecma.comments, ecma.errors].flatMap((call) => call(text).map((it, i) => [it, call(bytes)[i]]));
    assert.ok(pairs.length > 6);
    for (const [one, other] of pairs) assert.equal(text.slice(one.start, one.end), part(other.start, other.end));
    for (const [one, other] of ecma.comments(text).map((it, i) => [it, ecma.comments(bytes)[i]])) {
        assert.equal(text.slice(one.textStart, one.textEnd), part(other.textStart, other.textEnd));
        assert.equal(encoder.encode(text.slice(0, one.attachedTo)).length, other.attachedTo);
    }
    assert.deepEqual(ecma.imports(encoder.encode('/* é */ import "é"'))[0].map(({ n, s, e }) => [n, s, e]), [['é', 17, 19]]);
});

test('halves of surrogate pairs are read as U+FFFD, and places stay', () => {
    const rows = [
        ['"\ud800" + b', [[0, 3], [4, 5], [6, 7]]],
        ['"\udfff𝒳" + é', [[0, 5], [6, 7], [8, 9]]],
        ['"\ud83d\ude00"', [[0, 4]]],
    ];
    for (const [text, wanted] of rows) {
        const found = ecma.tokenArray(text);
        assert.deepEqual(found.map((it) => [it.start, it.end]), wanted);
        assert.deepEqual(ecma.tokenRows(text), ecma.tokenRows(text.toWellFormed?.() ?? text.replace(/[\ud800-\udfff](?![\udc00-\udfff])/g, '\ufffd')));
    }
    assert.equal(ecma.tokenArray('"\ud800"')[0].value, '\ud800');
    assert.equal(ecma.canonical('"\ud800"'), ecma.canonical('"\ufffd"'));
});

test('options', () => {
    assert.deepEqual(spelled('a >> b', { typescript: true }), ecma.tokenArray('a >> b', { typescript: true }).map((it) => it.text));
    assert.deepEqual(ecma.comments('<!-- a').map((it) => it.type), ['line']);
    assert.deepEqual(ecma.errors('<!-- a').map((it) => it.source), ['module']);
    assert.deepEqual(ecma.errors('<!-- a', { module: true }).map((it) => it.source), ['recorded']);
    const sources = (options) => ecma.errors('010', options).map((it) => it.source);
    assert.deepEqual([sources(), sources({ strict: false, slashes: undefined }), sources({ strict: true })], [['module'], ['module'], ['recorded']]);
    refuses('BAD_OPTION', () => ecma.count('a', { typescipt: true }));
    refuses('BAD_OPTION', () => ecma.count('a', 'module'));
});

test('slashes', () => {
    const text = 'é = 𝒳 / /b/g';
    for (const options of [undefined, null, { slashes: undefined }, { slashes: null }]) assert.deepEqual(spelled(text, options), ['é', '=', '𝒳', '/', '/b/g']);
    assert.deepEqual(spelled(text, { slashes: [] }), ['é', '=', '𝒳', '/', '/', 'b', '/', 'g']);
    assert.deepEqual(spelled(text, { slashes: [7] }), ['é', '=', '𝒳', '/ /b', '/', 'g']);
    assert.deepEqual(spelled(text, { slashes: new Uint32Array([9]) }), ['é', '=', '𝒳', '/', '/b/g']);
    assert.deepEqual(spelled(encoder.encode(text), { slashes: [12] }), ['é', '=', '𝒳', '/', '/b/g']);
    const typescript = true;
    assert.deepEqual(spelled('a! / b / c', { typescript }), ['a', '!', '/', 'b', '/', 'c']);
    assert.deepEqual(spelled('a! / b / c', { typescript, slashes: 'flag' }), ['a', '!', '/ b /', 'c']);
    for (const slashes of [[0], [5], [8], [99], [9, 11]]) refuses('NO_SLASH', () => ecma.tokenRows(text, { slashes }));
    for (const slashes of [[9, 9], [9, 7], [-1], [0.5], ['9'], 9, {}, 'role', '']) refuses('BAD_OPTION', () => ecma.tokenRows(text, { slashes }));
});

test('errors of a text are in order of place', () => {
    const text = '"a\n\0 08n "\\x" 1_';
    const found = ecma.errors(text);
    assert.ok(found.length >= 3);
    for (let i = 1; i < found.length; i++) assert.ok(found[i - 1].start <= found[i].start);
    for (const it of found) assert.ok(it.message && ['token', 'recorded', 'module'].includes(it.source));
    const many = ecma.errors('"\\x"\n'.repeat(5000));
    assert.ok(many.length >= 5000);
});

test('comments belong to tokens', () => {
    const [one, other] = ecma.comments('a // b\n/* c */ d');
    assert.deepEqual([one.type, one.trailing, one.attachedTo], ['line', true, 1]);
    assert.deepEqual([other.type, other.trailing, other.attachedTo], ['block', false, 15]);
    const many = '// a\n'.repeat(20_000);
    assert.equal(ecma.comments(`é;${many}b`).length, 20_000);
});

test('canonical texts', () => {
    assert.equal(ecma.canonical('a  +/* c */b'), ecma.canonical('a + b'));
    assert.notEqual(ecma.canonical('a\n+ b'), ecma.canonical('a + b'));
    assert.equal(ecma.canonical('"'), null);
    assert.equal(ecma.canonical(''), '');
});

test('errors of calls', () => {
    for (const text of [undefined, null, 1, [], new ArrayBuffer(1), new Uint16Array(1)]) refuses('BAD_TEXT', () => ecma.tokenRows(text));
    for (const call of ['tokenRows', 'tokenArray', 'comments', 'errors', 'canonical', 'imports', 'count']) {
        refuses('NOT_UTF8', () => ecma[call](new Uint8Array([0x61, 0xff])));
        refuses('BAD_OPTION', () => ecma[call]('a', { slashes: [1, 0] }));
    }
    refuses('NOT_UTF8', () => ecma.tokens(new Uint8Array([0xc3])).next());
    assert.equal(ecma.count('a b'), 2);
});
