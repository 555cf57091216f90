// Options that are wrong, by their messages, and what callers' objects do when they are read.
import assert from 'node:assert/strict';
import test from 'node:test';
import vm from 'node:vm';
import * as ecma from '../ecma/ecma.mjs';
import { tokenizer } from '../ecma/acorn.mjs';

await ecma.load();

const CALLS = ['tokenRows', 'tokenArray', 'count', 'comments', 'errors', 'canonical', 'imports'];

/** Whether every call refuses a text or options by a code and a message, and the next call is right. */
function refused(code, message, text, options) {
    for (const name of CALLS) {
        assert.throws(() => ecma[name](text, options()), (error) => error instanceof ecma.EcmaError && error.code === code && message.test(error.message), `${name}: ${message}`);
    }
    assert.throws(() => ecma.tokens(text, options()).next(), { code, message });
    assert.equal(ecma.count('a b'), 2);
}

/** An array whose bytes were handed on. */
function detached(array) {
    structuredClone(array.buffer, { transfer: [array.buffer] });
    return array;
}

const inOtherRealm = (code) => vm.runInNewContext(code);

test('each fault of options has its message', () => {
    const rows = [
        [/there is no option typescipt/, { typescipt: true }],
        [/there is no option __proto__/, JSON.parse('{ "__proto__": 1 }')],
        [/the option typescript is neither true nor false/, { typescript: 1 }],
        [/the option strict is neither true nor false/, { strict: 'yes' }],
        [/the option module is neither true nor false/, { module: {} }],
        [/the options are not an object/, true],
        [/the options are not an object/, () => true],
    ];
    for (const [message, options] of rows) refused('BAD_OPTION', message, 'a', () => options);
    assert.throws(() => ecma.count('a', 'module'), { code: 'BAD_OPTION', message: /not an object/ });
    assert.throws(() => ecma.imports('a', { commonjs: 1 }), { code: 'BAD_OPTION', message: /commonjs is neither/ });
    assert.throws(() => [...tokenizer('a', {}, { strict: 1 })], { code: 'BAD_OPTION' });
    // The number of a text in a list is none.
    assert.deepEqual(['a', 'b c'].map(ecma.count), [1, 2]);
    assert.deepEqual(['import "a"', 'a'].map(ecma.imports).map(([found]) => found.length), [1, 0]);
});

test('each fault of slashes has its message', () => {
    const rows = [
        [/a string other than 'flag'/, 'role'],
        [/a string other than 'flag'/, ''],
        [/neither 'flag' nor a list of places/, 9],
        [/neither 'flag' nor a list of places/, true],
        [/it has no length/, {}],
        [/it has no length/, { length: -1 }],
        [/it has no length/, { length: '2' }],
        [/`slashes\[0\]` is not a place/, { length: 2 ** 31 }],
        [/`slashes\[0\]` is not a place/, new Array(2 ** 32 - 1)],
        [/`slashes\[0\]` is not a place/, [-1]],
        [/`slashes\[0\]` is not a place/, [0.5]],
        [/`slashes\[0\]` is not a place/, ['9']],
        [/`slashes\[0\]` is not a place/, new BigInt64Array(1)],
        [/`slashes\[1\]` is not a place/, [0, undefined]],
        [/`slashes\[1\]` is 1, which is not above the place before it, 1/, [1, 1]],
        [/`slashes\[2\]` is 0, which is not above the place before it, 1/, [0, 1, 0]],
        [/`slashes\[1\]` is 0, which is not above/, new Uint8Array(1 << 20)],
        [/bytes are detached/, detached(new Uint32Array([0]))],
    ];
    for (const [message, slashes] of rows) refused('BAD_OPTION', message, '//a', () => ({ slashes }));
    refused('NO_SLASH', /not that of a slash/, '', () => ({ slashes: [0] }));
    // What is no list of places is said before that a place is not in the text.
    refused('BAD_OPTION', /`slashes\[1\]` is 5/, 'a', () => ({ slashes: [5, 5] }));
    refused('NO_SLASH', /not that of a slash/, 'a', () => ({ slashes: Uint32Array.from({ length: 1000 }, (_, i) => i + 1) }));
});

test('options are their own fields', () => {
    const { prototype } = Object, inherited = ['foo', 'module', 'commonjs', 'strict', 'slashes'];
    for (const name of inherited) prototype[name] = name === 'slashes' ? [9] : true;
    try {
        for (const options of [undefined, null, {}, { module: false }, 'file.js']) {
            assert.equal(ecma.imports('import "a"; require("b")', options)[0].length, 1);
            if (options !== 'file.js') assert.deepEqual(ecma.errors('010', options).map((it) => it.source), ['module']);
        }
    } finally {
        for (const name of inherited) delete prototype[name];
    }
    assert.equal(ecma.count('a', Object.create({ foo: 1 })), 1);
    assert.equal(ecma.count('a / b / c', Object.assign(Object.create(null), { slashes: [2] })), 3);
});

test('an error of an object of the caller is the cause', () => {
    const mine = new Error('mine'), throwing = () => { throw mine; };
    const rows = [
        { get typescript() { return throwing(); } },
        { get slashes() { return throwing(); } },
        { slashes: { get length() { return throwing(); } } },
        { slashes: { length: 1, get 0() { return throwing(); } } },
        new Proxy({}, { ownKeys: throwing }),
    ];
    for (const options of rows) {
        for (const name of CALLS) assert.throws(() => ecma[name]('//', options), { name: 'EcmaError', code: 'BAD_OPTION', cause: mine });
        assert.equal(ecma.count('a b'), 2);
    }
    // A call within a call.
    assert.equal(ecma.count('a b c', { get strict() { return ecma.count('a') === 1; } }), 3);
});

test('texts whose bytes are detached, or of another realm', () => {
    refused('BAD_TEXT', /bytes of the text are detached/, detached(new Uint8Array([97])), () => undefined);
    for (const name of CALLS) {
        const text = new Uint8Array([97]);
        assert.throws(() => ecma[name](text, { get module() { detached(text); return true; } }), { code: 'BAD_TEXT', message: /detached/ });
    }
    for (const text of [[97], { length: 1 }, new Uint8ClampedArray(1), new DataView(new ArrayBuffer(1)), Object.create(Uint8Array.prototype), inOtherRealm('new Int8Array(1)')]) {
        refused('BAD_TEXT', /neither a string nor a Uint8Array/, text, () => undefined);
    }
    class Odd extends Uint8Array {
        get length() {
            throw new Error('mine');
        }
    }
    assert.equal(ecma.count(new Odd([47, 97, 47]), { slashes: [0] }), 1);
    const text = inOtherRealm("new Uint8Array([47, 97, 47, 32, 98])");
    assert.deepEqual(ecma.tokenArray(text, inOtherRealm('({ module: true, slashes: [0] })')).map((it) => it.text), ['/a/', 'b']);
    assert.equal(ecma.count(text, { slashes: inOtherRealm('new Uint16Array([0])') }), 2);
});

test('what there is nothing to load of', async () => {
    const rows = [[42, 'Number'], [null, 'Null'], [true, 'Boolean'], [{}, 'Object'], [[1], 'Array'], [Symbol('a'), 'Symbol'], [() => 1, 'Function'], [Promise.resolve(), 'Promise']];
    for (const [source, name] of rows) await assert.rejects(ecma.load(source), { name: 'EcmaError', code: 'NOT_LOADED', message: new RegExp(`and not ${name}$`) });
    for (const [source] of [...rows, [undefined], ['a.wasm']]) assert.throws(() => ecma.loadSync(source), { name: 'EcmaError', code: 'NOT_LOADED', message: /can't be loaded: ./ });
    assert.equal(ecma.count('a b'), 2);
});
