// acorn.mjs, with types that are their own names; bench/javascript compares with acorn itself.
import assert from 'node:assert/strict';
import test from 'node:test';
import { load } from '../ecma/ecma.mjs';
import { tokenizer } from '../ecma/acorn.mjs';

await load();

const types = new Proxy({}, { get: (_, name) => name });
const seen = (text) => [...tokenizer(text, types)].map((it) => [it.type, it.value, it.start, it.end]);

test('types and values', () => {
    assert.deepEqual(seen('if (a?.b) #c'), [
        ['_if', 'if', 0, 2], ['parenL', undefined, 3, 4], ['name', 'a', 4, 5], ['questionDot', '?.', 5, 7], ['name', 'b', 7, 8],
        ['parenR', undefined, 8, 9], ['privateId', 'c', 10, 12],
    ]);
    assert.deepEqual(seen('a ? .5 : 0x1fn').map(([type, value]) => [type, value]), [['name', 'a'], ['question', '?'], ['num', 0.5], ['colon', undefined], ['num', 31n]]);
    assert.deepEqual(seen('a += b ** c').map(([type]) => type), ['name', 'assign', 'name', 'starstar', 'name']);
    assert.deepEqual(seen('`a\\n${b}`').map(([type, value]) => [type, value]), [
        ['backQuote', undefined], ['template', 'a\n'], ['dollarBraceL', undefined], ['name', 'b'], ['braceR', undefined], ['template', ''], ['backQuote', undefined],
    ]);
    assert.deepEqual(seen('a`\\1`').map(([type, value]) => [type, value])[2], ['invalidTemplate', '\\1']);
    const [{ value }] = tokenizer('/a/g', types);
    assert.deepEqual([value.pattern, value.flags, value.value.source], ['a', 'g', 'a']);
    assert.equal([...tokenizer('/(/', types)][0].value.value, null);
    assert.deepEqual(seen('\\u0061s'), [['name', 'as', 0, 7]]);
    assert.deepEqual(seen('"a\\x62" "" \'c').map(([type, value]) => [type, value]), [['string', 'ab'], ['string', ''], ['string', 'c']]);
    for (const [text, value] of [['"', ''], ['"\'é', "'é"], ['"a\\"', 'a"']]) assert.deepEqual(seen(text), [['string', value, 0, text.length]], text);
    assert.deepEqual(seen('#!a\nb'), [['name', 'b', 4, 5]]);
});

test('the end, and errors', () => {
    const it = tokenizer('a', types);
    assert.deepEqual([it.getToken(), it.getToken()].map(({ type, start, end }) => [type, start, end]), [['name', 0, 1], ['eof', 1, 1]]);
    assert.throws(() => seen('a \0'), (error) => error instanceof SyntaxError && error.pos === 2);
    assert.throws(() => seen('# a'), SyntaxError);
});
