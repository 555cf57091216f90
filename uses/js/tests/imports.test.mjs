// `imports`: texts of module code and what es-module-lexer's page says of them.
import assert from 'node:assert/strict';
import test from 'node:test';
import { count, imports, load } from '../ecma/ecma.mjs';

await load();

const seen = (text, options) => imports(text, options)[0].map(({ n, s, e, ss, se, d, a }) => [n, text.slice(s, e), text.slice(ss, se), d, a === -1 ? '' : text.slice(a)[0]]);
const exported = (text, options) => imports(text, options)[1].map(({ n, ln, s, e, ls, le }) => [n, ln, text.slice(s, e), ls === -1 ? '' : text.slice(ls, le)]);

test('static imports', () => {
    const rows = [
        ['import "a"', ['a', 'a', 'import "a"', -1, '']],
        ["import a, { b as c, default as d } from 'e'; f", ['e', 'e', "import a, { b as c, default as d } from 'e'", -1, '']],
        ['import * as a from "b" with { type: "json" };', ['b', 'b', 'import * as a from "b" with { type: "json" }', -1, '{']],
        ['import a from "b" assert { type: "json" }', ['b', 'b', 'import a from "b" assert { type: "json" }', -1, '{']],
        ['import "\\x61"', ['a', '\\x61', 'import "\\x61"', -1, '']],
        ['import type { A } from "b"', ['b', 'b', 'import type { A } from "b"', -1, '']],
        ['export * from "a"', ['a', 'a', 'export * from "a"', -1, '']],
        ['export { a as b } from "c"', ['c', 'c', 'export { a as b } from "c"', -1, '']],
    ];
    for (const [text, wanted] of rows) assert.deepEqual(seen(text), [wanted], text);
});

test('names in strings that are not closed', () => {
    const rows = [
        ['import "', ['', '', 'import "', -1, '']],
        ['import "é', ['é', 'é', 'import "é', -1, '']],
        ['import "ab', ['ab', 'ab', 'import "ab', -1, '']],
        ['import "\'', ["'", "'", 'import "\'', -1, '']],
        ['import "a\\"', ['a"', 'a\\"', 'import "a\\"', -1, '']],
        ['import "a\\\\"', ['a\\', 'a\\\\', 'import "a\\\\"', -1, '']],
        ["export * from 'x", ['x', 'x', "export * from 'x", -1, '']],
        ['import a from "b\nwith { type: "json" }', ['b', 'b', 'import a from "b\nwith { type: "json" }', -1, '{']],
        // Of a call the places are those of the argument.
        ['import("a', ['a', '"a', 'import("a', 6, '']],
        ['import("', ['', '"', 'import("', 6, '']],
    ];
    for (const [text, wanted] of rows) assert.deepEqual(seen(text), [wanted], text);
    assert.deepEqual(seen('require("a\n)', { commonjs: true }), [['a', 'a', 'require("a\n)', -1, '']]);
    const bytes = Buffer.from('/* é */ import "é'), [[{ n, s, e, se }]] = imports(bytes);
    assert.deepEqual([n, s, e, se], ['é', 17, 19, 19]);
    const names = [
        ['export { a as "b', [['b', 'a', '"b', 'a']]],
        ['export { a as "', [['', 'a', '"', 'a']]],
        ['export { a as "b\\"', [['b"', 'a', '"b\\"', 'a']]],
        ['export * as "b\nfrom "c', [['b', undefined, '"b', '']]],
        ["export { 'a\n}", [['a', 'a', "'a", "'a"]]],
    ];
    for (const [text, wanted] of names) assert.deepEqual(exported(text), wanted, text);
});

test('module code, where nothing else is said', () => {
    // `await` is a keyword of it, behind which a regular expression stands.
    const text = 'await /import("a")/';
    for (const options of [undefined, 'file.js', {}, { module: undefined }, { module: true }]) assert.deepEqual(seen(text, options), []);
    assert.deepEqual(seen(text, { module: false }), [['a', '"a"', 'import("a")', 13, '']]);
});

test('dense texts have more rows than there is room for at first', () => {
    const text = 'import"a";export{b};'.repeat(1000);
    const [found, names] = imports(text);
    assert.deepEqual([found.length, found[999].ss, names.length, names[999].s], [1000, 19_980, 1000, 19_997]);
});

test('places of wide strings are units', () => {
    const text = '/* 𝒳 */ import é, { b } from "é\\u{e9}"; export { é as "𝒳" }; export let c = "é"; import("é", 𝒳); import("𝒳")';
    assert.deepEqual(seen(text), [
        ['éé', 'é\\u{e9}', 'import é, { b } from "é\\u{e9}"', -1, ''], ['é', '"é"', 'import("é", 𝒳)', text.indexOf('("é"'), '𝒳'[0]],
        ['𝒳', '"𝒳"', 'import("𝒳")', text.indexOf('("𝒳"'), ''],
    ]);
    assert.deepEqual(exported(text), [['𝒳', 'é', '"𝒳"', 'é'], ['c', 'c', 'c', 'c']]);
});

test('calls and import.meta', () => {
    const rows = [
        ['import("a")', ['a', '"a"', 'import("a")', 6, '']],
        ['x = import( a + "b" )', [undefined, 'a + "b"', 'import( a + "b" )', 10, '']],
        ['import("a", { with: {} })', ['a', '"a"', 'import("a", { with: {} })', 6, '{']],
        ['import.meta.url', [undefined, 'import.meta', 'import.meta', -2, '']],
        ['f(() => import("a"))', ['a', '"a"', 'import("a")', 14, '']],
    ];
    for (const [text, wanted] of rows) assert.deepEqual(seen(text), [wanted], text);
    assert.deepEqual(seen('import(import("a"))').map(([n, inside]) => [n, inside]), [[undefined, 'import("a")'], ['a', '"a"']]);
    for (const text of ['a.import("b")', 'class A { #import() {} }', '({ a: "import b from c" })', '// import "a"', 'f({ import: 1 })', 'class A { import(a) {} }', '({ import() {}, async import(b) {} })']) assert.deepEqual(seen(text), [], text);
});

test('exports', () => {
    const rows = [
        ['export { a as b, c }', [['b', 'a', 'b', 'a'], ['c', 'c', 'c', 'c']]],
        ['export { a as "b c" }', [['b c', 'a', '"b c"', 'a']]],
        ['export { a as b } from "c"', [['b', undefined, 'b', '']]],
        ['export * as a from "b"', [['a', undefined, 'a', '']]],
        ['export default async function* a() {}', [['default', undefined, 'default', '']]],
        ['export default function a() {}', [['default', 'a', 'default', 'a']]],
        ['export default class extends A {}', [['default', undefined, 'default', '']]],
        ['export default a', [['default', undefined, 'default', '']]],
        ['export function* a() {}', [['a', 'a', 'a', 'a']]],
        ['export class A {}', [['A', 'A', 'A', 'A']]],
        ['export let a = f(1, 2), b, c = [3, 4]', [['a', 'a', 'a', 'a'], ['b', 'b', 'b', 'b'], ['c', 'c', 'c', 'c']]],
        ['export let a = 1\nb, c', [['a', 'a', 'a', 'a']]],
        ['export const { a, b: [c], ...d } = e', [['a', 'a', 'a', 'a'], ['c', 'c', 'c', 'c'], ['d', 'd', 'd', 'd']]],
    ];
    for (const [text, wanted] of rows) {
        if (text.includes('async')) wanted[0].splice(0, 4, 'default', 'a', 'default', 'a');
        assert.deepEqual(exported(text), wanted, text);
    }
    const typescript = [
        ['export const a: Map<string, number> = b', ['a']],
        ['export const enum A {}', ['A']], ['export enum A {}', ['A']], ['export abstract class A {}', ['A']],
        ['export type A = B', ['A']], ['export interface A {}', ['A']],
    ];
    for (const [text, wanted] of typescript) assert.deepEqual(exported(text, { typescript: true }).map(([n]) => n), wanted, text);
});

test('phases, and types alone', () => {
    const rows = [
        ['import defer * as a from "b"', [['b', 'defer', false]]], ['import source a from "b"', [['b', 'source', false]]],
        ['import.defer("a")', [['a', 'defer', false]]], ['import.source("a")', [['a', 'source', false]]],
        ['import a, { type B } from "c"', [['c', undefined, false]]], ['import type { A } from "b"', [['b', undefined, true]]],
        ['export type { A } from "b"', [['b', undefined, true]]], ['import a = require("b")', [['b', undefined, false]]],
        ['declare module "a" {}', []],
    ];
    for (const [text, wanted] of rows) assert.deepEqual(imports(text, { typescript: true })[0].map(({ n, phase, type }) => [n, phase, type]), wanted, text);
    const names = [['export { type A, b }', [['A', true], ['b', false]]], ['export interface A {}', [['A', true]]], ['export class A {}', [['A', false]]]];
    for (const [text, wanted] of names) assert.deepEqual(imports(text, { typescript: true })[1].map(({ n, type }) => [n, type]), wanted, text);
});

test('require, where it is asked for', () => {
    const text = 'const a = require("b"), c = d.require("e"), f = require(g), { h } = require(\'i\')';
    assert.deepEqual(imports(text)[0], []);
    const found = imports(text, { commonjs: true, module: false })[0];
    assert.deepEqual(found.map(({ n, s, e, ss, se, d, require }) => [n, text.slice(s, e), text.slice(ss, se), d, require]), [
        ['b', 'b', 'require("b")', -1, true], ['i', 'i', "require('i')", -1, true],
    ]);
    assert.deepEqual(imports('import "a"; require("b")', { commonjs: true })[0].map(({ n, require }) => [n, require]), [['a', false], ['b', true]]);
    assert.throws(() => count('a', { commonjs: true }), { code: 'BAD_OPTION' });
});

test('bytes have places in bytes', () => {
    const text = Buffer.from('/* é */ import "é"; export { é as "\\u{e9}" }');
    const [[{ n, s, e }], [name]] = imports(text);
    assert.deepEqual([n, s, e], ['é', 17, 19]);
    assert.deepEqual([name.n, name.s, name.e, name.ln, name.ls, name.le], ['é', 37, 45, 'é', 31, 33]);
});

test('facade and module syntax', () => {
    const rows = [
        ['', true, false], ['import "a"; export * from "b";', true, true], ['export { a }', true, true], ['export let a', false, true],
        ['a', false, false], ['import("a")', false, false], ['import.meta', false, true], ['{}', false, false],
    ];
    for (const [text, facade, hasModuleSyntax] of rows) assert.deepEqual(imports(text).slice(2), [facade, hasModuleSyntax], text);
    assert.equal(imports('import "a"', 'file.js')[0][0].n, 'a');
});

test('whatever stands there, fields are places of the text', () => {
    const parts = ['import', 'export', '(', ')', '{', '}', ',', '"a"', '"', "'", '"é', '"a\\"', 'from', '*', 'as', 'a', '.', 'meta', 'let', '=', 'default', 'function', 'with', ';', '\n', '`', '${', 'assert', 'class'];
    let state = 1;
    const next = (bound) => (state = (Math.imul(state, 1103515245) + 12345) >>> 0, (state >>> 8) % bound);
    for (let i = 0; i < 20_000; i++) {
        const text = Array.from({ length: next(12) }, () => parts[next(parts.length)]).join(' ');
        const [found, names] = imports(text);
        const isPlace = (it) => Number.isInteger(it) && 0 <= it && it <= text.length;
        for (const { n, s, e, ss, se, d, a } of found) {
            assert.ok([s, e, ss, se].every(isPlace) && s <= e && ss <= s && e <= se, text);
            assert.ok((d >= -2 || isPlace(d)) && (a === -1 || isPlace(a)), text);
            if (n === undefined || d !== -1) continue;
            // The name lies between its quotes; where it is not closed the line or the text ends.
            assert.ok(['"', "'"].includes(text[s - 1]) && [text[s - 1], '\n', undefined].includes(text[e]), text);
            assert.equal(n, text.slice(s, e).replaceAll('\\"', '"'), text);
        }
        for (const { s, e, ls, le, n } of names) assert.ok(isPlace(s) && s <= e && ls <= le && typeof n === 'string', text);
    }
});

test('long texts', () => {
    const rows = [['import(', 100_000, 0], ['import(import(é),', 200_000, 0], ['import "é"; ', 100_000, 0], ['export {é};', 0, 100_000]];
    for (const [part, found, names] of rows) assert.deepEqual(imports(part.repeat(100_000)).slice(0, 2).map((it) => it.length), [found, names], part);
});
