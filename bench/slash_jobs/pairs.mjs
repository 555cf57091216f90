/* Each expression in each place of one, and each statement before each, with slashes beside them. In JavaScript those that either
 * parser refuses are left out: acorn takes a slash on the line behind an async function expression for a regular expression. */
import { compare } from './program.mjs';
import { byParser, byTypescript, parsersAreThere } from './parsers.mjs';

const EXPRESSIONS = [
    'a', 'a++', '++a', '(a)', '[]', '[a]', '({})', '{ a: b }', 'f()', 'f?.()', 'a?.b', 'a?.[b]', 'a.if', 'a.#b', 'function () {}',
    'function* () {}', 'async function () {}', 'async function* a() {}', 'class {}', 'class A extends B {}', 'class extends (a, b) {}',
    '() => {}', '() => a', 'async () => {}', 'async a => b', 'a => ({})', '`a`', '`a${b}c`', 'a`b`', '/re/', '/re/g', '1', '1n', '.5',
    '"a"', 'this', 'null', 'true', 'yield', 'yield a', 'await', 'await a', 'new a', 'new a()', 'new a.b', 'new.target', 'import.meta',
    'import("a")', 'super.a', 'a!', 'a!.b', 'a![0]', 'a!!', 'a as b', 'a as const', '<b>a', 'a, b', 'a ? b : c', 'a = b', 'a => b => c',
    'typeof a', 'void 0', 'delete a.b', '!a', '~a', '-a', 'a in b', 'a instanceof b', 'async', 'of', 'let', 'static', 'get', 'set',
    'type', 'interface', 'namespace', 'module', 'declare', 'abstract', 'as', 'is', 'keyof', 'async()', 'async(a)', 'async(a) => b',
    'a < b', 'a < b > c', 'f<a>(b)', 'a << b', 'a >> b', 'a >>> b', 'a ?? b', 'a || b', 'a ** b', 'x => x ? a : b',
    'function a() { return b }', 'class A { a = b; static c() {} }', '{ a, ...b }', '[...a]', 'a[b]`c`', 'new a`b`', 'new (a())()',
    '(async () => {})()', '(function () {})()', 'void function () {}()', 'a?.b`c`',
];

/* Where an expression may be, which stands for '@'. */
const PLACES = [
    'x = @ / 2', 'x = @\n/re/.test(y)', 'x = @\n/ b / c', '(@) / 2', '[@, /re/]', '[@ / b]', '`${@}` / 2', '`${@ / b}`',
    '({ a: @, b: /re/ })', '({ a: @ / b })', 'if (@) /re/.test(y)', 'if (@ / b) /re/.test(y)', 'while (@) /re/.test(y)', 'c ? @ : /re/',
    'c ? @ / b : /re/', '@ ? /re/ : b', '@ ? /re/ : b / d', 'x = () => @\n/re/.test(y)', 'x = () => @ / b', 'f(@, /re/)', 'f(@ / b)',
    'return @ / b', 'throw @\n/re/.test(y)', 'for (x of @) /re/.test(y)', 'for (x in @) /re/.test(y)',
    'for (@; /re/; a / b) /re/.test(y)', 'for (let x = @; a / b;) /re/.test(y)', 'switch (@) { case @: /re/.test(y); default: a / b }',
    'x = { [@]: /re/ }', 'class A { [@] = /re/ }', 'class A { a = @; b = /re/ }', 'class A { a = @\nb = /re/ }',
    'class A { a = @ / b }', 'let x = @, y = /re/', 'let x = @ / b', 'export default @\n/re/.test(y)', 'export default @ / b',
    '@; /re/.test(y)', '@\n/re/.test(y)', '@ / b', 'x[@] / b', 'x[@]\n/re/', 'function g(a = @) { /re/ }', '(a = @ / b) => /re/',
    'do @; while (/re/)', 'do @ / b; while (c)', 'a: @ / b', 'async function g() { @ / b }', 'function* g() { @ / b }',
    'function* g() { @\n/re/.test(y) }', '{ @ }\n/re/.test(y)', '{ @ / b }', '!@ / b', 'typeof @ / b', '@ in /re/', 'x += @ / b',
    '(x, @) / b', 'new (@) / b', '(@).a / b', '(@)[0] / b', '(@)`a` / b', '(@)\n/re/', 'with (@) /re/.test(y)',
    'try { @ / b } catch (e) { @\n/re/.test(y) }', 'if (a) @; else /re/.test(y)', 'if (a) @ / b; else c / d', 'import.meta[@] / b',
    '@ && /re/', '/re/ && @ / b', 'a = b ? @ : c ? /re/ : d / e',
];

const STATEMENTS = [
    'a', 'a()', 'var a', 'let a', 'const a = b', 'var a = b, c', 'let { a } = b', 'let [a] = b', 'if (a) b', 'if (a) b; else c',
    'if (a) {}', 'if (a) {} else {}', 'for (;;) {}', 'for (;;) a', 'for (a in b) {}', 'for (a of b) c', 'for (let a of b) {}',
    'for await (a of b) {}', 'while (a) {}', 'while (a) b', 'do a; while (b)', 'do {} while (b)', '{}', '{ a }', '{ a: b }', 'a: {}',
    'a: b', 'function a() {}', 'function* a() {}', 'async function a() {}', 'class A {}', 'class A extends B {}', 'switch (a) {}',
    'switch (a) { case b: }', 'switch (a) { default: c }', 'try {} catch {}', 'try {} catch (a) {} finally {}', 'throw a', 'return',
    'return a', 'break', 'continue', 'debugger', ';', 'import "a"', 'import a from "b"', 'import { a } from "b"',
    'import * as a from "b"', 'import a from "b" assert { type: "json" }', 'export { a }', 'export { a } from "b"', 'export * from "a"',
    'export * as a from "b"', 'export default a', 'export default function () {}', 'export default class {}',
    'export default async function a() {}', 'export default { a }', 'export default [a]', 'export default a => b',
    'export default () => {}', 'export const a = b', 'export let a', 'export function a() {}', 'export class A {}',
    'export default (a)', 'a => b', 'a => {}', 'async a => b', 'async (a) => {}', '(a) => {}', '(a)', '[a]', '({})', '`a`', 'a`b`',
    '"a"', '1', '/re/', '/re/g', 'a++', 'a--', 'a = b', 'a ? b : c', 'a, b', 'new A', 'new A()', 'yield', 'yield a', 'await a', 'this',
    'super.a', 'import("a")', 'import.meta', 'new.target', 'with (a) b', 'with (a) {}', '@a class B {}', 'type A = B', 'type A = B[]',
    'type A<T> = { a: T }', 'interface A {}', 'interface A extends B<C> {}', 'enum A {}', 'const enum A { a }', 'declare const a: B',
    'declare function a(): B', 'declare class A {}', 'declare module "a" {}', 'declare namespace A {}', 'namespace A {}',
    'namespace A.B {}', 'module A {}', 'declare global {}', 'abstract class A {}', 'export type A = B', 'export interface A {}',
    'export enum A {}', 'export abstract class A {}', 'export declare const a: B', 'export namespace A {}', 'export = a',
    'import a = b', 'import a = require("b")', 'import a = b.c', 'export import a = b.c', 'import type { A } from "b"',
    'import type A from "b"', 'export type { A }', 'export type { A } from "b"', 'function a(): B', 'function a(b: C): B {}',
    'let a: B', 'let a!: B', 'let a: B = c', 'let a = b as C', 'let a = b!', 'a as B', 'a!', '<A>b', 'a satisfies B',
    'let a = <T>(b: T) => c', 'type A = B extends C ? D : E', 'type A = () => B', 'type A = typeof b', 'type A = `a${B}`',
    'abstract class A { abstract b(): C }', 'class A { b; c = d; static e; #f; get g() {} static {} }', 'class A { b(): C; b() {} }',
    'class A<T> implements B<T>, C {}', 'export default interface A {}', 'export default abstract class A {}', 'let a = class {}',
    'let a = function () {}', 'let a = {}', 'let a = async function () {}', 'a.b', 'a?.b', 'a[b]', 'a.if', 'async', 'let', 'of', 'type',
    'a.type', 'interface', 'declare', 'namespace', 'module', 'abstract', 'static', 'get', 'set', 'as', 'is', 'yield\na', 'var async',
    'var let_', 'var of', 'var type = a',
];

const NEXT = [
    '/re/.test(x)', '/ b / c', '++\n/re/.lastIndex', '(/re/)', '[/re/]', '`${/re/}`', '-/re/', '{ /re/ }',
    'function z() { return /re/ }', 'class Z { z = /re/ }', 'if (z) /re/.test(y)', 'let z = /re/', 'type\n/ b / c', 'async () => /re/',
    '@z(/re/) class Y {}', '<z>y / 2', '!/re/', 'x / y', 'typeof /re/',
];

const SEPARATORS = ['\n', ' ', '; '];

/* Where statements may be. */
const AROUND = [
    (text) => text,
    (text) => `function q() { ${text} }`,
    (text) => `{ ${text} }`,
    (text) => `switch (q) { case p: ${text} }`,
    (text) => `q = () => { ${text} }`,
    (text) => `class Q { static { ${text} } }`,
    (text) => `async function* q() { ${text} }`,
];

const EXTENSIONS = ['.js', '.ts'];

function statements() {
    const pairs = STATEMENTS.flatMap((it) => NEXT.flatMap((next) => SEPARATORS.map((between) => it + between + next)));
    return AROUND.flatMap((around) => pairs.map(around));
}

const expressions = () => EXPRESSIONS.flatMap((it) => PLACES.map((place) => place.split('@').join(it)));

function known(text, extension) {
    const found = byParser(text, extension);
    return found && (extension === '.ts' || byTypescript(text, extension)) ? found : null;
}

export function run() {
    if (!parsersAreThere('pairs')) return 0;
    const all = [...expressions(), ...statements()].flatMap((text) => EXTENSIONS.map((extension) => ({ text, extension })));
    const found = all.map((it) => ({ ...it, known: known(it.text, it.extension) })).filter((it) => it.known);
    return compare('pairs', found.map((it) => ({ ...it, isModule: it.known.isModule })));
}
