/* Types of TypeScript in the places where one may be, each with slashes beside it; those that its parser refuses are left out. */
import { compare } from './program.mjs';
import { byParser, parsersAreThere } from './parsers.mjs';

const TYPES = [
    'A', 'A[]', 'A["b"]', 'A.B', 'A<B>', 'A<B<C>>', 'A<B>[]', 'A.B<C>["d"]', 'A<() => B>', 'A<{ a: B<C> }>', 'A | B', 'A & B', 'A, B',
    'keyof A', 'typeof a', 'typeof a.b', 'typeof a<B>', 'readonly A[]', 'unique symbol', 'import("a").B', 'this', 'void', 'null',
    'undefined', 'never', 'bigint', 'symbol', '"a"', '1', '-1', '`a`', '`a${B}c`', '(A)', '(A | B)[]', '({ a: B })', '[]', '{}',
    '() => void', '(a: B) => C', '(a?: B) => a is C', 'asserts a', '() => { a: B }', '() => keyof A', '() => A extends B ? C : D',
    'new () => A', 'abstract new (...a: B) => C', '{ a: B }', '{ a: B, c: D }', '{ a: B\nc: D }', '{ a: () => B }', '{ [a: string]: B }',
    '{ (a): b; new (c): d; e?(): f; get g(): h }', '{ readonly [K in keyof T]?: U }', '{ -readonly [K in T as U]-?: V }',
    '[a: B, b?: C, ...d: E]', '[A, B?, ...C[]]', 'A extends B ? C : D', 'A extends (infer B)[] ? B : C', 'A extends B ? () => C : keyof D',
    'A extends B ? keyof C : D', 'A extends B ? C extends D ? E : F : keyof G',
];

/* Where a type may be, which stands for `@`. */
const PLACES = [
    'f<@>(x) / 2 / 3', 'x = f<@>(x) / 2', 'a?.b<@>(c) / 2', 'f<@>`a` / 2', 'new A<@>(x) / 2', '[f<@>(a), b / c]',
    '({ a: f<@>(a), b: /re/ })', '`${f<@>(x)}` / 2', 'c ? f<@>(x) : /re/', 'c ? (a: @): @ => b : /re/',
    'x as @\n/re/.test(y)', 'x! as @ as @ / 2', 'a = b as @, c = /re/', 'let a = (x as @) / 2', '(a as @) = /re/', 'if (a as @) /re/.test(b)',
    'for (const a of b as @) /re/.test(a)', 'try {} catch (e: any) { (e as @) / 2 }', '<@>x / 2',
    'let a: @ = b / c', 'let a: @\n/re/.test(b)', 'let a: @, b: @ = /re/', 'declare let a: @\n/re/.test(b)',
    'let { a = /re/ }: @ = b / c', 'let [a = b / c]: @ = /re/',
    'function f(a: @, b = /re/): @ { return /re/ }', 'let f = (a: @): @ => /re/', 'function f<T extends @ = @>(a: T) { return a / b }',
    'let f = <T extends @>(a: T) => /re/', 'async function f(): Promise<@> { await /re/ }',
    'class A { a: @ = /re/; b(c: @): @ { return d / e } static f: @\ng = /re/ }', 'abstract class A { abstract a: @; abstract b(): @\nc = /re/ }',
    'class A extends B<@> { a = /re/ }', 'class A implements B<@> { a = /re/ }',
    'type A = @\n/re/.test(x)', 'type A<T extends @> = T\n/re/.test(x)', 'interface A { a: @; b(c: @): @ }\n/re/.test(x)',
    'export type B = @\n/re/.test(x)',
];

const EXTENSION = '.ts';

export function run() {
    if (!parsersAreThere('types')) return 0;
    const texts = TYPES.flatMap((type) => PLACES.map((place) => place.split('@').join(type)));
    const known = texts.map((text) => ({ extension: EXTENSION, text, known: byParser(text, EXTENSION) })).filter((it) => it.known);
    return compare('types', known.map((it) => ({ ...it, isModule: it.known.isModule })));
}
