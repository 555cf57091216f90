/* Heads of generic arrow functions in the places of an expression, and type arguments that begin with a function type, each with
 * slashes beside them. Those that TypeScript's parser refuses are left out. */
import { compare } from './program.mjs';
import { byParser, parsersAreThere } from './parsers.mjs';

/* A type parameter. */
const PARAMETERS = [
    'T', 'const T', 'in T', 'out T', 'in out T', 'T extends A', 'T = A', 'T extends A = B', 'const T extends A', 'T extends keyof A',
    'T extends A extends B ? C : D', 'T extends { a: B; c: D }', 'T extends (a: B) => C', 'T extends A[]', 'T = { a: B, c: D }',
    'T extends A<B>', 'T extends A<B<C>>', 'T = A extends B ? C : D', 'T extends "a" | `b`', 'T\nextends A', 'T extends\nA', 'T\n= A',
    'const\nT', 'get extends A', 'async extends A', 'of', 'T extends (A)', 'T extends [A, B]', 'T extends new () => A', 'T extends typeof a',
];

/* A second or third one. */
const FURTHER = ['U', 'K extends keyof T', 'U = B', 'U extends A = B', 'const U extends A', 'U\nextends B', 'U extends A extends B ? C : D', 'out U'];

const lists = () => [
    ...PARAMETERS,
    ...PARAMETERS.map((it) => `${it},`),
    ...PARAMETERS.flatMap((it) => FURTHER.map((other) => `${it}, ${other}`)),
    ...['T', 'T extends A', 'T = A'].flatMap((it) => FURTHER.flatMap((other) => FURTHER.map((last) => `${it}, ${other},\n${last.replaceAll('U', 'V').replaceAll('K', 'L')}`))),
];

/* What follows `>`, or what is between `async` and `<`, and around. */
const FUNCTIONS = [
    (list) => `async <${list}>(a: T) => { return /re/ }`,
    (list) => `<${list}>(a: T) => { return /re/ }`,
    (list) => `async <${list}>() => a / b`,
    (list) => `async <${list}>(a: T, b?: A): Promise<T> => {}`,
    (list) => `async<${list}>\n(a) => ({ b: c / d })`,
];

/* Where such a function may be, which stands for `@`. */
const PLACES = [
    'x = @\n/re/.test(y)', 'x = { a: @, b: /re/ }', 'x = { a: @, b() { return /re/ } }', 'x = { [@]: /re/ }', 'x = { a: b < c, d: @, e: /re/ }',
    'f(@, /re/)', '[@, /re/]', 'c ? @ : /re/', '(c ? @ : /re/)', '[c ? @ : /re/]', 'f(c ? @ : /re/)', 'c ? /re/ : @', 'x = c ? d ? @ : /re/ : e / f',
    '({ a = @ } = {}, /re/)', 'let { a = @, b = /re/ } = c / d', 'let [a = @, b = /re/] = c / d', 'function g(a = @, b = /re/) { return c / d }',
    'let a = @, b = /re/', 'enum E { a = @, b = /re/.lastIndex }', 'class A { a = @; b = /re/ }', 'class A { a = @\nb = /re/ }',
    'class A { static a = @; c() { return /re/ } }', 'function g() { return @ }\n/re/.test(y)', 'export default @\n/re/.test(y)',
    'class A extends f(@) { a = /re/ }', '`${@}${/re/}` / 2', 'x = (@) as A / 2', 'x = (@) satisfies A / 2', 'x = (@)! / 2',
    '(@)(/re/) / 2', 'if (@) /re/.test(y)', 'a = b ?? (@)\n/re/.test(y)', 'switch (a) { case (@): /re/.test(y) }', 'for (x of [@]) /re/.test(x)',
    'let k = a < b, l = @, m = /re/', 'x = { a: f<A>(@), b: /re/ }', 'x = () => @\n/re/.test(y)', 'f(a => c ? @ : /re/)',
];

/* Type arguments that begin with a function type, heritages, and names of exports that are strings. */
const TYPES = [
    '<T>() => T', '<T>(a: T) => T', '<T, U>(a: T, b?: U) => T', '<T extends A>() => T', '<T extends A<B>>() => T', '<const T>(a: T) => { b: T }',
    '<T>(...a: T[]) => a is T', '<T extends A extends B ? C : D>(a: T) => A<T>', '<T>() => T, A', '<T>() => <U>() => U', '{ f: <T>(x: T) => T }',
];

const TYPE_PLACES = [
    'f<@>(x) / 2', 'f<@> / x', 'x = f<@>(x) / 2 / 3', 'new A<@>() / 2', 'a?.b<@>(c) / 2', 'f<@>`a` / 2', '[f<@>(a), /re/]', '({ a: f<@>(a), b: /re/ })',
    'c ? f<@>(x) : /re/', 'class A extends B<@> {}\n/re/.test(x)', 'class A extends B<@> { a = /re/ }', 'x = class extends a.b<@> { c = d / e } / 2',
    'class A extends B<@> implements C<@> {}\n/re/.test(x)', 'class A implements B<@> { a = /re/ }', 'interface A extends B<@> {}\n/re/.test(x)',
    '@a<@>() class B { c = /re/ }', 'let a: B<@> = /re/', 'x as A<@>\n/re/.test(y)', 'async<@>(x) / 2',
];

const SHIFTS = [
    'a << b > /re/.lastIndex', 'a << b > c / d', 'a << b > (c) / d', 'a << (b / c) > d / e', 'f(a << b, c = /re/)', '[a << b, /re/]', 'x = { a: b << c, d: /re/ }',
    'x = { a: b << c, d() { return /re/ } }', 'x = { a: b << c, d / e }', 'c ? a << b : /re/', 'let a = b << c, d = /re/', 'a << b >> c / d', 'a << b >>> /re/.lastIndex',
    'a << b\n/re/.test(c)', 'a << b; /re/.test(c)', 'if (a << b) /re/.test(c)', 'for (let a = b << c; /re/.test(a);) a / b', 'switch (a) { case b << c: /re/.test(a) }',
    'a << b >= /re/.lastIndex', 'a++ << b > c / d', 'x = a << 1 | b / c', '`${a << b}${/re/}`', 'async < b / c', 'async < /re/.lastIndex', 'f(async < b, /re/)',
    'x = { a: async < b, c: /re/ }', 'x = { a: async < b, get c() { return /re/ } }', 'x = { a: async < b, get extends() { return /re/ } }',
    'x = { a: b < c, get extends() { return /re/ } }', 'x = { a: b < c, set d(e) { f / g } }', 'x = { a: b < c, async d() { return /re/ } }', 'x = { a: b < c, d, e: /re/ }',
    'c ? async < b : /re/', 'if (async < b) /re/.test(c)', 'async < b\n/ c / d', 'async < b > c / d',
];

const NAMES = [
    'export * as "a" from "b"\n/re/.test(x)', 'export * as a from "b"\n/re/.test(x)', 'export * as from from "b"\n/re/.test(x)', 'export * as as from "b"\n/re/.test(x)',
    'import * as as from "b"\n/re/.test(x)', 'import as from "b"\n/re/.test(x)', 'import as, { b } from "b"\n/re/.test(x)', 'import as, * as b from "b"\n/re/.test(x)',
    'export { a as "b" } from "c"\n/re/.test(x)', 'export { "a" as "b" } from "c"\n/re/.test(x)', 'import { "a" as b } from "c"\n/re/.test(x)',
    'export * as "a" from "b" with { type: "json" }\n/re/.test(x)', 'export * as default from "b"\n/re/.test(x)', 'export * from "b"\n/re/.test(x)',
];

const EXTENSION = '.ts';

const filled = (places, it) => places.map((place) => place.split('@a<').join('\0').split('@').join(it).split('\0').join('@a<'));

function texts() {
    const functions = lists().flatMap((list) => FUNCTIONS.map((it) => it(list)));
    const types = TYPES.flatMap((it) => filled(TYPE_PLACES, it));
    return [...functions.flatMap((it) => filled(PLACES, it)), ...types, ...SHIFTS, ...NAMES];
}

export function run() {
    if (!parsersAreThere('heads')) return 0;
    const known = texts().map((text) => ({ extension: EXTENSION, text, known: byParser(text, EXTENSION) })).filter((it) => it.known);
    return compare('heads', known.map((it) => ({ ...it, isModule: it.known.isModule })));
}
