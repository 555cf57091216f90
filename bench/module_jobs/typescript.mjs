// Forms of TypeScript and real files, with TypeScript's tree.
import { corpus, differs, installed, rowsOf, textOf, unitsOf } from './rows.mjs';

/** Forms that real files seldom have; what TypeScript 4.8 does not read is in tokens_tests alone. */
const FORMS = [
 'import type A from "a"; import type { B } from "b"; import type * as C from "c"; import type, { x } from "t"; import type from "u";',
 'import x = require("y"); import type z = require("w"); export import q = require("r"); import m = A.B.C; export import n = A.B;',
 'import { type A, type B as C, D } from "e"; export { type A, type B as C, D, type as, type as as, type as foo } from "f"; export type { G, H as I }; export type * from "j"; export type * as k from "l"',
 'declare module "a" { export const x: number; }\ndeclare module "b";\ndeclare global { }\ndeclare namespace N { }\nexport {}',
 'export interface A { a: 1 } export type B = { b: 2 }; export type C<T, U> = T; export declare const d: Map<string, number, A>, e: number; export declare function f(): void; export abstract class G {} export declare abstract class H {} export enum I {} export const enum J {} export declare enum K {} export namespace L.M {} export declare namespace O {} export declare class P<T, U> {}',
 'export const a = f<A, B, C>(1), b = <T, U = string>(x: T) => x, c = new Map<A, B<C, D>>(), d: (a: A, b: B) => C = e, g!: number, h = x as Map<A, B, C>, i = 2\nexport default interface Foo {}',
 'export default abstract class A {}', 'export default class implements B {}', 'export = x;', 'export as namespace Foo;', 'export default @dec class {}', '@dec export class B {}',
 'export let a: { b: 1, c: 2 } = d, e: [x, y], f: A extends B<C, D> ? E : F = g\nfoo, bar', 'type X = import("a").B; let y: typeof import("c"); function f(x: import("d").E<F>): import("g") {}',
 'import a, { type b } from "c" with { type: "json" }', 'export function f(): void; export function f(a: string): void; export function f(a?: string) {}', 'export const x = 1 as const, y = <any>z, v = 3', 'export declare const {a, b: c}: T, d: U', 'import json from "./a.json" with { type: "json", "a": "b" };\nimport {} from "q" assert {}', 'export const enumx = 1, y: keyof typeof z = 1, t = a < b && c > d, u = 1',
 'class A { import(x) {} }', 'class A { static import() {} get import() {} set import(a) {} async import() {} *import() {} async *import() {} private import() {} import = 1; static import; import; import: string; import?(): void; import<T>(x: T) {} }', 'class A { a = 1\nimport(b) {} c: string\nimport(d): void; e = import("f"); g: import("h").I; [import("j")] = 1; static { import("k") } }', 'abstract class A { abstract import(a: string): void; protected abstract get import(): number; declare import: 1; @b(import("c")) import() {} }', 'declare class A { import(a: string): void; import: import("b").C }',
 '({ import(a) {} })', 'a = { import: 1, async import() {}, *import() {}, async *import() {}, get import() {}, set import(b) {}, "c": import("d"), [import("e")]: import("f"), ...import("g"), h() { import("i") } }', 'let { import: a, b: { import: c } } = d; ({ import: a } = b)', 'enum A { import = 1, b = 2 }', 'f({ import(a) { return { import() {} } } }, import("b"), class { import() { import("c") } })',
 'interface A { import(x: string): void }', 'interface A { import(x); import: string; import?(): import("b").C; get import(): string; set import(a); a: string\nimport(c): d\ne: import("f").G\nh: I |\nimport("j").K; l: keyof import("m").N; o: typeof import("p"), import(): void, [q: string]: import("r").S; t(u: import("v")): u is import("w").X; (y: import("z")): import("aa"); new (b: import("bb")): import("cc") }', 'type A = { import(): void }; type B = { import: 1, readonly import: 2; import(a: { import(): import("b").C }): void }',
 'type A = { [B in import("c").D as import("e").F<B>]: import("g").H[B] }; type I = { readonly j: readonly import("k").L[]; m?: import("n").O }', 'type A<B extends import("c").D = import("e").F> = B extends import("g").H ? import("i").J : import("k").L', 'type A = [import("b").C, d: import("e").F, ...import("g").H[]] | (import("i").J) & (() => import("k").L) | import("m").N[import("o").P]; type Q = `a${import("b").C}d`; type R = { s: `a${import("b").C}` }; type T = { s: { t: import("u").V }[] }',
 'let a: import("b").C = import("d"), e = f as import("g").H, i = <import("j").K>l; function q(r: import("s").T = import("u"), v?: typeof import("w")): asserts r is import("x").Y { return import("z") }', 'const a = (b: import("c").D): import("e").F => import("g"), h = async (i: import("j").K) => import("l"), m = function (n: import("o").P) { return import("q") }', 'let a = b ? import("c") : import("d"), e = typeof import("f"), g = { h: import("i") }, j = (k, import("l")), m = [import("n")], o = `${import("p")}`; label: import("q"); switch (a) { case import("r"): import("s"); default: import("t") }',
 'f<import("a").B>(c); new D<import("e").F>(); f<typeof import("g"), keyof typeof import("gg")>(h); f<A | import("aa").B>(c); class I extends J<import("k").L> { m: N<import("o").P, import("q").R> }', 'class A<B extends import("c").D> implements E<import("f").G> { h<I = import("j").K>(l: I): import("m").N {} o = import("p"); async *import() {} }', 'namespace A { export type B = import("c").D; export const e = import("f"); interface G { import(h: string): void } }', 'class A extends (await import("b")) { import() {} }', 'if (a) { import("b") } else import("c"); for (const d of import("e")) { import("f") } while (import("g")) import("h"); do import("i"); while (import("j"))', 'import("a").then(b => { import("c") }, { import() {} }); import.meta.url; import("d")\n{ import("e") }', 'function a() { return { import() {} } } () => ({ import() {} }); export default { import() { import("b") } }', 'export class A { import() {} } export const b = { import() {} }, c = import("d"); export default class { import() {} }', 'declare module "a" { import b from "c"; export * from "d"; type E = import("f").G; export function h(i: import("j").K): void }', 'declare global { interface A { b: import("c").D } var e: typeof import("f") }',
 'export const f = async <T,>(x: T, y) => {}, g = 2', 'export const f = function <A, B, C>(x) {}, g = 2', 'export const x = class<A, B, C> {}, y = 3', 'export const x: A<B, C>[] = [], y: Array<Array<Map<A, B, C>>> = [], z = 1',
];

/** What a tree has: of each import the places of statement and specifier, and its form; of each export its names. */
const reader = (ts) => {
    const K = ts.SyntaxKind;
    return (s) => { const t = ts.createSourceFile('a.ts', s, ts.ScriptTarget.Latest, true); const I = [], E = [];
      const ids = (n) => ts.isIdentifier(n) ? [n] : n.elements.flatMap((e) => ts.isOmittedExpression(e) ? [] : ids(e.name));
      const st = (n) => n.getStart(t); const add = (n, form, spec, type, end) => I.push([st(n), spec ? st(spec) : -1, spec ? spec.end : -1, form, type ? 'type' : 'value']);
      const has = (n, k) => (n.modifiers ?? []).some((m) => m.kind === k);
      for (const n of t.statements) {
        if (ts.isImportDeclaration(n)) add(n, 'static', n.moduleSpecifier, n.importClause?.isTypeOnly);
        else if (ts.isImportEqualsDeclaration(n)) { if (n.moduleReference.kind === K.ExternalModuleReference) add(n, 'equals', n.moduleReference.expression, n.isTypeOnly); if (has(n, K.ExportKeyword)) E.push([st(n.name), n.name.end, st(n.name), n.name.end, 'value']); }
        else if (ts.isExportDeclaration(n)) { if (n.moduleSpecifier) add(n, 'reexport', n.moduleSpecifier, n.isTypeOnly); const c = n.exportClause; if (c) { if (ts.isNamespaceExport(c)) E.push([st(c.name), c.name.end, -1, -1, n.isTypeOnly ? 'type' : 'value']); else for (const e of c.elements) { const l = e.propertyName ?? e.name; E.push([st(e.name), e.name.end, st(l), l.end, n.isTypeOnly || e.isTypeOnly ? 'type' : 'value']); } } }
        else if (ts.isModuleDeclaration(n) && ts.isStringLiteral(n.name)) add(n, 'ambient', n.name, false);
        else if (ts.isExportAssignment(n)) { if (!n.isExportEquals) { const p = s.indexOf('default', st(n)); E.push([p, p + 7, -1, -1, 'value']); } }
        else if (has(n, K.ExportKeyword)) { const type = n.kind === K.InterfaceDeclaration || n.kind === K.TypeAliasDeclaration ? 'type' : 'value'; if (has(n, K.DefaultKeyword)) { const p = n.modifiers.find((m) => m.kind === K.DefaultKeyword).getStart(t); E.push([p, p + 7, n.name ? st(n.name) : -1, n.name ? n.name.end : -1, type]); } else if (ts.isVariableStatement(n)) for (const d of n.declarationList.declarations) for (const x of ids(d.name)) E.push([st(x), x.end, st(x), x.end, type]); else { let nm = n.name; if (nm) E.push([st(nm), nm.end, st(nm), nm.end, type]); } }
      }
      const go = (n) => { if (ts.isCallExpression(n) && n.expression.kind === K.ImportKeyword) { const a = n.arguments[0]; I.push([st(n), a && ts.isStringLiteral(a) ? st(a) : -1, a && ts.isStringLiteral(a) ? a.end : -1, 'call', 'value']); } else if (n.kind === K.ImportType) { const a = n.argument.literal; const p = s.indexOf('import', st(n)); I.push([p, a ? st(a) : -1, a ? a.end : -1, 'call', 'type']); } else if (n.kind === K.MetaProperty && n.keywordToken === K.ImportKeyword) I.push([st(n), -1, -1, 'meta', 'value']); ts.forEachChild(n, go); }; go(t);
      I.sort((a, b) => a[0] - b[0]); E.sort((a, b) => a[0] - b[0]); return { I, E }; };
};

export async function run() {
    const ts = installed('typescript/lib/typescript.js', 'typescript');
    if (!ts) return 0;
    const read = reader(ts);
    const files = corpus(['.ts', '.mts', '.cts']).map((it) => [it, textOf(it)]).filter(([, text]) => text !== undefined);
    const texts = [...FORMS.map((text) => ['form', text]), ...files];
    let imports = 0, exports = 0, differ = 0;
    rowsOf(texts.map(([, text]) => text), true).forEach((rows, i) => {
        const [name, text] = texts[i], unit = unitsOf(text), wanted = read(text);
        const kind = (isType) => (isType ? 'type' : 'value');
        const gotImports = rows.imports.map((it) => [unit(it.statement[0]), ...it.specifier.map(unit), it.form, kind(it.isType)]);
        const gotExports = rows.exports.map((it) => [...it.name.map(unit), ...it.local.map(unit), kind(it.isType)]);
        imports += gotImports.length;
        exports += gotExports.length;
        if (differs(`${name}: import`, text, wanted.I, gotImports) || differs(`${name}: export`, text, wanted.E, gotExports)) differ++;
    });
    console.log(`typescript: ${texts.length} texts, ${imports} imports, ${exports} exports: ${differ} differ from TypeScript's tree`);
    return differ;
}
