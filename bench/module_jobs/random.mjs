// Random modules, with acorn's tree.
import { COUNT, SEED, differs, installed, rowsOf } from './rows.mjs';

/** Texts that acorn reads, made of statements that import and export, and of expressions with commas, brackets and calls. */
function randomModules(read) {
    let state = SEED;
    const rnd = (n) => {
        state = (Math.imul(state, 1103515245) + 12345) >>> 0;
        return (state >>> 8) % n;
    };
    const pick = (a) => a[rnd(a.length)];
    let names = 0;
    const name = () => pick(['a', 'from', 'as', 'type', 'async', 'of', 'get', 'meta', 'assert', 'defer', 'source', 'module', 'React', 'lodash', 'declare', 'abstract', 'require', 'namespace', 'set', 'x1']) + (rnd(3) ? '_' + names++ : '' + names++ );
    const imported = () => pick(['a', 'from', 'as', 'type', 'async', 'default', 'if', 'import', 'export', 'class', 'defer', 'source', '"s t"', "'q'"]);
    const bind = () => pick([name(), name(), 'from', 'as', 'type', 'async', 'defer', 'source', 'module', 'React']);
    const str = () => pick(['"a"', "'b'", '"./c.js"', "'d\\u0061'", '""']);
    const nl = () => pick(['', '', ' ', '\n', '/* import "x" */', '// export\n']);
    const sp = () => pick([' ', ' ', '\n', '/* c */', ' // d\n']);
    const expr = (d = 2) => d <= 0 ? pick(['1', 'q', '"s"', '/re,/g', '`t`', 'null']) : pick([
      () => expr(0), () => `f(${expr(d - 1)}, ${expr(d - 1)})`, () => `[${expr(d - 1)}, ${expr(d - 1)}]`, () => `{ a: ${expr(d - 1)}, b }`.replace(/^/, '(').replace(/$/, ')'), () => `import(${str()})`, () => `import(${expr(d - 1)})`, () => `import(${str()}, { with: { type: "json" } })`.replace(/, \{.*/, ')'), () => 'import.meta', () => 'import.meta.url', () => `q < w`, () => `(q, w)`, () => `\`x\${${expr(d - 1)}, ${expr(d - 1)}}y\``, () => `function (a, b = ${expr(d - 1)}) { return ${expr(d - 1)} }`, () => `(a, b) => { let c, d; ${expr(d - 1)} }`, () => `a => ${expr(d - 1)}`, () => `class extends B { import(x) { return ${expr(d - 1)} } static a = 1 }`.replace('import(x)', 'imports(x)'), () => `q ? ${expr(d - 1)} : ${expr(d - 1)}`, () => `new Map(${expr(d - 1)})`, () => `q.import`, () => `typeof\n${expr(d - 1)}`, () => `q\ninstanceof ${expr(0)}`, () => `q++`, () => `q in w`, () => `q > w`, () => `async function () {}`, () => `q >> 2`])();
    const pat = (d = 2) => rnd(2) ? `{ ${Array.from({ length: rnd(4) }, () => pick([() => name(), () => name(), () => `${imported()}: ${target(d - 1)}`, () => `${name()} = ${expr(1)}`, () => `[${expr(1)}]: ${target(d - 1)}`, () => `1: ${target(d - 1)}`, () => `${imported()}: ${target(d - 1)} = ${expr(1)}`])()).join(', ')}${rnd(4) ? '' : (names++, `, ...r${names}`).replace(/^, /, rnd(9) ? ', ' : ', ')} }`.replace('{ ,', '{') : `[ ${Array.from({ length: rnd(4) }, () => pick([() => target(d - 1), () => '', () => `${target(d - 1)} = ${expr(1)}`])()).join(', ')}${rnd(4) ? '' : (names++, `, ...${target(d - 1)}`)} ]`;
    const target = (d) => d <= 0 || rnd(3) ? name() : pat(d);
    const decl = () => rnd(3) ? name() : pat();
    const stmt = () => pick([
      () => `import${sp()}${str()}`, () => `import ${bind()} from ${str()}`, () => `import { ${imported()} as ${bind()} } from${nl()}${str()}`, () => `import * as ${bind()} from ${str()}`, () => `import ${bind()}, { } from ${str()}`, () => `import ${bind()}, * as ${bind()} from ${str()}`, () => `import {} from ${str()}`,
      () => `export * from ${str()}`, () => `export * as ${imported()} from ${str()}`, () => `export {${nl()}${imported()} as ${imported()}${nl()},${imported()}${nl()}} from ${str()}`, () => { const n = name(); return `let ${n}; export { ${n} as ${pick(['u', 'v', 'default', 'if', '"w w"']) + ''} }`; }, () => 'export {}', () => 'export { } from "z"',
      () => `export${sp()}${pick(['let', 'var'])} ${name()}`, () => `export let ${name()} = ${expr()}, ${name()}, ${name()} = ${expr()}`, () => `export const ${pat()} = ${expr()}`, () => `export let ${name()} = ${expr()}, ${pat()} = ${expr()}`,
      () => `export function${nl()} ${name()}() { ${expr()} }`, () => `export async function ${name()}() {}`, () => `export function* ${name()}(a, b) {}`, () => `export async function* ${name()}() {}`, () => `export class ${name()} extends ${pick(['A', '(class { })'])} { a = ${expr()} }`, () => `export class ${name()} { static { ${expr()} } }`,
      () => `export default ${expr()}`, () => `export default function ${pick([name(), ''])}() {}`, () => `export default async function ${pick([name(), ''])}() {}`, () => `export default class ${pick([name(), ''])} {}`, () => `export default async\n(a, b)`, () => `export default (a, b)`,
      () => expr(), () => `{ ${expr()} }`, () => `if (q) { ${expr()} } else ${expr()}`, () => ';', () => `q = { import: 1, export: 2 }`, () => `q.export, q.import(1)`, () => `for (let i = 0, j; i < 1; i++) {}`, () => `let ${name()}, ${name()}`,
    ])();
    const texts = [];
    for (let tried = 0; texts.length < COUNT && tried < 40 * COUNT; tried++) {
        const text = Array.from({ length: 1 + rnd(5) }, () => stmt() + pick([';', '\n', ';\n', '\n'])).join(pick(['', '', '\n']));
        try {
            texts.push([text, read(text)]);
        } catch {
            // Names may be declared twice, and some words are no names.
        }
    }
    return texts;
}

/** What a tree has: of each import the places of statement and specifier, and its form; of each export its names. */
const reader = (acorn, walk) => (s) => { const t = acorn.parse(s, { ecmaVersion: 'latest', sourceType: 'module' }); const I = [], E = []; let facade = true, syntax = false;
      const ids = (p) => p.type === 'Identifier' ? [p] : p.type === 'ObjectPattern' ? p.properties.flatMap((q) => ids(q.type === 'RestElement' ? q.argument : q.value)) : p.type === 'ArrayPattern' ? p.elements.flatMap((q) => q ? ids(q) : []) : p.type === 'AssignmentPattern' ? ids(p.left) : p.type === 'RestElement' ? ids(p.argument) : [];
      const end = (n) => n.source.end;
      for (const n of t.body) {
        if (n.type === 'ImportDeclaration') { syntax = true; I.push([n.start, n.source.start, n.source.end, end(n), 'static']); }
        else if (n.type === 'ExportAllDeclaration') { syntax = true; I.push([n.start, n.source.start, n.source.end, end(n), 'reexport']); if (n.exported) E.push([n.exported.start, n.exported.end, -1, -1]); }
        else if (n.type === 'ExportNamedDeclaration') { syntax = true; if (n.source) I.push([n.start, n.source.start, n.source.end, end(n), 'reexport']);
          for (const x of n.specifiers) E.push([x.exported.start, x.exported.end, ...[x.local.start, x.local.end]]);
          if (n.declaration) { facade = false; const d = n.declaration; const l = d.type === 'VariableDeclaration' ? d.declarations.flatMap((y) => ids(y.id)) : [d.id]; for (const x of l) E.push([x.start, x.end, x.start, x.end]); } }
        else if (n.type === 'ExportDefaultDeclaration') { syntax = true; facade = false; const p = s.indexOf('default', n.start); const id = /Declaration$/.test(n.declaration.type) ? n.declaration.id : null; E.push([p, p + 7, id ? id.start : -1, id ? id.end : -1]); }
        else if (n.type !== 'EmptyStatement') facade = false;
      }
      walk.full(t, (n) => { if (n.type === 'ImportExpression') { const a = n.source; const str = a.type === 'Literal' && typeof a.value === 'string'; I.push([n.start, str ? a.start : -1, str ? a.end : -1, n.end, 'call']); } else if (n.type === 'MetaProperty' && n.meta.name === 'import') { syntax = true; I.push([n.start, -1, -1, n.end, 'meta']); } });
      I.sort((x, y) => x[0] - y[0]); return { I, E, facade, syntax }; };

export async function run() {
    const acorn = installed('acorn/dist/acorn.js', 'random'), walk = installed('acorn-walk/dist/walk.js', 'random');
    if (!acorn || !walk) return 0;
    const texts = randomModules(reader(acorn, walk));
    let imports = 0, exports = 0, differ = 0;
    rowsOf(texts.map(([text]) => text), false).forEach((rows, i) => {
        const [text, wanted] = texts[i];
        const gotImports = rows.imports.map((it) => [it.statement[0], ...it.specifier, it.statement[1], it.form]);
        const gotExports = rows.exports.map((it) => [...it.name, ...it.local]);
        imports += gotImports.length;
        exports += gotExports.length;
        const flags = [rows.isFacade, rows.hasModuleSyntax];
        if (differs('import', text, wanted.I, gotImports) || differs('export', text, wanted.E, gotExports) || differs('flags', text, [wanted.facade, wanted.syntax], flags)) differ++;
    });
    console.log(`random: ${texts.length} modules, ${imports} imports, ${exports} exports: ${differ} differ from acorn`);
    return differ;
}
