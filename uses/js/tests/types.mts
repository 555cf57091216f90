// What TypeScript is to accept of the package, strictly and without the DOM's library; types.test.mjs asks it.
import { EcmaError, Kind, errors, imports, load, loadSync, tokenRows, tokens, type Diagnostic, type ImportSpecifier, type Token } from 'fintaluy';
import { Kind as same } from 'fintaluy/kinds';
import { tokenizer } from 'fintaluy/acorn';
import { load as inside, type Options } from 'fintaluy/inline';
import { load as beside } from 'fintaluy/separate';

const say = (...all: unknown[]) => void all;

await load();
await inside();
await beside('https://localhost/ecma.wasm');
await load(new Uint8Array(1));
await load(new ArrayBuffer(1));
loadSync(new Uint8Array(1));
const options: Options = { strict: true };
for (const token of tokens('a', { module: true, slashes: new Uint32Array(0) })) {
    const one: Token = token;
    const kind: number = one.kind === Kind.STR ? same.STR : one.kind;
    const start: number = kind + one.start;
    const value: string | undefined = typeof one.value === 'string' ? one.value : undefined;
    if (one.type === 'string') say(start, value);
}
const [found, , facade] = imports('import "a"', 'file.js');
const first: ImportSpecifier | undefined = found[0] ?? imports('', { module: false, commonjs: true })[0][0];
const name: string | undefined = first?.n;
const rows: Uint32Array = tokenRows(new Uint8Array(1));
const wrong: Diagnostic[] = errors('', options);
try {
    say(name, facade, rows, wrong);
} catch (error) {
    if (error instanceof EcmaError && error.code === 'TOO_LONG') say(error.message);
}
for (const { type, value } of tokenizer('a', { name: 1, num: 2 })) say(type + 1, value);

// @ts-expect-error: there is no such option
tokens('a', { typescipt: true });
// @ts-expect-error: a text is a string or bytes
tokens(1);
// @ts-expect-error: there is no such code
if (new EcmaError().code === 'NO_CODE') say();
// @ts-expect-error: a number is nothing to load
await load(42);
// @ts-expect-error: nor is it a module
loadSync(42);
// @ts-expect-error: an address is not loaded at once
loadSync('https://localhost/ecma.wasm');
