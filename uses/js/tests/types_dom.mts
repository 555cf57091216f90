// What TypeScript is to accept besides where the DOM's library is there; types.test.mjs asks it.
import { load, loadSync } from 'fintaluy';

await load(new URL('https://localhost/ecma.wasm'));
await load(await fetch('https://localhost/ecma.wasm'));
const module: WebAssembly.Module = await WebAssembly.compile(new Uint8Array(1));
await load(module);
loadSync(module);
const source: BufferSource = new Uint8Array(1);
await load(source);
loadSync(source);
