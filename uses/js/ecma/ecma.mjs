// A lexer of ECMAScript and TypeScript: tokens, comments, errors, imports and the canonical text of a text. Its module of WebAssembly is
// a file beside this one.
import { EcmaError, Kind, canonical, comments, cook, count, errors, imports, memory, tokenArray, tokenRows, tokens } from './calls.mjs';
import { loadSync, loader } from './load.mjs';

export { EcmaError, Kind, canonical, comments, cook, count, errors, imports, loadSync, memory, tokenArray, tokenRows, tokens };

// A module that uses SIMD, which engines without it do not accept.
const SIMD_PROBE = [0, 97, 115, 109, 1, 0, 0, 0, 1, 5, 1, 96, 0, 1, 123, 3, 2, 1, 0, 10, 10, 1, 8, 0, 65, 0, 253, 15, 253, 98, 11];

/** Where the module stands that this engine can run. Bundlers that copy what code names find both files by these two expressions. */
function besideThisFile() {
    if (WebAssembly.validate(new Uint8Array(SIMD_PROBE))) return new URL('./ecma.wasm', import.meta.url);
    return new URL('./ecma-plain.wasm', import.meta.url);
}

/** Loads the module: without an argument the file beside this one. */
export const load = loader(besideThisFile);
