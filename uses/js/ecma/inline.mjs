// The package with its module of WebAssembly inside, for bundlers: nothing is fetched. It is the module that every engine can run.
import { EcmaError, Kind, canonical, comments, cook, count, errors, imports, memory, tokenArray, tokenRows, tokens } from './calls.mjs';
import { loadSync, loader } from './load.mjs';
import { MODULE } from './ecma-plain.mjs';

export { EcmaError, Kind, canonical, comments, cook, count, errors, imports, loadSync, memory, tokenArray, tokenRows, tokens };

/** The bytes of the module inside. A loop takes a tenth of the time of `Uint8Array.from`. */
function bytesInside() {
    const text = atob(MODULE), bytes = new Uint8Array(text.length);
    for (let i = 0; i < bytes.length; i++) bytes[i] = text.charCodeAt(i);
    return bytes;
}

/** Loads the module: without an argument the one inside. */
export const load = loader(bytesInside);
