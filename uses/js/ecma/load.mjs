// How a module of WebAssembly is loaded: of a file, an address, bytes, or as it is.
import { EcmaError } from './error.mjs';
import { begin, isLoaded } from './host.mjs';

async function compileResponse(response) {
    if (!response.ok) throw new EcmaError('NOT_LOADED', `the module is not there: ${response.status} ${response.url}`);
    // Streaming asks for the type; a server that does not know it still gives the bytes.
    const type = response.headers.get('content-type') ?? '';
    if (WebAssembly.compileStreaming && type.startsWith('application/wasm')) return WebAssembly.compileStreaming(response);
    return WebAssembly.compile(await response.arrayBuffer());
}

/** A module of node. Bundlers for browsers look for each whose name stands in an `import`, and stop where there is none. */
const ofNode = (name) => import(/* webpackIgnore: true */ /* @vite-ignore */ name);

async function compileUrl(url) {
    // The fetch of node reads no files.
    if (url.protocol !== 'file:' || typeof process === 'undefined') return compileResponse(await fetch(url));
    const { readFile } = await ofNode('node:fs/promises');
    return WebAssembly.compile(await readFile(url));
}

/** What keeps a module from being loaded, as an error of this package. */
function notLoaded(error) {
    return error instanceof EcmaError ? error : new EcmaError('NOT_LOADED', `the module can't be loaded: ${error?.message}`, { cause: error });
}

/** The name of an object's class, which is the same in each realm. To ask for the class `Response` itself takes node 30 ms. */
const classOf = (it) => Object.prototype.toString.call(it).slice('[object '.length, -1);

async function compile(source) {
    const name = classOf(source);
    if (name === 'WebAssembly.Module') return source;
    if (name === 'String' || name === 'URL') return compileUrl(new URL(source, globalThis.location?.href));
    if (name === 'ArrayBuffer' || ArrayBuffer.isView(source)) return WebAssembly.compile(source);
    if (name === 'Response') return compileResponse(source);
    throw new EcmaError('NOT_LOADED', `what \`load\` takes is a URL, bytes, a Response or a compiled module, and not ${name}`);
}

async function loadFrom(source) {
    try {
        begin(await compile(source()));
    } catch (error) {
        throw notLoaded(error);
    }
}

/** Loads of bytes or a compiled module, at once. */
export function loadSync(source) {
    try {
        begin(classOf(source) === 'WebAssembly.Module' ? source : new WebAssembly.Module(source));
    } catch (error) {
        throw notLoaded(error);
    }
}

/**
 * A `load`, which without an argument loads what `first` answers, once. A URL, the bytes, a Response or a compiled module may be given;
 * that module is then taken in place of the one before.
 */
export function loader(first) {
    let loading;
    return (source) => {
        if (source !== undefined) return loadFrom(() => source);
        loading ??= isLoaded() ? Promise.resolve() : loadFrom(first).catch((error) => {
            loading = undefined;
            throw error;
        });
        return loading;
    };
}
