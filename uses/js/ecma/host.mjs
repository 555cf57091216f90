// The module of WebAssembly: how a call goes into it and comes back.
import { EcmaError } from './error.mjs';
import { OPTION_BITS, asked, sizeOf } from './options.mjs';

// Statuses of the library (uses/c/ecma.h).
const DONE = 0;
export const NOT_CLEAN = 4;
export const NO_ROOM = 6;
const CODES = { 2: 'NO_SLASH', 3: 'NOT_UTF8', 5: 'OUT_OF_MEMORY', 7: 'BAD_OPTION', 8: 'TOO_LONG' };

/** What an instance may hold between calls: a memory of WebAssembly never shrinks, so a larger one is let go. */
const KEPT_BYTES = 64 << 20;
/** What an address of 32 bits reaches, less the last pages. */
const MOST_BYTES = 0xfff00000;

const encoder = new TextEncoder();
const decoder = new TextDecoder('utf-8', { ignoreBOM: true });

let compiled, exports, bytes;

/** Takes a module for all calls from here on. */
export function begin(module) {
    start(module);
    compiled = module;
}

function start(module) {
    const made = new WebAssembly.Instance(module).exports;
    if (!made.ecma_js_tokens) throw new EcmaError('NOT_LOADED', 'the module is not that of this package');
    exports = made;
    bytes = new Uint8Array(exports.memory.buffer);
}

/** Whether there is a module to make calls of. */
export const isLoaded = () => compiled !== undefined;

/** How many bytes the module holds now. */
export function memory() {
    return exports ? exports.memory.buffer.byteLength : 0;
}

/** The memory grows, which leaves the views of before without bytes. */
function refresh() {
    if (bytes.buffer !== exports.memory.buffer) bytes = new Uint8Array(exports.memory.buffer);
}

export function wordsAt(at, count) {
    return new Uint32Array(exports.memory.buffer, at, count);
}

export function stringAt(at, length) {
    refresh();
    return decoder.decode(bytes.subarray(at, at + length));
}

/** Room for so many bytes, until the call returns. */
export function room(size) {
    const at = size > MOST_BYTES ? 0 : exports.ecma_js_room(size) >>> 0;
    if (at === 0) throw new EcmaError('OUT_OF_MEMORY');
    return at;
}

function textRoom(size) {
    if (size > MOST_BYTES) throw new EcmaError('TOO_LONG');
    const at = exports.ecma_js_begin(size) >>> 0;
    if (at === 0) throw new EcmaError('OUT_OF_MEMORY');
    refresh();
    return at;
}

/** Writes a string as UTF-8, with U+FFFD for each half of a surrogate pair; answers where it stands and how long it is. */
function putString(text) {
    // Most code is ASCII: one byte a unit at first, and for what is left then three.
    const at = textRoom(text.length);
    const { read, written } = encoder.encodeInto(text, bytes.subarray(at, at + text.length));
    if (read === text.length) return [at, written];
    const end = written + 3 * (text.length - read);
    textRoom(end);
    const rest = encoder.encodeInto(text.slice(read), bytes.subarray(at + written, at + end));
    if (read + rest.read !== text.length) throw new EcmaError('OUT_OF_MEMORY');
    return [at, written + rest.written];
}

function putBytes(text) {
    const size = sizeOf(text), at = textRoom(size);
    bytes.set(text, at);
    return [at, size];
}

/** Places in units of a string become places in bytes. */
function bytePlaces(text, places) {
    const made = new Uint32Array(places.length);
    for (let i = 0, unit = 0, byte = 0; i < places.length; i++) {
        while (unit < places[i]) {
            const point = text.codePointAt(unit);
            byte += point < 0x80 ? 1 : point < 0x800 ? 2 : point < 0x10000 ? 3 : 4;
            unit += point < 0x10000 ? 1 : 2;
        }
        made[i] = byte;
    }
    return made;
}

/** A text inside the module, and how it is to be read. */
class Request {
    constructor(text, { bits, places }) {
        const isString = typeof text === 'string';
        const [at, length] = isString ? putString(text) : putBytes(text);
        this.bits = bits;
        this.at = at;
        this.length = length;
        /** Whether its places in bytes are not those in units. */
        this.isWide = isString && length !== text.length;
        this.slashes = this.isWide && places.length ? bytePlaces(text, places) : places;
        this.slashesAt = 0;
    }

    /** Forgets all rooms, and puts the places of the slashes behind the text. */
    renew() {
        exports.ecma_js_text(this.length);
        if (this.slashes.length === 0) {
            this.slashesAt = this.at;
            return;
        }
        this.slashesAt = room(4 * this.slashes.length);
        wordsAt(this.slashesAt, this.slashes.length).set(this.slashes);
    }

    /** Makes a call of the library; answers DONE, NOT_CLEAN or NO_ROOM, and throws what else it came to. */
    ask(name, ...rooms) {
        const status = exports[name](this.at, this.length, this.bits, this.slashesAt, this.slashes.length, ...rooms);
        if (status === DONE || status === NOT_CLEAN || status === NO_ROOM) return status;
        throw new EcmaError(CODES[status] ?? 'STOPPED');
    }

    /** How many rows or bytes the call before had. */
    get number() {
        return exports.ecma_js_number() >>> 0;
    }

    /** Makes places in units of what stands in the first `columns` words of each row, where the text asks for it. */
    toUnits(at, rows, step, columns) {
        if (this.isWide) exports.ecma_js_units(this.at, this.length, at, rows, step, columns);
    }
}

/**
 * Does `work` with a text inside the module. Whatever comes of it, the next call finds a module that is in order. The options that there
 * are, and their bits, are those of `optionBits`.
 */
export function withText(text, options, work, optionBits = OPTION_BITS) {
    if (!compiled) throw new EcmaError('NOT_LOADED');
    const how = asked(text, options, optionBits);
    try {
        // The memory of a new instance may be more than there is.
        if (!exports) start(compiled);
        const request = new Request(text, how);
        request.renew();
        return work(request);
    } catch (error) {
        if (error instanceof EcmaError) throw error;
        // A trap leaves the stack of the module where it was, so that this instance is of no use any more.
        exports = bytes = undefined;
        throw new EcmaError(error instanceof RangeError ? 'OUT_OF_MEMORY' : 'STOPPED', undefined, { cause: error });
    } finally {
        if (exports && exports.memory.buffer.byteLength > KEPT_BYTES) exports = bytes = undefined;
    }
}

/**
 * Does `use` with the rows of a call, `width` words each, of which `convert` makes places in units. There is room for as many as
 * `rowsFor` says at first; where they are more the call is made again. The rows are gone behind `use`.
 */
export function withRows(name, width, rowsFor, convert, text, options, use) {
    return withText(text, options, (request) => {
        let most = rowsFor(request.length);
        let at = room(most * width * 4);
        if (request.ask(name, at, most) === NO_ROOM) {
            most = request.number;
            request.renew();
            at = room(most * width * 4);
            request.ask(name, at, most);
        }
        const count = request.number;
        convert(request, at, count);
        return use(wordsAt(at, count * width), request);
    });
}
