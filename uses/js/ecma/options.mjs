// How a text is to be read: the options, and the places of its slashes. All that is read of objects of the caller is read here.
import { EcmaError } from './error.mjs';

// Options of the library (uses/c/ecma.h).
export const OPTION_BITS = { typescript: 1, module: 2, strict: 4 };
const SLASHES_BY_FLAG = 8, SLASHES_BY_ROLE = 16;

const SLASH = 47, NO_PLACES = [];

const badOption = (message, more) => new EcmaError('BAD_OPTION', message, more);
const isAbsent = (value) => value === undefined || value === null;

/** Whether there are no options. `texts.map(count)` passes a number in their place. */
const areNone = (options) => isAbsent(options) || typeof options === 'number';

/** What `read` answers. An error that an object of the caller throws is the cause of one of this package. */
function reading(read) {
    try {
        return read();
    } catch (cause) {
        throw badOption('an option threw an error when it was read, which is the `cause`', { cause });
    }
}

/** The fields of options themselves, without those that are inherited, as of a changed `Object.prototype`. */
export function ownOptions(options) {
    if (areNone(options)) return { __proto__: null };
    if (typeof options !== 'object') throw badOption('the options are not an object');
    return reading(() => ({ __proto__: null, ...options }));
}

function bitsOf(own, optionBits) {
    let bits = 0;
    for (const name of Object.keys(own)) {
        if (name === 'slashes') continue;
        if (!Object.hasOwn(optionBits, name)) throw badOption(`there is no option ${name}`);
        if (own[name] === true) bits |= optionBits[name];
        else if (own[name] !== false && !isAbsent(own[name])) throw badOption(`the option ${name} is neither true nor false`);
    }
    return bits;
}

const typedArray = Object.getPrototypeOf(Uint8Array.prototype);
const typeOfArray = Object.getOwnPropertyDescriptor(typedArray, Symbol.toStringTag).get;
const lengthOfArray = Object.getOwnPropertyDescriptor(typedArray, 'length').get;

/** How many units or bytes a text has, whatever a class of the caller's says. */
export const sizeOf = (text) => (typeof text === 'string' ? text.length : lengthOfArray.call(text));

/** Whether the bytes of an array have gone elsewhere, as by `postMessage`: its length is then 0. */
function isDetached(array) {
    if (typeOfArray.call(array) === undefined) return false;
    try {
        typedArray.keys.call(array);
        return false;
    } catch {
        return true;
    }
}

/** Throws where it is no text. Arrays of other realms, as of node's `vm`, are of another class `Uint8Array`. */
function mustBeText(text) {
    if (typeof text === 'string') return;
    if (typeOfArray.call(text) !== 'Uint8Array') throw new EcmaError('BAD_TEXT');
    if (isDetached(text)) throw new EcmaError('BAD_TEXT', 'the bytes of the text are detached');
}

function lengthOf(slashes) {
    if (typeof slashes === 'string') throw badOption("`slashes` is a string other than 'flag'");
    if (typeof slashes !== 'object') throw badOption("`slashes` is neither 'flag' nor a list of places");
    if (isDetached(slashes)) throw badOption('`slashes` is a list whose bytes are detached');
    const length = reading(() => slashes.length);
    if (!Number.isInteger(length) || length < 0) throw badOption('`slashes` is not a list: it has no length');
    return length;
}

/** The places of a list, copied, once it is known that they ascend and that each lies before `end`. */
function placesOf(slashes, end) {
    const places = [], length = lengthOf(slashes);
    let before = -1;
    for (let i = 0; i < length; i++) {
        const place = reading(() => slashes[i]);
        if (!Number.isInteger(place) || place < 0) throw badOption(`\`slashes[${i}]\` is not a place: those are whole numbers from 0 on`);
        if (place <= before) throw badOption(`\`slashes[${i}]\` is ${place}, which is not above the place before it, ${before}`);
        if (place < end) places.push(place);
        before = place;
    }
    if (before >= end) throw new EcmaError('NO_SLASH');
    return places;
}

/** The bits of the library's options, and the places of slashes, as options have them. */
function readOptions(options, optionBits, end) {
    const own = ownOptions(options), bits = bitsOf(own, optionBits), { slashes } = own;
    if (isAbsent(slashes)) return { bits: bits | SLASHES_BY_ROLE, places: NO_PLACES };
    if (slashes === 'flag') return { bits: bits | SLASHES_BY_FLAG, places: NO_PLACES };
    return { bits, places: placesOf(slashes, end) };
}

const BY_ROLE = { bits: SLASHES_BY_ROLE, places: NO_PLACES };

/** How a text is to be read: bits of the library, and the places of slashes in units of the text, each of them that of a slash. */
export function asked(text, options, optionBits) {
    mustBeText(text);
    if (areNone(options)) return BY_ROLE;
    const how = readOptions(options, optionBits, sizeOf(text));
    // What is read of the caller's objects may be code of the caller's.
    mustBeText(text);
    const unitAt = typeof text === 'string' ? (place) => text.charCodeAt(place) : (place) => text[place];
    if (how.places.some((place) => unitAt(place) !== SLASH)) throw new EcmaError('NO_SLASH');
    return how;
}
