// What tokens say: the values of strings, names, template texts, numbers and regular expressions, of their spellings.
import { Kind } from './kinds.mjs';

const ESCAPE = /\\(?:u\{([\da-fA-F]+)\}|u([\da-fA-F]{4})|x([\da-fA-F]{2})|([0-3][0-7]{0,2}|[4-7][0-7]?)|(\r\n|[^]))/g;
const SINGLE = { n: '\n', r: '\r', t: '\t', b: '\b', v: '\v', f: '\f', '\r\n': '', '\n': '', '\r': '', '\u2028': '', '\u2029': '' };
const LAST_POINT = 0x10ffff;

function unescaped(escape, braced, four, two, octal, single) {
    if (single !== undefined) return SINGLE[single] ?? single;
    if (octal !== undefined) return String.fromCharCode(parseInt(octal, 8));
    const point = parseInt(braced ?? four ?? two, 16);
    return point > LAST_POINT ? '\ufffd' : String.fromCodePoint(point);
}

/** What a string or a name says, of its spelling without quotes. Where an escape is wrong it is what is left of it. */
export function cook(raw) {
    return raw.includes('\\') ? raw.replace(ESCAPE, unescaped) : raw;
}

// The escapes of a template; a wrong one is what the group has.
const TEMPLATE_ESCAPE = /\\(?:u\{0*(?:10[\da-fA-F]{4}|[\da-fA-F]{1,5})\}|u[\da-fA-F]{4}|x[\da-fA-F]{2}|0(?!\d)|[^\dux]|([^]))/g;

/** What a template text says; undefined where an escape is wrong, as it may be in a tagged template. */
export function cookTemplate(raw) {
    const text = raw.includes('\r') ? raw.replace(/\r\n?/g, '\n') : raw;
    if (!text.includes('\\')) return text;
    for (const [, wrong] of text.matchAll(TEMPLATE_ESCAPE)) if (wrong !== undefined) return undefined;
    return cook(text);
}

/** The value of a number, of its spelling. */
export function numberOf(raw) {
    if (raw.length === 1) return raw.charCodeAt(0) - 48;
    const digits = raw.includes('_') ? raw.replaceAll('_', '') : raw;
    return /^0[0-7]+$/.test(digits) ? parseInt(digits, 8) : Number(digits);
}

export function bigIntOf(raw) {
    return BigInt(raw.slice(0, -1).replaceAll('_', ''));
}

export function regexpOf(raw) {
    const end = raw.lastIndexOf('/');
    return { pattern: raw.slice(1, end), flags: cook(raw.slice(end + 1)) };
}

/** Whether a string ends with a quote that closes it, and not with one that is escaped. */
export function isClosed(raw) {
    const last = raw.length - 1;
    if (last < 1 || raw[last] !== raw[0]) return false;
    let backslashes = 0;
    while (raw[last - 1 - backslashes] === '\\') backslashes++;
    return backslashes % 2 === 0;
}

/** A string without its quotes; one that is not closed has the first alone. */
export function withoutQuotes(raw) {
    return isClosed(raw) ? raw.slice(1, -1) : raw.slice(1);
}

/** The value of a token, of its kind and spelling: undefined of an error, and else the spelling where nothing else is said. */
export function valueOf(kind, raw) {
    switch (kind) {
        case Kind.STR: return cook(withoutQuotes(raw));
        case Kind.TEMPLATE: return cookTemplate(raw);
        case Kind.NUM: return numberOf(raw);
        case Kind.BIG_INT: return bigIntOf(raw);
        case Kind.REGEX: return regexpOf(raw);
        case Kind.ERROR: return undefined;
        default: return kind >= Kind.KEYWORD_AWAIT ? cook(raw) : raw;
    }
}
