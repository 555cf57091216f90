// limits.test.mjs runs this in processes of their own, with limits in pages as words: at each of them no memory of WebAssembly is larger,
// and each call of the package is made, of strings and of bytes, by both modules. It writes, by limits and then by the calls' names, how
// many were right and how many refused, and what else came of any.
import v8 from 'node:v8';
import * as ecma from '../ecma/ecma.mjs';
import { tokenizer } from '../ecma/acorn.mjs';
import { bytesOf } from './package.mjs';

const encoder = new TextEncoder();
const types = { semi: 'semi', eof: 'eof' };
/** In front of a string: its places in bytes are one more than those in units, of which it has so many. */
const WIDE = '/*é*/', WIDE_UNITS = 5;

const SEMICOLONS = 8_000;
const SLASHES = 12_000, SLASHES_TEXT = '/a/;'.repeat(SLASHES);
const slashesFrom = (at) => Uint32Array.from({ length: SLASHES }, (_, i) => at + 4 * i);
const isEach = (list, number, isRight) => list.length === number && list.every(isRight);
const isSemicolon = (at) => ({ start, end }, i) => start === at + i && end === start + 1;
const spread = (rows) => Array.from({ length: rows.length / 3 }, (_, i) => ({ start: rows[3 * i], end: rows[3 * i + 1] }));

// By name: a text, the call, and whether its answer is right, where so many units come before the text. The texts are so long that each
// call needs two to forty pages beyond those that a module begins with.
const ROWS = [
    ['tokenRows', ';'.repeat(SEMICOLONS), ecma.tokenRows, (rows, at) => isEach(spread(rows), SEMICOLONS, isSemicolon(at))],
    ['tokens', ';'.repeat(SEMICOLONS), (text) => [...ecma.tokens(text)], (found, at) => isEach(found, SEMICOLONS, isSemicolon(at))],
    ['tokenArray', ';'.repeat(SEMICOLONS), ecma.tokenArray, (found, at) => isEach(found, SEMICOLONS, isSemicolon(at))],
    // Counting takes no room, so it is the text that does not fit; one that is cut has a token less.
    ['count', `;${' '.repeat(2_200_000)};`, ecma.count, (number) => number === 2],
    // The characters have more bytes than units: a second room is asked for, behind which the text goes on.
    ['count of a wide text', `/*${'é'.repeat(800_000)}*/;`, ecma.count, (number) => number === 1],
    // The places of the slashes take as much as the text.
    ['count by slashes', SLASHES_TEXT, (text, at) => ecma.count(text, { slashes: slashesFrom(at) }), (number) => number === 2 * SLASHES],
    ['comments', '//a\n'.repeat(6000), ecma.comments, (found, at) => isEach(found.slice(-6000), 6000, ({ start, end }, i) => start === at + 4 * i && end === start + 3)],
    ['errors', '"\n'.repeat(1200), ecma.errors, (found, at) => isEach(found, 1200, ({ start, end, message }, i) => start === at + 2 * i && end === start + 1 && message === 'Unterminated string constant')],
    ['canonical', ';'.repeat(24_000), ecma.canonical, (text) => text === `${'; '.repeat(23_999)};`],
    [
        'imports', 'import"a";export{b};'.repeat(400), ecma.imports,
        ([found, names], at) => isEach(found, 400, ({ n, ss, se }, i) => n === 'a' && ss === at + 20 * i && se === ss + 9)
            && isEach(names, 400, ({ n, s, e }, i) => n === 'b' && s === at + 20 * i + 17 && e === s + 1),
    ],
];
const STRINGS_ALONE = ['tokenizer', ';'.repeat(SEMICOLONS), (text) => [...tokenizer(text, types)], (found, at) => isEach(found, SEMICOLONS, isSemicolon(at))];

/** What comes of a call: right, refused, or in words what else. */
function cameOf(call, text, at, isRight) {
    try {
        return isRight(call(text, at), at) ? 'right' : 'an answer is wrong';
    } catch (error) {
        return error.code === 'OUT_OF_MEMORY' ? 'refused' : `${error.code}: ${error.message}`;
    }
}

function tell(told, name, came) {
    const it = (told[name] ??= { right: 0, refused: 0, other: [] });
    if (came === 'right' || came === 'refused') it[came]++;
    else it.other.push(came);
}

function play(told, [name, text, call, isRight], texts) {
    for (const [kind, it, at] of texts(text)) {
        tell(told, name, cameOf(call, it, at, isRight));
        if (cameOf(ecma.count, 'a b', 0, (number) => number === 2) !== 'right') tell(told, name, `the call behind one of ${kind} is wrong`);
    }
}

const strings = (text) => [['a string', text, 0], ['a wide string', WIDE + text, WIDE_UNITS]];
const all = (text) => [...strings(text), ['bytes', encoder.encode(text), 0]];

/** What comes of all calls, by their names, where a memory has at most so many pages. */
function toldAt(pages, modules) {
    const told = {};
    v8.setFlagsFromString(`--wasm-max-mem-pages=${pages}`);
    for (const module of modules) {
        ecma.loadSync(module);
        for (const row of ROWS) play(told, row, all);
        play(told, STRINGS_ALONE, strings);
    }
    return told;
}

const modules = ['ecma.wasm', 'ecma-plain.wasm'].map((name) => new WebAssembly.Module(bytesOf(name)));
console.log(JSON.stringify(process.argv.slice(2).map((pages) => toldAt(pages, modules))));
