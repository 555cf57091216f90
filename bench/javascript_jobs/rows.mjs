// What the package answers beside the lines of `ecma_lex` (docs/COMMAND.md), in bytes and, of strings, in units.
import { spawnSync } from 'node:child_process';
import fs from 'node:fs';
import path from 'node:path';
import * as ecma from '../../uses/js/ecma/ecma.mjs';
import { TOP, randomTexts, read, someFiles } from './texts.mjs';

const { Kind } = ecma;
const SETTINGS = [[{}, []], [{ typescript: true }, ['ts']], [{ module: true }, ['module']], [{ typescript: true, module: true, strict: true }, ['ts', 'module', 'strict']]];
const SMALL = 200_000;
const decoder = new TextDecoder('utf-8', { ignoreBOM: true, fatal: true });

/** The kinds that the program's words may stand for. */
const GROUPS = { Keyword: [128, 192], Word: [128, 512], Ident: [195, 512], BinOp: [64, 96], AssignOp: [96, 128] };
const CAMEL = Object.fromEntries(Object.entries(Kind).map(([name, kind]) => [name.toLowerCase().replace(/(?:^|_)([a-z])/g, (_, letter) => letter.toUpperCase()), kind]));

function isKind(said, kind) {
    const group = GROUPS[said];
    if (group) return group[0] <= kind && kind < group[1];
    return CAMEL[said] === undefined || CAMEL[said] === kind;
}

const PLAIN = { n: '\n', r: '\r', '\\': '\\' };
const unescaped = (text) => text.replace(/\\(.)/g, (_, letter) => PLAIN[letter]);

function program() {
    const file = process.env.ECMA_LEX ?? path.join(TOP, 'crates', 'ecma_lex', 'out', 'ecma_lex');
    return fs.existsSync(file) ? file : undefined;
}

function isRead(bytes, slashes, settings) {
    try {
        ecma.count(bytes, { ...settings, slashes });
        return true;
    } catch {
        return false;
    }
}

/** The numbers of the tokens that are regular expressions, or errors that begin with the slash of one. */
function expressions(bytes, tokens, settings) {
    const numbers = [], slashes = [];
    tokens.forEach(({ kind, start }, i) => {
        const mayBe = kind === Kind.REGEX || (kind === Kind.ERROR && bytes[start] === 47 && isRead(bytes, [...slashes, start], settings));
        if (!mayBe) return;
        numbers.push(i);
        slashes.push(start);
    });
    return numbers;
}

class Comparison {
    constructor(lex) {
        this.lex = lex;
        this.compared = 0;
        this.differ = 0;
    }

    said(command, words, bytes) {
        const { status, stdout } = spawnSync(this.lex, [command, ...words], { input: bytes, maxBuffer: 1 << 30 });
        return { status, lines: stdout.toString().split('\n').slice(0, -1), whole: stdout };
    }

    check(isSame, name, what) {
        this.compared++;
        if (isSame) return;
        if (this.differ++ < 10) console.log(`differs: ${name}: ${JSON.stringify(what)}`);
    }

    tokens(name, bytes, text, options, inUnits, words) {
        const { lines } = this.said('tokens', words, bytes), rows = ecma.tokenRows(bytes, options), units = ecma.tokenRows(text, inUnits);
        this.check(lines.length * 3 === rows.length && rows.length === units.length, name, [lines.length, rows.length / 3, units.length / 3]);
        for (let i = 0; i < lines.length; i++) {
            const [lo, hi, flag, said, ...spelling] = lines[i].split(' '), [start, end, word] = rows.subarray(3 * i);
            const isPlace = +lo === start && +hi === end && (flag === 'lf') === ((word >>> 16 & 1) === 1) && word === units[3 * i + 2];
            const isText = text.slice(units[3 * i], units[3 * i + 1]) === unescaped(spelling.join(' '));
            this.check(isPlace && isText && isKind(said, word & 0xffff), name, [lines[i], start, end, word]);
        }
    }

    comments(name, bytes, text, options, inUnits, words) {
        const { lines } = this.said('comments', words, bytes), found = ecma.comments(bytes, options), units = ecma.comments(text, inUnits);
        this.check(lines.length === found.length && lines.length === units.length, name, ['comments', lines.length, found.length]);
        lines.forEach((line, i) => {
            const [side, pos, lo, hi, form, ...spelling] = line.split(' '), it = found[i] ?? {}, unit = units[i] ?? {};
            const isPlace = +pos === it.attachedTo && +lo === it.start && +hi === it.end && form === it.type && (side === 'trailing') === it.trailing;
            this.check(isPlace && text.slice(unit.textStart, unit.textEnd) === unescaped(spelling.join(' ')), name, [line, it]);
        });
    }

    errors(name, bytes, text, options, inUnits, words) {
        const SOURCES = { token: 'token', recorded: 'recorded', waiting: 'module' };
        const wanted = this.said('errors', words, bytes).lines.map((line) => {
            const [source, start, end, ...message] = line.split(' ');
            return { start: +start, end: +end, message: unescaped(message.join(' ')), source: SOURCES[source] };
        });
        const sorted = wanted.sort((a, b) => a.start - b.start || a.end - b.end);
        this.check(JSON.stringify(sorted) === JSON.stringify(ecma.errors(bytes, options)), name, sorted);
        this.check(ecma.errors(text, inUnits).length === sorted.length, name, 'errors of the string');
    }

    canonical(name, bytes, text, options, inUnits, words) {
        const { status, whole } = this.said('canon', words, bytes), made = ecma.canonical(bytes, options);
        this.check(status === 0 ? made === decoder.decode(whole) : status === 4 && made === null, name, ['canonical', status]);
        this.check(ecma.canonical(text, inUnits) === made, name, 'canonical of the string');
    }

    /** A text by settings: with no slash that begins a regular expression, and with those that are told from the tokens before. */
    text(name, bytes, settings) {
        const text = decoder.decode(bytes);
        for (const [chosen, words] of settings) {
            const byFlag = ecma.tokenArray(bytes, chosen), units = ecma.tokenRows(text, chosen);
            const numbers = expressions(bytes, byFlag, chosen);
            const rereads = numbers.flatMap((i) => ['reread', String(i + 1)]);
            const given = { ...chosen, slashes: numbers.map((i) => byFlag[i].start) }, inUnits = { ...chosen, slashes: numbers.map((i) => units[3 * i]) };
            this.tokens(name, bytes, text, chosen, chosen, [...words, ...rereads]);
            const none = { ...chosen, slashes: [] };
            this.tokens(name, bytes, text, none, none, words);
            for (const call of ['comments', 'errors', 'canonical']) this[call](name, bytes, text, given, inUnits, [...words, ...rereads]);
        }
    }
}

function isUtf8(bytes) {
    try {
        decoder.decode(bytes);
        return true;
    } catch {
        return false;
    }
}

export async function run({ files, texts }) {
    const lex = program();
    if (!lex) {
        console.log('rows: ecma_lex is not built, nothing was compared (`rt run` in crates/ecma_lex builds it)');
        return 0;
    }
    await ecma.load();
    const comparison = new Comparison(lex), chosen = someFiles(files, 1_500_000).filter((file) => isUtf8(read(file)));
    for (const file of chosen) {
        const bytes = new Uint8Array(read(file));
        comparison.text(file, bytes, bytes.length < SMALL ? SETTINGS : SETTINGS.slice(0, 1));
    }
    const encoder = new TextEncoder();
    randomTexts(texts, 5).forEach((text, i) => comparison.text(text, encoder.encode(text), [SETTINGS[i % SETTINGS.length]]));
    console.log(`rows: ${chosen.length} files and ${texts} random texts, ${comparison.compared} rows and answers, ${comparison.differ} differ`);
    return comparison.differ;
}
