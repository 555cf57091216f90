// The calls: tokens, comments, errors, imports and the canonical text of a text.
import { EcmaError } from './error.mjs';
import { NOT_CLEAN, NO_ROOM, memory, room, stringAt, withRows, withText, wordsAt } from './host.mjs';
import { Kind } from './kinds.mjs';
import { imports } from './imports.mjs';
import { KIND, LINE_BREAK_BEFORE, RESPELLED, TOKEN_WIDTH } from './rows.mjs';
import { cook, valueOf } from './values.mjs';

export { EcmaError, Kind, cook, imports, memory };

/** Room for the rows of all but the densest texts; what is not written takes no memory of the machine. */
const tokenRoom = (length) => (length >>> 3) * 3 + 64;

const tokenUnits = (request, at, rows) => request.toUnits(at, rows, TOKEN_WIDTH, 2);

function withTokens(text, options, use) {
    return withRows('ecma_js_tokens', TOKEN_WIDTH, tokenRoom, tokenUnits, text, options, use);
}

const copied = (rows) => rows.slice();

/** The tokens as rows of three numbers: start, end, kind + 65536 * flags. */
export function tokenRows(text, options) {
    return withTokens(text, options, copied);
}

const TYPES = typesOfKinds();

function typesOfKinds() {
    const types = [];
    const named = { STR: 'string', NUM: 'number', BIG_INT: 'bigint', REGEX: 'regexp', TEMPLATE: 'template', SHEBANG: 'shebang', ERROR: 'error' };
    for (const [name, kind] of Object.entries(Kind)) {
        const word = kind >= Kind.NAME ? 'name' : kind >= Kind.KEYWORD_AWAIT ? 'keyword' : undefined;
        types[kind] = word ?? named[name] ?? 'punctuator';
    }
    return types;
}

const decoder = new TextDecoder('utf-8', { ignoreBOM: true });

/** The text between two places of a string, or of bytes. */
function textBetween(source, start, end) {
    return typeof source === 'string' ? source.slice(start, end) : decoder.decode(source.subarray(start, end));
}

class Token {
    constructor(source, start, end, word) {
        this.source = source;
        this.start = start;
        this.end = end;
        this.word = word;
    }

    get kind() {
        return this.word & KIND;
    }

    get type() {
        return TYPES[this.word & KIND];
    }

    get lineBreakBefore() {
        return (this.word & LINE_BREAK_BEFORE) !== 0;
    }

    get respelled() {
        return (this.word & RESPELLED) !== 0;
    }

    get text() {
        return textBetween(this.source, this.start, this.end);
    }

    get value() {
        return valueOf(this.word & KIND, this.text);
    }

    toJSON() {
        const { type, start, end, text, lineBreakBefore, respelled } = this;
        return { type, start, end, text, lineBreakBefore, respelled };
    }
}

class TokenIterator {
    #text;
    #options;
    #rows;
    #at = 0;

    constructor(text, options) {
        this.#text = text;
        this.#options = options;
    }

    next() {
        const rows = (this.#rows ??= tokenRows(this.#text, this.#options));
        const at = this.#at;
        if (at >= rows.length) return { value: undefined, done: true };
        this.#at = at + TOKEN_WIDTH;
        return { value: new Token(this.#text, rows[at], rows[at + 1], rows[at + 2]), done: false };
    }

    return(value) {
        this.#at = Infinity;
        return { value, done: true };
    }

    [Symbol.iterator]() {
        return this;
    }
}

/** The tokens one by one. The text is read at the first. */
export function tokens(text, options) {
    return new TokenIterator(text, options);
}

/** The tokens, all at once. */
export function tokenArray(text, options) {
    return withTokens(text, options, (rows) => {
        const made = new Array(rows.length / TOKEN_WIDTH);
        for (let i = 0, at = 0; i < made.length; i++, at += TOKEN_WIDTH) made[i] = new Token(text, rows[at], rows[at + 1], rows[at + 2]);
        return made;
    });
}

/** How many tokens there are. */
export function count(text, options) {
    return withText(text, options, (request) => {
        request.ask('ecma_js_count');
        return request.number;
    });
}

// Rows of comments: the place of the token, start, end, where what it says begins and ends, flags.
const COMMENT_WIDTH = 6, COMMENT_PLACES = 5;
const BLOCK = 1, TRAILING = 2;

const commentRoom = (length) => (length >>> 6) + 64;

function commentUnits(request, at, rows) {
    // Column by column: each ascends, and the places of a row do not.
    for (let i = 0; i < COMMENT_PLACES; i++) request.toUnits(at + 4 * i, rows, COMMENT_WIDTH, 1);
}

function commentsOf(rows) {
    const made = [];
    for (let i = 0; i < rows.length; i += COMMENT_WIDTH) {
        const flags = rows[i + 5];
        made.push({
            type: flags & BLOCK ? 'block' : 'line', start: rows[i + 1], end: rows[i + 2],
            textStart: rows[i + 3], textEnd: rows[i + 4], trailing: (flags & TRAILING) !== 0, attachedTo: rows[i],
        });
    }
    return made;
}

/** The comments, and the tokens to which they belong. */
export function comments(text, options) {
    return withRows('ecma_js_comments', COMMENT_WIDTH, commentRoom, commentUnits, text, options, commentsOf);
}

// Rows of errors: start, end, source, nothing, and two numbers of 64 bits: where the message begins and ends among all.
const ERROR_WIDTH = 8, MESSAGE_START = 4, MESSAGE_END = 6;
const SOURCES = ['token', 'recorded', 'module'];

/** Asks until there is room for all errors and their messages; answers where both stand. */
function askErrors(request) {
    for (let most = 16, size = 1024; ;) {
        const at = room(most * ERROR_WIDTH * 4), messages = room(size);
        const status = request.ask('ecma_js_errors', at, most, messages, size);
        const number = request.number;
        if (status !== NO_ROOM) return { at, messages, number };
        // Where all rows fit the last one says how many bytes the messages need.
        if (number <= most) size = wordsAt(at, number * ERROR_WIDTH)[(number - 1) * ERROR_WIDTH + MESSAGE_END];
        most = Math.max(most, number);
        request.renew();
    }
}

const byPlace = (one, other) => one.start - other.start || one.end - other.end;

/** What is wrong with the text, by place. */
export function errors(text, options) {
    return withText(text, options, (request) => {
        const { at, messages, number } = askErrors(request);
        request.toUnits(at, number, ERROR_WIDTH, 1);
        request.toUnits(at + 4, number, ERROR_WIDTH, 1);
        const rows = wordsAt(at, number * ERROR_WIDTH), made = [];
        for (let i = 0; i < rows.length; i += ERROR_WIDTH) {
            const start = rows[i + MESSAGE_START], end = rows[i + MESSAGE_END];
            made.push({ start: rows[i], end: rows[i + 1], message: stringAt(messages + start, end - start), source: SOURCES[rows[i + 2]] });
        }
        return made.sort(byPlace);
    });
}

/** The canonical text, or null where the text has errors. */
export function canonical(text, options) {
    return withText(text, options, (request) => {
        let size = request.length * 2 + 64, at = room(size);
        let status = request.ask('ecma_js_canonical', at, size);
        if (status === NO_ROOM) {
            size = request.number;
            request.renew();
            at = room(size);
            status = request.ask('ecma_js_canonical', at, size);
        }
        return status === NOT_CLEAN ? null : stringAt(at, request.number);
    });
}
