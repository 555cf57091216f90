// The tokens as acorn's tokenizer has them: its types, its values, its places.
import { Kind, cook, tokenRows } from './calls.mjs';
import { KIND, RESPELLED } from './rows.mjs';
import { bigIntOf, cookTemplate, numberOf, regexpOf, withoutQuotes } from './values.mjs';

const FIRST_OPERATOR = Kind.OP_EQ_EQ, FIRST_WORD = Kind.KEYWORD_AWAIT, NAME = Kind.NAME;

/** The names of acorn's types; KEYWORD_X is `_x`, and each other ASSIGN_X is `assign`. */
const TYPE_NAMES = {
    ARROW: 'arrow', DOT: 'dot', DOT_DOT_DOT: 'ellipsis', BANG: 'prefix', L_PAREN: 'parenL', R_PAREN: 'parenR',
    L_BRACKET: 'bracketL', R_BRACKET: 'bracketR', L_BRACE: 'braceL', R_BRACE: 'braceR', SEMI: 'semi', COMMA: 'comma',
    BACK_QUOTE: 'backQuote', TEMPLATE: 'template', COLON: 'colon', DOLLAR_L_BRACE: 'dollarBraceL', QUESTION_MARK: 'question',
    PLUS_PLUS: 'incDec', MINUS_MINUS: 'incDec', TILDE: 'prefix', STR: 'string', REGEX: 'regexp', NUM: 'num', BIG_INT: 'num',
    OP_EQ_EQ: 'equality', OP_NOT_EQ: 'equality', OP_EQ_EQ_EQ: 'equality', OP_NOT_EQ_EQ: 'equality', OP_LT: 'relational',
    OP_LT_EQ: 'relational', OP_GT: 'relational', OP_GT_EQ: 'relational', OP_L_SHIFT: 'bitShift', OP_R_SHIFT: 'bitShift',
    OP_ZERO_FILL_R_SHIFT: 'bitShift', OP_ADD: 'plusMin', OP_SUB: 'plusMin', OP_MUL: 'star', OP_DIV: 'slash', OP_MOD: 'modulo',
    OP_BIT_OR: 'bitwiseOR', OP_BIT_XOR: 'bitwiseXOR', OP_BIT_AND: 'bitwiseAND', OP_EXP: 'starstar', OP_LOGICAL_OR: 'logicalOR',
    OP_LOGICAL_AND: 'logicalAND', OP_NULLISH_COALESCING: 'coalesce', ASSIGN_ASSIGN: 'eq', NULL: '_null', TRUE: '_true', FALSE: '_false',
};

function typeOf(name, types) {
    if (TYPE_NAMES[name]) return types[TYPE_NAMES[name]];
    if (name.startsWith('ASSIGN_')) return types.assign;
    if (name.startsWith('KEYWORD_')) return types[`_${name.slice('KEYWORD_'.length).toLowerCase().replace('_', '')}`] ?? types.name;
    return types.name;
}

const tables = new WeakMap();

/** The types by the kinds, as this acorn has them. */
function tableOf(types) {
    let table = tables.get(types);
    if (!table) {
        table = [];
        for (const [name, kind] of Object.entries(Kind)) table[kind] = typeOf(name, types);
        tables.set(types, table);
    }
    return table;
}

/** Whether acorn gives a punctuator its spelling as the value. */
function hasSpelling(kind) {
    return kind >= FIRST_OPERATOR || kind === Kind.BANG || kind === Kind.TILDE || kind === Kind.PLUS_PLUS || kind === Kind.MINUS_MINUS;
}

/** The spellings of the kinds that have only one, as they were met first: of all words but plain names, and of punctuators. */
const SPELLINGS = [];

class Regexp {
    constructor({ pattern, flags }) {
        this.pattern = pattern;
        this.flags = flags;
    }

    /** The regular expression, or null where this engine refuses it. */
    get value() {
        try {
            return new RegExp(this.pattern, this.flags);
        } catch {
            return null;
        }
    }
}

class Token {
    constructor(type, value, start, end) {
        this.type = type;
        this.value = value;
        this.start = start;
        this.end = end;
    }
}

class Tokenizer {
    constructor(text, types, options) {
        this.text = text;
        this.types = types;
        this.table = tableOf(types);
        this.rows = tokenRows(text, options);
        this.at = 0;
    }

    /** The next token; one of the type `eof` once there is none. */
    getToken() {
        const { rows, at, text } = this;
        if (at >= rows.length) return new Token(this.types.eof, undefined, text.length, text.length);
        this.at = at + 3;
        const start = rows[at], end = rows[at + 1], word = rows[at + 2], kind = word & KIND;
        if (kind >= FIRST_WORD) return this.word(kind, start, end, word);
        if (hasSpelling(kind)) return new Token(this.table[kind], (SPELLINGS[kind] ??= text.slice(start, end)), start, end);
        return this.other(kind, start, end, word);
    }

    word(kind, start, end, word) {
        // A keyword that is spelled with an escape is a name to acorn.
        if (word & RESPELLED) return new Token(this.types.name, cook(this.text.slice(start, end)), start, end);
        if (kind === NAME) return new Token(this.types.name, this.text.slice(start, end), start, end);
        return new Token(this.table[kind], (SPELLINGS[kind] ??= this.text.slice(start, end)), start, end);
    }

    other(kind, start, end, word) {
        const type = this.table[kind], text = this.text;
        switch (kind) {
            case Kind.STR: {
                const raw = withoutQuotes(text.slice(start, end));
                return new Token(type, word & RESPELLED ? cook(raw) : raw, start, end);
            }
            case Kind.TEMPLATE: return this.template(text.slice(start, end), start, end, word);
            case Kind.NUM: return new Token(type, numberOf(text.slice(start, end)), start, end);
            case Kind.BIG_INT: return new Token(type, bigIntOf(text.slice(start, end)), start, end);
            case Kind.REGEX: return new Token(type, new Regexp(regexpOf(text.slice(start, end))), start, end);
            case Kind.HASH: return this.privateName(start, end);
            case Kind.QUESTION_MARK: return this.question(start, end);
            case Kind.SHEBANG: return this.getToken();
            case Kind.ERROR: throw Object.assign(new SyntaxError(`Unexpected text (${start})`), { pos: start });
            default: return new Token(type, undefined, start, end);
        }
    }

    template(raw, start, end, word) {
        const value = word & RESPELLED ? cookTemplate(raw) : raw;
        if (value === undefined) return new Token(this.types.invalidTemplate, raw, start, end);
        return new Token(this.types.template, value, start, end);
    }

    /** `#` and the name behind it are one token to acorn. */
    privateName(start, end) {
        const { rows, at } = this;
        if (at >= rows.length || rows[at] !== end || (rows[at + 2] & KIND) < FIRST_WORD) {
            throw Object.assign(new SyntaxError(`Unexpected text (${start})`), { pos: start });
        }
        this.at = at + 3;
        const raw = this.text.slice(rows[at], rows[at + 1]);
        return new Token(this.types.privateId, rows[at + 2] & RESPELLED ? cook(raw) : raw, start, rows[at + 1]);
    }

    /** `?.` is one token to acorn. */
    question(start, end) {
        const { rows, at, types } = this;
        if (at >= rows.length || rows[at] !== end || (rows[at + 2] & KIND) !== Kind.DOT) return new Token(types.question, '?', start, end);
        this.at = at + 3;
        return new Token(types.questionDot, '?.', start, rows[at + 1]);
    }

    next() {
        const token = this.getToken();
        return { done: token.type === this.types.eof, value: token };
    }

    [Symbol.iterator]() {
        return this;
    }
}

/** Tokens with the types and values of an acorn that you have: `tokenizer(text, acorn.tokTypes)`. */
export function tokenizer(text, types, options) {
    return new Tokenizer(text, types, options);
}
