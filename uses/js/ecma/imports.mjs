// What a module imports and exports, with the fields of es-module-lexer, of the rows that the library writes.
import { NO_ROOM, room, stringAt, withText, wordsAt } from './host.mjs';
import { OPTION_BITS, ownOptions } from './options.mjs';
import { cook, isClosed, withoutQuotes } from './values.mjs';

// Rows of imports: name, statement, each from where to where, parenthesis, attributes from where to where, then form + 256 * phase
// + 65536 * flags, and two numbers of 64 bits: how many rows of exports come before its own, and how many are its own.
const IMPORT_WIDTH = 12, IMPORT_PLACES = 7;
const [START, END, STATEMENT_START, STATEMENT_END, PAREN, ATTRIBUTES, , FORM, FIRST_EXPORT, , EXPORTS] = Array(IMPORT_WIDTH).keys();
const CALL = 2, META = 3, AMBIENT = 5, REQUIRE = 6;
/** `commonjs` asks for rows of `require`. */
const IMPORT_BITS = { ...OPTION_BITS, commonjs: 32 };
const PHASES = [undefined, 'defer', 'source'];
// Rows of exports: name and local name, each from where to where, flags.
const EXPORT_WIDTH = 5, EXPORT_PLACES = 4;
const TYPE_ONLY = 1, HAS_LOCAL = 2, STRING = 4, LOCAL_STRING = 16;
// Of the text: how many imports and exports, each a number of 64 bits, status, flags.
const MODULE_BYTES = 24, IMPORT_COUNT = 0, EXPORT_COUNT = 2, MODULE_FLAGS = 5;
const FACADE = 1, MODULE_SYNTAX = 2;
/** Fields of es-module-lexer. */
const NO_PLACE = -1, D_STATIC = -1, D_META = -2;

/** Asks until there is room for all rows; answers copies of them, and the text's flags. */
function askImports(request) {
    for (let imports = (request.length >>> 6) + 64, exports = imports; ;) {
        const importsAt = room(imports * IMPORT_WIDTH * 4), exportsAt = room(exports * EXPORT_WIDTH * 4), at = room(MODULE_BYTES);
        const status = request.ask('ecma_js_imports', importsAt, imports, exportsAt, exports, at);
        const module = wordsAt(at, MODULE_BYTES / 4);
        imports = module[IMPORT_COUNT];
        exports = module[EXPORT_COUNT];
        if (status !== NO_ROOM) {
            const flags = module[MODULE_FLAGS];
            return [wordsAt(importsAt, imports * IMPORT_WIDTH).slice(), wordsAt(exportsAt, exports * EXPORT_WIDTH).slice(), flags];
        }
        request.renew();
    }
}

/** Makes the places of rows places in units, where the text asks for it. */
function toUnits(request, rows, width, columns) {
    if (!request.isWide) return;
    const slots = [];
    for (let i = 0; i < rows.length; i += width) for (let j = 0; j < columns; j++) slots.push(i + j);
    // In ascending order the conversion is one pass over the text.
    slots.sort((one, other) => rows[one] - rows[other]);
    const at = room(4 * slots.length), places = wordsAt(at, slots.length);
    slots.forEach((slot, i) => (places[i] = rows[slot]));
    request.toUnits(at, slots.length, 1, 1);
    slots.forEach((slot, i) => (rows[slot] = places[i]));
}

function importOf(row, between) {
    const flags = row[FORM] >>> 16, form = row[FORM] & 0xff;
    const name = flags & STRING ? between(row[START], row[END]) : undefined;
    // Of a call the string's places are those of the argument, with its quotes.
    const isInside = name !== undefined && form !== CALL;
    const opening = isInside ? 1 : 0, closing = isInside && isClosed(name) ? 1 : 0;
    return {
        n: name === undefined ? undefined : cook(withoutQuotes(name)),
        s: row[START] + opening, e: row[END] - closing, ss: row[STATEMENT_START], se: row[STATEMENT_END],
        d: form === CALL ? row[PAREN] : form === META ? D_META : D_STATIC,
        // No attributes begin where the text does.
        a: row[ATTRIBUTES] || NO_PLACE,
        phase: PHASES[(row[FORM] >>> 8) & 0xff], type: (flags & TYPE_ONLY) !== 0, require: form === REQUIRE,
    };
}

/** `isForeign` says that the local name is one of the other module. */
function exportOf([s, e, ls, le, flags], isForeign, between) {
    const name = between(s, e);
    const it = { s, e, ls: NO_PLACE, le: NO_PLACE, n: cook(flags & STRING ? withoutQuotes(name) : name), ln: undefined, type: (flags & TYPE_ONLY) !== 0 };
    if ((flags & HAS_LOCAL) === 0 || isForeign) return it;
    const local = between(ls, le);
    return Object.assign(it, { ls, le, ln: cook(flags & LOCAL_STRING ? withoutQuotes(local) : local) });
}

/** What a module imports and exports, as es-module-lexer answers it: `[imports, exports, facade, hasModuleSyntax]`. */
export function imports(text, options) {
    // es-module-lexer has the name of a file there.
    const own = ownOptions(typeof options === 'string' ? undefined : options);
    return withText(text, { ...own, module: own.module ?? true }, (request) => {
        const [importRows, exportRows, flags] = askImports(request);
        toUnits(request, importRows, IMPORT_WIDTH, IMPORT_PLACES);
        toUnits(request, exportRows, EXPORT_WIDTH, EXPORT_PLACES);
        const between = typeof text === 'string' ? (start, end) => text.slice(start, end) : (start, end) => stringAt(request.at + start, end - start);
        const found = [], foreign = new Uint8Array(exportRows.length / EXPORT_WIDTH);
        for (let at = 0; at < importRows.length; at += IMPORT_WIDTH) {
            const row = importRows.subarray(at, at + IMPORT_WIDTH);
            foreign.fill(1, row[FIRST_EXPORT], row[FIRST_EXPORT] + row[EXPORTS]);
            // `declare module "a"` imports nothing.
            if ((row[FORM] & 0xff) !== AMBIENT) found.push(importOf(row, between));
        }
        const names = Array.from(foreign, (isForeign, i) => exportOf(exportRows.subarray(i * EXPORT_WIDTH, (i + 1) * EXPORT_WIDTH), isForeign, between));
        return [found, names, (flags & FACADE) !== 0, (flags & MODULE_SYNTAX) !== 0];
    }, IMPORT_BITS);
}
