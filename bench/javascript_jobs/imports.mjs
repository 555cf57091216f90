// `imports` beside es-module-lexer, field by field, on modules that it reads, each also with characters before it that are more bytes
// than units.
import { imports, load } from '../../uses/js/ecma/ecma.mjs';
import { moduleLexer, read, someFiles } from './texts.mjs';

const IMPORT_FIELDS = ['n', 's', 'e', 'ss', 'se', 'd', 'a'];
const EXPORT_FIELDS = ['n', 'ln', 's', 'e', 'ls', 'le'];
const HAS_SYNTAX = /\b(?:import|export)\b/;
const WIDE = '/* é𝒳 */';

const lines = (list, fields) => list.map((it) => fields.map((field) => `${field} ${it[field]}`).join(', '));

function parsed(lexer, text) {
    try {
        return lexer.parse(text);
    } catch {
        return undefined;
    }
}

/** What differs between two lists, or nothing. es-module-lexer has the first name alone of `export let a, b`, and none of a pattern: more of ours is no difference. */
function firstDifference(wanted, found, mayHaveMore) {
    const missing = wanted.find((it) => !found.includes(it));
    if (missing !== undefined) return ['not found', missing];
    if (!mayHaveMore && found.length !== wanted.length) return ['found besides', found.find((it) => !wanted.includes(it))];
    return undefined;
}

/** What differs of a text, or nothing. */
function compare(lexer, text, counts) {
    const wanted = parsed(lexer, text);
    if (!wanted) counts.refused++;
    if (!wanted || (wanted[0].length === 0 && wanted[1].length === 0)) return undefined;
    const found = imports(text);
    counts.texts++;
    counts.imports += wanted[0].length;
    counts.exports += wanted[1].length;
    counts.more += found[1].length - wanted[1].length;
    if (wanted[2] !== found[2]) counts.facades++;
    return firstDifference(lines(wanted[0], IMPORT_FIELDS), lines(found[0], IMPORT_FIELDS), false)
        ?? firstDifference(lines(wanted[1], EXPORT_FIELDS), lines(found[1], EXPORT_FIELDS), true)
        ?? (wanted[2] === found[2] ? undefined : ['facade', wanted[2]]);
}

export async function run({ imports: most }) {
    const lexer = await moduleLexer();
    if (!lexer) {
        console.log('imports: es-module-lexer is not installed (Debian: node-es-module-lexer), nothing was compared');
        return 0;
    }
    await load();
    const counts = { texts: 0, refused: 0, imports: 0, exports: 0, more: 0, facades: 0, differ: 0 };
    for (const file of someFiles(most * 20, 1_000_000, /\.m?js$/)) {
        const plain = read(file).toString();
        if (counts.texts >= 2 * most) break;
        if (!HAS_SYNTAX.test(plain)) continue;
        for (const text of [plain, WIDE + plain]) {
            const what = compare(lexer, text, counts);
            if (what && counts.differ++ < 8) console.log(`differs: ${file}: ${what.join(': ')}`);
        }
    }
    console.log(`imports: ${JSON.stringify(counts)}`);
    return counts.differ;
}
