// Real files, with es-module-lexer's fields.
import fs from 'node:fs';
import { PACKAGES, corpus, differs, rowsOf, textOf, unitsOf } from './rows.mjs';

/** A row of imports in the fields of es-module-lexer. */
function importFields(row, unit) {
    const [ss, se] = row.statement.map(unit);
    if (row.form === 'meta') return [ss, se, ss, se, -2, -1];
    if (row.form === 'call') return [...row.argument.map(unit), ss, se, unit(row.paren), unit(row.attributes[0])];
    return [unit(row.specifier[0] + 1), unit(row.specifier[1] - 1), ss, se, -1, unit(row.attributes[0])];
}

function exportFields(rows, unit) {
    const others = new Set(rows.imports.filter((it) => it.form === 'reexport').flatMap((it) => Array.from({ length: it.exports }, (_, i) => it.firstExport + i)));
    return rows.exports.map((row, i) => [...row.name.map(unit), ...(others.has(i) ? [-1, -1] : row.local.map(unit))]);
}

/** es-module-lexer finds the first variable alone, and not all names of patterns: its page says so. */
function withoutLaterVariables(wanted, got) {
    return wanted.length < got.length ? got.filter((row) => wanted.some((it) => String(it) === String(row))) : got;
}

export async function run() {
    const file = `${PACKAGES}/es-module-lexer/dist/lexer.js`;
    if (!fs.existsSync(file)) {
        console.log(`bench/modules: files: es-module-lexer is not installed under ${PACKAGES}`);
        return 0;
    }
    const { init, parse } = await import(file);
    await init;
    const texts = corpus(['.js', '.mjs', '.cjs']).map((it) => [it, textOf(it)]).filter(([, text]) => text !== undefined);
    const all = rowsOf(texts.map(([, text]) => text), false);
    let compared = 0, imports = 0, exports = 0, differ = 0, fewer = 0;
    texts.forEach(([name, text], i) => {
        let wanted;
        try {
            wanted = parse(text);
        } catch {
            return;
        }
        const rows = all[i], unit = unitsOf(text);
        const theirs = wanted[1].map((it) => [it.s, it.e, it.ls, it.le]), ours = exportFields(rows, unit);
        const kept = withoutLaterVariables(theirs, ours);
        compared++;
        imports += wanted[0].length;
        exports += theirs.length;
        fewer += ours.length - kept.length;
        const isDifferent = differs(`${name}: import`, text, wanted[0].map((it) => [it.s, it.e, it.ss, it.se, it.d, it.a]), rows.imports.map((it) => importFields(it, unit)))
            || differs(`${name}: export`, text, theirs, kept) || differs(`${name}: facade`, text, [wanted[2]], [rows.isFacade]);
        if (isDifferent) differ++;
    });
    console.log(`files: ${compared} files, ${imports} imports, ${exports} exports as es-module-lexer tells them, ${fewer} of variables besides: ${differ} files differ`);
    return differ;
}
