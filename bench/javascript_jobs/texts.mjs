// The texts that the jobs of bench/javascript take: files of this machine, and random ones that a seed gives.
import fs from 'node:fs';
import { createRequire } from 'node:module';
import path from 'node:path';
import { fileURLToPath } from 'node:url';

export const TOP = path.dirname(path.dirname(path.dirname(fileURLToPath(import.meta.url))));
/** Where packages to compare with stand: Debian's folder of them. */
const PACKAGES = process.env.PACKAGES ?? '/usr/share/nodejs';
const ROOTS = ['/usr/share/nodejs', '/usr/share/javascript'];
const CODE = /\.(?:[mc]?[jt]s)$/;

function walk(folder, found, seen) {
    for (const entry of fs.readdirSync(folder, { withFileTypes: true }).sort((a, b) => (a.name < b.name ? -1 : 1))) {
        const file = path.join(folder, entry.name);
        if (entry.isDirectory()) walk(file, found, seen);
        else if (entry.isFile() && CODE.test(entry.name)) {
            const { size, ino } = fs.statSync(file);
            if (size > 0 && !seen.has(ino)) found.push({ file, size });
            seen.add(ino);
        }
    }
}

let files;

/** All files of code, by path: those of the folder CORPUS, or of Debian's packages, and the texts of this repository. */
function allFiles() {
    if (files) return files;
    files = [];
    const seen = new Set();
    for (const root of process.env.CORPUS ? [process.env.CORPUS] : ROOTS) if (fs.existsSync(root)) walk(root, files, seen);
    for (const crate of fs.readdirSync(path.join(TOP, 'crates'))) {
        const file = path.join(TOP, 'crates', crate, 'stdin');
        if (fs.existsSync(file)) files.push({ file, size: fs.statSync(file).size });
    }
    return files;
}

/** Evenly chosen, at most `most` of them, none larger than `largest` bytes, with the endings that match. */
export function someFiles(most, largest, endings = /./) {
    const fitting = allFiles().filter(({ file, size }) => size <= largest && endings.test(file));
    const step = Math.max(1, fitting.length / most);
    const chosen = [];
    for (let at = 0; at < fitting.length; at += step) chosen.push(fitting[Math.floor(at)].file);
    return chosen;
}

export const read = (file) => fs.readFileSync(file);

/** A package that is installed, or nothing. */
export function installed(name) {
    try {
        return createRequire(import.meta.url)(path.join(PACKAGES, name));
    } catch {
        return undefined;
    }
}

/** es-module-lexer, ready, or nothing. */
export async function moduleLexer() {
    const file = path.join(PACKAGES, 'es-module-lexer', 'dist', 'lexer.js');
    if (!fs.existsSync(file)) return undefined;
    const lexer = await import(file);
    await lexer.init;
    return lexer;
}

/** A generator of numbers below a bound. */
export function random(seed) {
    let state = seed >>> 0;
    return (bound) => {
        state = (Math.imul(state, 1103515245) + 12345) >>> 0;
        return (state >>> 8) % bound;
    };
}

const PARTS = [
    'a', 'bcdefghijklmnopqrstuvwxyz', '0123456789', '            ', '\n\n\n', '\r\n', '"', "'", '`', '/', '/*', '*/', '//', '\\u0061', '\\', 'é',
    '𝒳', '\u2028', '\t', '${', '}', '{', '(', ')', 'function', 'instanceof', '0x1f_f', '1e5', '1n', '===', '>>>=', '?.', '*', '#', '<!--', '-->',
    '\0', '\ufeff', '=>', 'import', 'export', 'from', '"b"', 'A'.repeat(17), ' '.repeat(33), 'x'.repeat(64),
];

/** Texts that are joined from parts; with halves of surrogate pairs among them where that is asked for. */
export function randomTexts(count, seed, withHalves = false) {
    const next = random(seed), parts = withHalves ? [...PARTS, '\ud800', '\udc00', '\ud83d\ude00'] : PARTS;
    return Array.from({ length: count }, () => {
        let text = '';
        for (let left = next(14); left >= 0; left--) text += parts[next(parts.length)];
        return text;
    });
}
