// Rows of imports and exports, as the program prints them.
import { execFileSync } from 'node:child_process';
import fs from 'node:fs';
import { createRequire } from 'node:module';
import os from 'node:os';
import path from 'node:path';
import { fileURLToPath } from 'node:url';

const HERE = path.dirname(fileURLToPath(import.meta.url));
const TOP = path.dirname(path.dirname(HERE));
const CRATE = 'printed_modules';
const USES = 'ecma_place ecma_state ecma_slashes ecma_reader ecma_modules ecma_module_reader ecma_options ecma_stdio';

export const PACKAGES = process.env.PACKAGES ?? '/usr/share/nodejs';
export const SEED = Number(process.env.SEED ?? 1);
export const COUNT = Number(process.env.COUNT ?? 5000);
const require = createRequire(`${PACKAGES}/`);

/** A parser, where it is installed. */
export function installed(file, job) {
    try {
        return require(`${PACKAGES}/${file}`);
    } catch {
        console.log(`bench/modules: ${job}: ${file} is not installed under ${PACKAGES}`);
        return undefined;
    }
}

/** The files of the corpus with such endings. */
export function corpus(endings) {
    const found = [];
    const look = (folder) => {
        for (const entry of fs.readdirSync(folder, { withFileTypes: true })) {
            const at = path.join(folder, entry.name);
            if (entry.isDirectory()) look(at);
            else if (entry.isFile() && endings.some((it) => entry.name.endsWith(it))) found.push(at);
        }
    };
    for (const folder of (process.env.CORPUS ?? '/usr/share/nodejs:/usr/lib/node_modules').split(':')) if (fs.existsSync(folder)) look(folder);
    return found.sort().slice(0, COUNT);
}

/** The text of a file, where it is UTF-8 and has no byte order mark. */
export function textOf(file) {
    try {
        const text = new TextDecoder('utf-8', { fatal: true, ignoreBOM: true }).decode(fs.readFileSync(file));
        return text.startsWith('\uFEFF') ? undefined : text;
    } catch {
        return undefined;
    }
}

let built = process.env.ROWS;

/** Builds the program in a copy of the crates, which has its crate besides: some kits refuse links out of a repository. */
function program() {
    if (built) return built;
    const folder = fs.mkdtempSync(path.join(os.tmpdir(), 'modules-'));
    fs.mkdirSync(path.join(folder, '.git'));
    fs.cpSync(path.join(TOP, 'crates'), path.join(folder, 'crates'), { recursive: true, filter: (from) => path.basename(from) !== 'out' });
    fs.mkdirSync(path.join(folder, 'crates', CRATE, 'src'), { recursive: true });
    fs.writeFileSync(path.join(folder, 'crates.txt'), `${fs.readFileSync(path.join(TOP, 'crates.txt'), 'utf8')}${CRATE}: ${USES}\n`);
    fs.copyFileSync(path.join(HERE, 'program.txt'), path.join(folder, 'crates', CRATE, 'src', 'main.rt'));
    const file = path.join(folder, 'program');
    execFileSync(path.join(TOP, 'bench', 'unproved'), [CRATE, file, folder], { stdio: 'inherit' });
    process.on('exit', () => fs.rmSync(folder, { recursive: true, force: true }));
    return (built = file);
}

const span = (numbers, at) => [numbers[at], numbers[at + 1]];

function importOf(words) {
    const n = words.slice(4).map(Number);
    return {
        form: words[1], phase: words[2], isType: words[3] === 'type', statement: span(n, 0), specifier: span(n, 2), argument: span(n, 4),
        paren: n[6], attributes: span(n, 8), firstExport: n[10], exports: n[11],
    };
}

function exportOf(words) {
    const n = words.slice(2).map(Number);
    return { isType: words[1] === 'type', name: span(n, 0), local: span(n, 2) };
}

/** The rows of texts; places are bytes. */
export function rowsOf(texts, typescript) {
    const frames = texts.flatMap((text) => {
        const bytes = Buffer.from(text);
        return [Buffer.from(`${String(bytes.length).padStart(10, '0')} ${typescript ? 't' : 'j'}-\n`), bytes];
    });
    const input = path.join(fs.mkdtempSync(path.join(os.tmpdir(), 'modules-')), 'texts');
    fs.writeFileSync(input, Buffer.concat(frames));
    const out = execFileSync(program(), { stdio: [fs.openSync(input), 'pipe', 'inherit'], maxBuffer: 1 << 30 }).toString();
    fs.rmSync(path.dirname(input), { recursive: true });
    const all = [];
    let rows = { imports: [], exports: [] };
    for (const line of out.split('\n').filter(Boolean)) {
        const words = line.split(' ');
        if (words[0] === 'I') rows.imports.push(importOf(words));
        else if (words[0] === 'E') rows.exports.push(exportOf(words));
        else {
            all.push({ ...rows, isFacade: words[1] === 'true', hasModuleSyntax: words[2] === 'true' });
            rows = { imports: [], exports: [] };
        }
    }
    if (all.length !== texts.length) throw new Error(`${all.length} of ${texts.length} texts were read`);
    return all;
}

/** Makes places of bytes places of units; -1 is no place. */
export function unitsOf(text) {
    const bytes = Buffer.from(text);
    if (bytes.length === text.length) return (place) => place;
    return (place) => (place < 0 ? place : bytes.subarray(0, place).toString('utf8').length);
}

/** Says where lists differ; answers whether they do. */
export function differs(name, text, wanted, got) {
    const length = Math.max(wanted.length, got.length);
    for (let i = 0; i < length; i++) {
        if (JSON.stringify(wanted[i]) === JSON.stringify(got[i])) continue;
        console.log(`${name}: row ${i}: ${JSON.stringify(wanted[i])} is ${JSON.stringify(got[i])}${text.length < 300 ? ` in ${JSON.stringify(text)}` : ''}`);
        return true;
    }
    return false;
}
