/* What the program `ecma` reads. Places are in bytes from a text's start. */
import fs from 'node:fs';
import os from 'node:os';
import path from 'node:path';
import { spawnSync } from 'node:child_process';
import { fileURLToPath } from 'node:url';

export const TOP = path.dirname(path.dirname(path.dirname(fileURLToPath(import.meta.url))));
export const SEED = Number(process.env.SEED ?? 1);
export const COUNT = Number(process.env.COUNT ?? 2000);

const ECMA = process.env.ECMA ?? path.join(TOP, 'crates/ecma/out/ecma');
const WORDS = (process.env.WORDS ?? '').split(' ').filter(Boolean);
const FILES_AT_ONCE = 100;

/* A place of a string as one in bytes. */
export const bytePlace = (text, place) => Buffer.byteLength(text.slice(0, place));

/* The slashes of each file: those of regular expressions and those of divisions. */
function slashesOfFiles(files, words) {
    const found = new Map(files.map((file) => [file, { expressions: [], divisions: [] }]));
    const ran = spawnSync(ECMA, ['tokens', '--json', ...WORDS, ...words, ...files], { maxBuffer: 2 ** 30 });
    if (ran.error) throw new Error(`${ECMA}: ${ran.error.message}`);
    for (const line of ran.stdout.toString().split('\n')) {
        if (!line) continue;
        const row = JSON.parse(line);
        const slashes = found.get(row.file);
        if (row.kind === 'regexp') slashes.expressions.push(row.lo);
        else if (row.kind === 'punctuator' && (row.text === '/' || row.text === '/=')) slashes.divisions.push(row.lo);
    }
    return found;
}

/* The slashes of texts, each with its extension, and whether it is a module whatever that says. */
export function slashesOf(texts) {
    const folder = fs.mkdtempSync(path.join(os.tmpdir(), 'slashes-'));
    const files = texts.map((it, at) => path.join(folder, `${at}${it.extension}`));
    texts.forEach((it, at) => fs.writeFileSync(files[at], it.text));
    const found = [];
    for (const isModule of [false, true]) {
        const asked = texts.map((_, at) => at).filter((at) => Boolean(texts[at].isModule) === isModule);
        for (let from = 0; from < asked.length; from += FILES_AT_ONCE) {
            const some = asked.slice(from, from + FILES_AT_ONCE);
            const told = slashesOfFiles(some.map((at) => files[at]), isModule ? ['--module'] : []);
            for (const at of some) found[at] = told.get(files[at]);
        }
    }
    fs.rmSync(folder, { recursive: true });
    return found;
}

const isSame = (a, b) => a.expressions.join() === b.expressions.join() && a.divisions.join() === b.divisions.join();

/* Compares texts with what is known of them, tells what differs, and answers how many do. */
export function compare(name, texts) {
    const found = slashesOf(texts);
    let differ = 0;
    let expressions = 0;
    let divisions = 0;
    texts.forEach((it, at) => {
        expressions += it.known.expressions.length;
        divisions += it.known.divisions.length;
        if (isSame(found[at], it.known)) return;
        differ += 1;
        if (differ <= 20) console.log(`${name}: ${it.name ?? JSON.stringify(it.text)}: ${tell(found[at])}, and not ${tell(it.known)}`);
    });
    const slashes = `${expressions} regular expressions, ${divisions} divisions`;
    console.log(`${name}: ${texts.length} texts, ${slashes}: ${differ} texts differ`);
    return differ;
}

const shown = (places) => (places.length > 8 ? `${places.slice(0, 8).join(' ')} ..` : places.join(' ') || 'none');

const tell = (slashes) => `expressions ${shown(slashes.expressions)}, divisions ${shown(slashes.divisions)}`;
