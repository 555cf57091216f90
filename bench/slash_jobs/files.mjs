/* Real files. */
import fs from 'node:fs';
import path from 'node:path';
import { COUNT, compare } from './program.mjs';
import { byParser, parsersAreThere } from './parsers.mjs';

const CORPUS = (process.env.CORPUS ?? '/usr/share/nodejs:/usr/lib/node_modules:/usr/share/javascript').split(':');
const LONGEST = 3_000_000;

function* filesBelow(folder) {
    let entries;
    try {
        entries = fs.readdirSync(folder, { withFileTypes: true });
    } catch {
        return;
    }
    for (const entry of entries) {
        const file = path.join(folder, entry.name);
        if (entry.isDirectory()) yield* filesBelow(file);
        else if (entry.isFile() && /\.[mc]?[jt]s$/.test(entry.name)) yield file;
    }
}

/* Files of code with their texts, as many as COUNT, spread over all that there are. */
export function sampled() {
    const files = CORPUS.flatMap((folder) => [...filesBelow(folder)]);
    const step = Math.max(1, files.length / COUNT);
    const texts = [];
    for (let at = 0; at < files.length; at += step) {
        const file = files[Math.floor(at)];
        const text = fs.readFileSync(file, 'utf8');
        if (text.length <= LONGEST && !text.includes('\ufffd')) texts.push({ name: file, extension: /\.[mc]?[jt]s$/.exec(file)[0], text });
    }
    return texts;
}

export function run() {
    if (!parsersAreThere('files')) return 0;
    const texts = [];
    for (const it of sampled()) {
        const known = byParser(it.text, it.extension);
        if (known) texts.push({ ...it, known, isModule: known.isModule });
    }
    return compare('files', texts);
}
