// Processor time by turns in one process: each round runs every job once on a file, and the least time of a job counts.
import { spawnSync } from 'node:child_process';
import fs from 'node:fs';
import path from 'node:path';
import { gzipSync } from 'node:zlib';
import * as ecma from '../../uses/js/ecma/ecma.mjs';
import { tokenizer } from '../../uses/js/ecma/acorn.mjs';
import { TOP, installed, moduleLexer } from './texts.mjs';

const FILES = ['/usr/share/javascript/three/three.js', '/usr/share/nodejs/typescript/lib/typescript.js', '/usr/share/nodejs/lodash/lodash.js'];
const PACKAGE = path.join(TOP, 'uses', 'js', 'ecma');
/** A turn reads so many bytes at least, so that the clock of processor time is fine enough. */
const TURN_BYTES = 3_000_000;
const ROUNDS = Number(process.env.ROUNDS ?? 10);

const drain = (iterable) => {
    for (const it of iterable) if (it === undefined) throw new Error('no token');
};

/** Ignores what a job throws: es-module-lexer does for scripts that it can't read. */
const tried = (work) => () => {
    try {
        work();
    } catch {
        // It has read as far as it could.
    }
};

const BY_FLAG = { slashes: 'flag' };
/** What stands behind the name of a job that asks the lexer's flag, not the tokens before a slash. */
const FLAGGED = ', by the flag';

/** What is measured, by the name of its row. */
function jobsOf(bytes, text, others) {
    const { acorn, lexer, typescript } = others;
    const jobs = {
        'tokenRows of bytes': () => ecma.tokenRows(bytes),
        'tokenRows of a string': () => ecma.tokenRows(text),
        'tokens (iterator)': () => drain(ecma.tokens(text)),
        'tokenArray': () => ecma.tokenArray(text),
        'comments': () => ecma.comments(text),
        'errors': () => ecma.errors(text),
        'canonical': () => ecma.canonical(text),
        'imports': () => ecma.imports(text),
        'count': () => ecma.count(text),
        [`tokenRows of bytes${FLAGGED}`]: () => ecma.tokenRows(bytes, BY_FLAG),
        [`tokenRows of a string${FLAGGED}`]: () => ecma.tokenRows(text, BY_FLAG),
        [`tokens (iterator)${FLAGGED}`]: () => drain(ecma.tokens(text, BY_FLAG)),
        [`imports${FLAGGED}`]: () => ecma.imports(text, BY_FLAG),
    };
    if (acorn) {
        jobs['acorn.mjs'] = () => drain(tokenizer(text, acorn.tokTypes));
        jobs[`acorn.mjs${FLAGGED}`] = () => drain(tokenizer(text, acorn.tokTypes, BY_FLAG));
        jobs.acorn = () => drain(acorn.tokenizer(text, { ecmaVersion: 'latest' }));
    }
    if (lexer) jobs['es-module-lexer'] = tried(() => lexer.parse(text));
    if (typescript) {
        jobs["TypeScript's scanner"] = () => {
            const scanner = typescript.createScanner(typescript.ScriptTarget.Latest, true, typescript.LanguageVariant.Standard, text);
            while (scanner.scan() !== typescript.SyntaxKind.EndOfFileToken);
        };
    }
    return jobs;
}

/** Seconds of processor time that a turn takes, for one reading. */
function timed(work, times) {
    const begin = process.cpuUsage();
    for (let i = 0; i < times; i++) work();
    const { user, system } = process.cpuUsage(begin);
    return (user + system) / 1e6 / times;
}

function contents(file) {
    const bytes = new Uint8Array(fs.readFileSync(file));
    return { bytes, text: Buffer.from(bytes).toString() };
}

/** Takes another module, whose memory has grown before it is measured. */
function take(module, bytes) {
    ecma.loadSync(module);
    ecma.tokenRows(bytes);
}

function measure(file, modules, others) {
    const { bytes, text } = contents(file);
    const jobs = jobsOf(bytes, text, others), times = Math.ceil(TURN_BYTES / bytes.length), best = {};
    const turn = (name, work) => {
        const seconds = timed(work, times);
        best[name] = Math.min(best[name] ?? Infinity, seconds);
    };
    for (let round = 0; round < ROUNDS; round++) {
        take(modules['ecma.wasm'], bytes);
        for (const [name, work] of Object.entries(jobs)) turn(name, work);
        take(modules['ecma-plain.wasm'], bytes);
        turn('tokenRows of bytes, plain', jobs['tokenRows of bytes']);
        turn('tokenRows of a string, plain', jobs['tokenRows of a string']);
    }
    ecma.loadSync(modules['ecma.wasm']);
    return Object.fromEntries(Object.entries(best).map(([name, seconds]) => [name, bytes.length / 1e6 / seconds]));
}

function printTable(columns) {
    const names = Object.keys(Object.values(columns)[0]);
    console.log(`| MB/s of processor time | ${Object.keys(columns).map((it) => path.basename(it)).join(' | ')} |`);
    console.log(`|---|${'---|'.repeat(Object.keys(columns).length)}`);
    for (const name of names) console.log(`| ${name} | ${Object.values(columns).map((it) => it[name].toFixed(1)).join(' | ')} |`);
}

const PAIRS = [
    ['tokenRows of a string', 'acorn'], ['tokenRows of bytes', 'acorn'], ['tokens (iterator)', 'acorn'], ['acorn.mjs', 'acorn'],
    ['imports', 'es-module-lexer'],
];

const middle = (numbers) => numbers.sort((a, b) => a - b)[numbers.length >> 1];

/** How many times as fast one job is as another: the middle of rounds in which one is timed right behind the other. */
function ratio(jobs, one, other, times) {
    if (!jobs[other]) return '?';
    const ratios = Array.from({ length: ROUNDS }, () => {
        const first = timed(jobs[one], times), second = timed(jobs[other], times), third = timed(jobs[one], times);
        return (2 * second) / (first + third);
    });
    return middle(ratios).toFixed(2);
}

/** The ratios of all pairs, on a file whose jobs were run before. */
function printRatios(file, others) {
    const { bytes, text } = contents(file), jobs = jobsOf(bytes, text, others), times = Math.ceil(TURN_BYTES / bytes.length);
    for (const [one, other] of PAIRS) {
        const ratios = [one, one + FLAGGED].map((it) => ratio(jobs, it, other, times));
        console.log(`${path.basename(file)}: ${one} over ${other}: ${ratios[0]}, by the flag ${ratios[1]}`);
    }
}

/** Runs a script in a process of its own, as often as asked, and answers the numbers that it writes, least first. */
function inProcess(script, times) {
    const numbers = Array.from({ length: times }, () => {
        const made = spawnSync(process.execPath, ['--input-type=module', '-e', `import * as ecma from ${JSON.stringify(path.join(PACKAGE, 'ecma.mjs'))};\n${script}`]);
        return Number(made.stdout);
    });
    return numbers.sort((a, b) => a - b);
}

const LOAD = 'const begin = performance.now(); await ecma.load(); console.log(performance.now() - begin);';
const FIRST = "await ecma.load(); const begin = performance.now(); ecma.tokenRows('let x = 1;'); console.log(performance.now() - begin);";
const CALLS = `await ecma.load(); const run = (times) => { for (let i = 0; i < times; i++) ecma.tokenRows('let x = 1;'); };
run(100000); const begin = process.cpuUsage(); run(100000); const { user, system } = process.cpuUsage(begin); console.log((user + system) / 100000);`;

function printSmall() {
    console.log(`load: ${middle(inProcess(LOAD, 9)).toFixed(1)} ms; the first call behind it: ${middle(inProcess(FIRST, 9)).toFixed(1)} ms`);
    console.log(`a call on \`let x = 1;\`: ${inProcess(CALLS, 3)[0].toFixed(2)} microseconds`);
    for (const name of fs.readdirSync(PACKAGE).filter((it) => /\.(wasm|mjs)$/.test(it))) {
        const bytes = fs.readFileSync(path.join(PACKAGE, name));
        console.log(`${name}: ${bytes.length} bytes, ${gzipSync(bytes, { level: 9 }).length} by gzip`);
    }
}

/** What the memory of the module has in use behind a call, beyond the text and its rows; of what it holds, as Linux tells of it. */
const MEMORY = String.raw`import fs from 'node:fs';
await ecma.load();
const text = fs.readFileSync(process.env.TEXT, 'utf8'), rows = ecma.tokenRows(text);
const mapping = fs.readFileSync('/proc/self/smaps', 'utf8').split(/\n(?=[\da-f]+-)/).find((it) => Number(/^Size: +(\d+)/m.exec(it)[1]) * 1024 === ecma.memory());
console.log(mapping ? Number(/^Rss: +(\d+)/m.exec(mapping)[1]) * 1024 - Buffer.byteLength(text) - rows.byteLength : NaN);`;

function printMemory(file) {
    process.env.TEXT = file;
    const [least] = inProcess(MEMORY, 1);
    console.log(`${path.basename(file)}: the module uses ${(least / 1e6).toFixed(2)} MB beyond the text and its rows`);
}

export async function run() {
    const others = { acorn: installed('acorn'), lexer: await moduleLexer(), typescript: installed('typescript') };
    const modules = Object.fromEntries(['ecma.wasm', 'ecma-plain.wasm'].map((name) => [name, new WebAssembly.Module(fs.readFileSync(path.join(PACKAGE, name)))]));
    const files = (process.env.FILES?.split(':') ?? FILES).filter((it) => fs.existsSync(it));
    const columns = Object.fromEntries(files.map((file) => [file, measure(file, modules, others)]));
    if (files.length) printTable(columns);
    for (const file of files) printRatios(file, others);
    printSmall();
    files.forEach(printMemory);
    return 0;
}
