// The built command's `imports` beside es-module-lexer: processor time of one run of each over ten files, by turns. A run of
// es-module-lexer is a process of node; that of its calls alone is beside it.
import { spawnSync } from 'node:child_process';
import fs from 'node:fs';
import path from 'node:path';
import { fileURLToPath } from 'node:url';
import { moduleLexer, someFiles, TOP } from './texts.mjs';

const FILES = 10, ROUNDS = 7;
const ECMA = process.env.ECMA ?? path.join(TOP, 'crates/ecma/out/ecma');
const SELF = fileURLToPath(import.meta.url);

/** The largest modules, which both read. */
function largestModules(lexer) {
    const isRead = (file) => {
        const text = fs.readFileSync(file, 'utf8');
        try {
            const [imports, exports] = lexer.parse(text);
            return imports.length + exports.length > 0;
        } catch {
            return false;
        }
    };
    const sized = someFiles(20_000, 2_000_000, /\.m?js$/).map((file) => [fs.statSync(file).size, file]).sort(([one], [other]) => other - one);
    const found = [];
    for (const [size, file] of sized) {
        if (found.length === FILES) break;
        if (isRead(file)) found.push([size, file]);
    }
    return found;
}

/** Seconds of processor time of a command, by the shell's account. */
function secondsOf(command, words) {
    const script = 'TIMEFORMAT="%U %S"; time "$@" > /dev/null';
    const said = spawnSync('bash', ['-c', script, 'bash', command, ...words], { encoding: 'utf8' });
    const [user, system] = said.stderr.trim().split('\n').at(-1).split(' ').map(Number);
    return user + system;
}

/** Seconds of es-module-lexer's calls alone, in a process of its own: what it prints. */
function secondsOfCalls(files) {
    return Number(spawnSync('node', [SELF, ...files], { encoding: 'utf8' }).stdout);
}

async function parseAll(files) {
    const lexer = await moduleLexer();
    let spent = 0;
    for (const file of files) {
        const text = fs.readFileSync(file, 'utf8'), before = process.cpuUsage();
        lexer.parse(text);
        const { user, system } = process.cpuUsage(before);
        spent += user + system;
    }
    console.log(spent / 1e6);
}

const least = (times) => Math.min(...times);

export async function run() {
    const lexer = await moduleLexer();
    if (!lexer || !fs.existsSync(ECMA)) {
        console.log('command: es-module-lexer (Debian: node-es-module-lexer) or crates/ecma/out/ecma is missing, nothing was measured');
        return 0;
    }
    const found = largestModules(lexer), files = found.map(([, file]) => file);
    const bytes = found.reduce((sum, [size]) => sum + size, 0);
    const times = { command: [], process: [], calls: [] };
    for (let round = 0; round < ROUNDS; round++) {
        times.command.push(secondsOf(ECMA, ['imports', ...files]));
        times.process.push(secondsOf('node', [SELF, ...files]));
        times.calls.push(secondsOfCalls(files));
    }
    console.log(`command: ${files.length} modules, ${bytes} bytes, least of ${ROUNDS} rounds by turns, milliseconds of processor time`);
    for (const [name, spent] of Object.entries(times)) console.log(`command: ${name} ${(least(spent) * 1000).toFixed(1)}`);
    return 0;
}

if (process.argv[1] === SELF) await parseAll(process.argv.slice(2));
