// The declarations, by TypeScript's compiler where it is installed: `TSC`, a file, or that of Debian.
import assert from 'node:assert/strict';
import { spawnSync } from 'node:child_process';
import fs from 'node:fs';
import path from 'node:path';
import test from 'node:test';
import { HERE, installed } from './package.mjs';

const compiler = [process.env.TSC, '/usr/share/nodejs/typescript/lib/tsc.js'].find((it) => it && fs.existsSync(it));
const release = compiler ? Number(/Version (\d+)/.exec(spawnSync(process.execPath, [compiler, '--version'], { encoding: 'utf8' }).stdout)[1]) : 0;

// How a package is found, for which modules, with which libraries, and the releases of TypeScript that have it so.
const RESOLUTIONS = [
    ['node', 'es2022', ['es2022'], 4, 5],
    ['node16', 'node16', ['es2022', 'es2022,dom'], 4, Infinity],
    ['bundler', 'es2022', ['es2022'], 5, Infinity],
];

/** What the compiler says of files beside the package. Its own declarations are not checked, the package's are. */
function saidOf(folder, ...words) {
    const all = ['--noEmit', '--strict', '--skipDefaultLibCheck', '--target', 'es2022', ...words];
    const made = spawnSync(process.execPath, [compiler, ...all], { cwd: folder, encoding: 'utf8' });
    return made.status === 0 ? made.stdout : made.stdout + made.stderr;
}

const skip = compiler ? false : 'tsc is not installed';

for (const [resolution, module, libraries, first, last] of RESOLUTIONS) {
    const other = release < first || release > last ? `TypeScript ${release} has no ${resolution}` : false;
    test(`declarations, found as by ${resolution}`, { skip: skip || other }, async () => {
        await installed((folder) => {
            fs.writeFileSync(path.join(folder, 'package.json'), '{ "type": "module" }');
            for (const file of ['types.mts', 'types_dom.mts']) fs.copyFileSync(path.join(HERE, file), path.join(folder, file));
            for (const library of libraries) {
                const files = library.includes('dom') ? ['types.mts', 'types_dom.mts'] : ['types.mts'];
                assert.equal(saidOf(folder, '--lib', library, '--module', module, '--moduleResolution', resolution, ...files), '', library);
            }
        });
    });
}
