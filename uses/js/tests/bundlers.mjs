// The bundlers that are tried, as their commands bundle for browsers.
import assert from 'node:assert/strict';
import { spawnSync } from 'node:child_process';
import fs from 'node:fs';
import path from 'node:path';

const isProgram = (name) => spawnSync(name, ['--version']).error === undefined;

/** rollup finds packages by a plugin, which this is in short: by the name in `exports`, for browsers. */
const ROLLUP_SETTINGS = `
    import fs from 'node:fs';
    const told = JSON.parse(fs.readFileSync('node_modules/fintaluy/package.json', 'utf8'));
    const resolveId = (name) => {
        const found = name.startsWith('fintaluy') && told.exports['.' + name.slice('fintaluy'.length)];
        return found ? fs.realpathSync('node_modules/fintaluy/' + (found.browser ?? found.default)) : null;
    };
    export default { plugins: [{ name: 'packages', resolveId }] };`;

/** By name: whether it is there, the words for scripts and for a module, and for an entry and what it is to make. */
export const BUNDLERS = {
    esbuild: {
        isThere: () => isProgram('esbuild'),
        scripts: [['--format=iife'], ['--format=iife', '--minify', '--target=es2022']],
        module: ['--format=esm'],
        words: (entry, made) => [entry, '--bundle', '--platform=browser', '--log-level=warning', `--outfile=${made}`],
    },
    rollup: {
        isThere: () => isProgram('rollup'),
        scripts: [['--format', 'iife'], ['--format', 'umd', '--compact']],
        module: ['--format', 'es'],
        words: (entry, made) => ['--config', 'settings.mjs', '--silent', '--failAfterWarnings', '--input', entry, '--file', made],
    },
};

/** Bundles a program by one of them in a folder that has the package; answers where the bundle is. */
export function bundle(name, folder, program, words) {
    fs.writeFileSync(path.join(folder, 'entry.mjs'), program);
    fs.writeFileSync(path.join(folder, 'settings.mjs'), ROLLUP_SETTINGS);
    const made = path.join(folder, 'made', 'bundle.js');
    const ran = spawnSync(name, [...BUNDLERS[name].words('entry.mjs', made), ...words], { cwd: folder, encoding: 'utf8' });
    assert.equal(ran.status, 0, ran.stderr);
    assert.equal(ran.stderr, '');
    return made;
}
