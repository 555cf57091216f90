// The module with SIMD beside the one without: rows, comments, errors, imports, canonical text and count of each text.
import { createHash } from 'node:crypto';
import path from 'node:path';
import * as ecma from '../../uses/js/ecma/ecma.mjs';
import { TOP, randomTexts, read, someFiles } from './texts.mjs';

const SETTINGS = [{}, { typescript: true, module: true }];
const CALLS = ['tokenRows', 'comments', 'errors', 'imports', 'canonical', 'count'];

/** What all calls answer of a text, or the code of what they throw. */
function answers(text, settings) {
    const hash = createHash('sha1');
    for (const call of CALLS) {
        let answer;
        try {
            answer = ecma[call](text, settings);
        } catch (error) {
            answer = error.code;
        }
        hash.update(answer instanceof Uint32Array ? answer : JSON.stringify(answer ?? null)).update('\n');
    }
    return hash.digest('latin1');
}

function allAnswers(module, texts) {
    ecma.loadSync(read(path.join(TOP, 'uses', 'js', 'ecma', module)));
    return texts.flatMap((text) => SETTINGS.map((settings) => answers(text, settings)));
}

export function run({ files, pairs }) {
    const ofFiles = someFiles(files, 300_000).map(read);
    const texts = [...ofFiles, ...ofFiles.map((it) => it.toString()), ...randomTexts(pairs, 9, true)];
    const one = allAnswers('ecma.wasm', texts), other = allAnswers('ecma-plain.wasm', texts);
    const differing = one.flatMap((it, i) => (it === other[i] ? [] : [i]));
    for (const i of differing.slice(0, 3)) console.log(`differs: ${JSON.stringify(String(texts[i >> 1]).slice(0, 200))}`);
    console.log(`modules: ${ofFiles.length} files and ${pairs} random texts, ${one.length * CALLS.length} answers, ${differing.length} differ`);
    return differing.length;
}
