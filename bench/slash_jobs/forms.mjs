/* The forms of bench/slash_forms.txt: an extension, the places of regular expressions and of divisions, and the text as JSON. */
import fs from 'node:fs';
import path from 'node:path';
import { TOP, compare } from './program.mjs';

export const TABLE = path.join(TOP, 'bench/slash_forms.txt');

export const places = (words) => (words === '-' ? [] : words.split(',').map(Number));

export function forms() {
    const lines = fs.readFileSync(TABLE, 'utf8').split('\n').filter((line) => line && !line.startsWith('#'));
    return lines.map((line) => {
        const [extension, goal, expressions, divisions, ...text] = line.split(' ');
        const known = { expressions: places(expressions), divisions: places(divisions) };
        return { extension, isModule: goal === 'module', known, text: JSON.parse(text.join(' ')) };
    });
}

export const run = () => compare('forms', forms());
