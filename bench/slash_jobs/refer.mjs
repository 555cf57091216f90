/* Writes the places of bench/slash_forms.txt anew, by the parsers. */
import fs from 'node:fs';
import { TABLE, forms } from './forms.mjs';
import { byParser, parsersAreThere } from './parsers.mjs';

const written = (places) => places.join(',') || '-';

export function run() {
    if (!parsersAreThere('refer')) return 1;
    const head = fs.readFileSync(TABLE, 'utf8').split('\n').filter((line) => line.startsWith('#'));
    let refused = 0;
    const rows = forms().map(({ extension, text }) => {
        const known = byParser(text, extension);
        if (!known) {
            refused += 1;
            console.log(`refer: ${extension} ${JSON.stringify(text)} is refused`);
            return null;
        }
        const goal = known.isModule ? 'module' : 'script';
        return [extension, goal, written(known.expressions), written(known.divisions), JSON.stringify(text)].join(' ');
    });
    fs.writeFileSync(TABLE, [...head, ...rows.filter(Boolean), ''].join('\n'));
    console.log(`refer: ${rows.length - refused} forms`);
    return refused;
}
