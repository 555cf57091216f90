// acorn.mjs beside acorn: the tokens that acorn's parser reads, so that a slash is what the grammar says.
import { load } from '../../uses/js/ecma/ecma.mjs';
import { tokenizer } from '../../uses/js/ecma/acorn.mjs';
import { installed, read, someFiles } from './texts.mjs';

/** The tokens of a file that acorn parses as a module or as a script, or nothing. */
function parsed(acorn, text) {
    for (const sourceType of ['module', 'script']) {
        const onToken = [];
        try {
            acorn.parse(text, { ecmaVersion: 'latest', sourceType, allowHashBang: true, allowReturnOutsideFunction: true, onToken });
            return onToken.filter((it) => it.type !== acorn.tokTypes.eof);
        } catch {
            // Then as the other.
        }
    }
    return undefined;
}

function isSameValue(one, other) {
    if (one && typeof one === 'object') return one.pattern === other.pattern && one.flags === other.flags;
    return Object.is(one, other);
}

function isSame(one, other) {
    return other && one.type === other.type && one.start === other.start && one.end === other.end && isSameValue(one.value, other.value);
}

const shown = (token) => token && [token.type.label, String(token.value).slice(0, 40), token.start, token.end];

/** The first token that differs, and how many were compared. */
function difference(text, types, wanted) {
    const found = [...tokenizer(text, types)];
    const at = wanted.findIndex((it, i) => !isSame(it, found[i]));
    if (at >= 0) return [[shown(wanted[at]), shown(found[at])], at];
    return [found.length === wanted.length ? undefined : [wanted.length, found.length], wanted.length];
}

export async function run({ acorn: most }) {
    const acorn = installed('acorn');
    if (!acorn) {
        console.log('acorn: it is not installed (Debian: node-acorn), nothing was compared');
        return 0;
    }
    await load();
    let files = 0, tokens = 0, differ = 0, refused = 0;
    for (const file of someFiles(most, 500_000, /\.[mc]?js$/)) {
        const text = read(file).toString(), wanted = parsed(acorn, text);
        if (!wanted) {
            refused++;
            continue;
        }
        const [what, compared] = difference(text, acorn.tokTypes, wanted);
        files++;
        tokens += compared;
        if (what && differ++ < 8) console.log(`differs: ${file}: ${JSON.stringify(what)}`);
    }
    console.log(`acorn ${acorn.version}: ${files} files (${refused} that it refuses), ${tokens} tokens, ${differ} files differ`);
    return differ;
}
