/* What acorn's and TypeScript's parsers say of the slashes of a text. Places are in bytes. */
import { createRequire } from 'node:module';
import path from 'node:path';
import { bytePlace } from './program.mjs';

const PACKAGES = process.env.PACKAGES ?? '/usr/share/nodejs';
const require = createRequire(import.meta.url);

function loaded(name) {
    try {
        return require(path.join(PACKAGES, name));
    } catch {
        return null;
    }
}

export const typescript = loaded('typescript/lib/typescript.js');
export const acorn = loaded('acorn');

/* Whether both parsers are there; tells which is not. */
export function parsersAreThere(job) {
    for (const [name, found] of [['acorn', acorn], ['typescript', typescript]]) {
        if (!found) {
            console.log(`${job}: ${name} is not installed in ${PACKAGES}: passed over`);
            return false;
        }
    }
    return true;
}

const isScript = (extension) => !extension.includes('ts');

const ascending = (text, places) => places.sort((a, b) => a - b).map((place) => bytePlace(text, place));

/* By TypeScript's parser, or null where it refuses the text. */
export function byTypescript(text, extension) {
    const ts = typescript;
    const kind = isScript(extension) ? ts.ScriptKind.JS : ts.ScriptKind.TS;
    const file = ts.createSourceFile(`a${extension}`, text, ts.ScriptTarget.Latest, false, kind);
    if (file.parseDiagnostics.length) return null;
    const expressions = [];
    const divisions = [];
    const nodes = [file];
    while (nodes.length) {
        const node = nodes.pop();
        if (node.kind === ts.SyntaxKind.RegularExpressionLiteral) expressions.push(node.end - node.text.length);
        if (node.kind === ts.SyntaxKind.BinaryExpression) {
            const sign = node.operatorToken;
            if (sign.kind === ts.SyntaxKind.SlashToken) divisions.push(sign.end - 1);
            if (sign.kind === ts.SyntaxKind.SlashEqualsToken) divisions.push(sign.end - 2);
        }
        ts.forEachChild(node, (child) => void nodes.push(child));
    }
    return { expressions: ascending(text, expressions), divisions: ascending(text, divisions), isModule: false };
}

/* By acorn, or null where it refuses the text. */
function byAcornAs(text, sourceType) {
    const expressions = [];
    const divisions = [];
    const onToken = (token) => {
        if (token.type.label === 'regexp') expressions.push(token.start);
        else if (token.type.label === '/' || (token.type.label === '_=' && token.value === '/=')) divisions.push(token.start);
    };
    try {
        acorn.parse(text, { ecmaVersion: 'latest', sourceType, allowHashBang: true, onToken });
    } catch {
        return null;
    }
    return { expressions: ascending(text, expressions), divisions: ascending(text, divisions), isModule: sourceType === 'module' };
}

export function byAcorn(text, extension) {
    const module = () => byAcornAs(text, 'module');
    return extension === '.mjs' ? module() : byAcornAs(text, 'script') ?? module();
}

/* By the parser of the text's language; JavaScript that acorn refuses goes to TypeScript's. Null where they refuse it. */
export function byParser(text, extension) {
    return (isScript(extension) ? byAcorn(text, extension) : null) ?? byTypescript(text, extension);
}
