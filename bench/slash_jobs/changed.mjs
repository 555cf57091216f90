/* Real files in which random operands became regular expressions, and random operators divisions. */
import { SEED, compare } from './program.mjs';
import { byParser, parsersAreThere, typescript as ts } from './parsers.mjs';
import { randomFrom } from './random.mjs';
import { sampled } from './files.mjs';

const SHARE = 0.3;
const DEEPEST = 1500;
const LONGEST = 400_000;
const TRIES = 5;

const OPERATORS = ts && new Set([
    ts.SyntaxKind.PlusToken, ts.SyntaxKind.MinusToken, ts.SyntaxKind.AsteriskToken, ts.SyntaxKind.PercentToken,
    ts.SyntaxKind.LessThanToken, ts.SyntaxKind.GreaterThanToken, ts.SyntaxKind.LessThanEqualsToken,
    ts.SyntaxKind.GreaterThanEqualsToken, ts.SyntaxKind.EqualsEqualsToken, ts.SyntaxKind.EqualsEqualsEqualsToken,
    ts.SyntaxKind.ExclamationEqualsToken, ts.SyntaxKind.ExclamationEqualsEqualsToken, ts.SyntaxKind.AmpersandToken,
    ts.SyntaxKind.BarToken, ts.SyntaxKind.CaretToken, ts.SyntaxKind.AmpersandAmpersandToken, ts.SyntaxKind.BarBarToken,
    ts.SyntaxKind.LessThanLessThanToken,
]);

/* Kinds of nodes of which an operand may be any expression. */
const HOLDERS = ts && new Set([
    ts.SyntaxKind.ParenthesizedExpression, ts.SyntaxKind.ReturnStatement, ts.SyntaxKind.ArrayLiteralExpression,
    ts.SyntaxKind.ConditionalExpression, ts.SyntaxKind.IfStatement, ts.SyntaxKind.WhileStatement, ts.SyntaxKind.CaseClause,
    ts.SyntaxKind.ThrowStatement, ts.SyntaxKind.SpreadElement, ts.SyntaxKind.TemplateSpan, ts.SyntaxKind.TypeAssertionExpression,
    ts.SyntaxKind.AsExpression, ts.SyntaxKind.NonNullExpression, ts.SyntaxKind.AwaitExpression, ts.SyntaxKind.YieldExpression,
    ts.SyntaxKind.VoidExpression, ts.SyntaxKind.TypeOfExpression, ts.SyntaxKind.SwitchStatement, ts.SyntaxKind.ExportAssignment,
    ts.SyntaxKind.ElementAccessExpression,
]);

/* Kinds of nodes in which nothing is changed: types hold no expression. */
const TYPES = ts && new Set([
    ts.SyntaxKind.InterfaceDeclaration, ts.SyntaxKind.TypeLiteral, ts.SyntaxKind.FunctionType, ts.SyntaxKind.ConstructorType,
    ts.SyntaxKind.MappedType,
]);

const OPERANDS = ts && new Set([
    ts.SyntaxKind.NumericLiteral, ts.SyntaxKind.StringLiteral, ts.SyntaxKind.Identifier, ts.SyntaxKind.NoSubstitutionTemplateLiteral,
]);

const isAssigned = (node) => {
    const sign = node.operatorToken.kind;
    return sign >= ts.SyntaxKind.FirstAssignment && sign <= ts.SyntaxKind.LastAssignment;
};

/* Whether the operand may be any expression. */
function isFree(node) {
    const parent = node.parent;
    if (!parent || !OPERANDS.has(node.kind)) return false;
    if (HOLDERS.has(parent.kind)) return true;
    if (ts.isBinaryExpression(parent)) return !(parent.left === node && isAssigned(parent));
    if (ts.isCallExpression(parent)) return parent.arguments.includes(node);
    return parent.initializer === node && (ts.isVariableDeclaration(parent) || ts.isPropertyAssignment(parent));
}

/* What may be changed in a file: pairs of a span and what stands there instead. */
function changesOf(file, random) {
    const changes = [];
    const visit = (node, depth) => {
        const isImplements = node.kind === ts.SyntaxKind.HeritageClause && node.token === ts.SyntaxKind.ImplementsKeyword;
        if (depth > DEEPEST || isImplements || TYPES.has(node.kind)) return;
        if (ts.isBinaryExpression(node) && OPERATORS.has(node.operatorToken.kind) && random() < SHARE) {
            changes.push({ from: node.operatorToken.getStart(file), to: node.operatorToken.end, text: ' / ' });
        }
        if (isFree(node) && random() < SHARE) changes.push({ from: node.getStart(file), to: node.end, text: '/re"/ ' });
        ts.forEachChild(node, (child) => visit(child, depth + 1));
    };
    visit(file, 0);
    return changes.sort((a, b) => a.from - b.from);
}

function changed(text, changes) {
    let out = '';
    let at = 0;
    for (const change of changes) {
        if (change.from < at) continue;
        out += text.slice(at, change.from);
        if (/[/*<]$/.test(out)) out += ' ';
        out += change.text;
        at = change.to;
    }
    return out + text.slice(at);
}

/* The file with as many changes as its parser takes, or null. */
function changedFile({ extension, text, name }, random) {
    const kind = extension.includes('ts') ? ts.ScriptKind.TS : ts.ScriptKind.JS;
    const file = ts.createSourceFile(`a${extension}`, text, ts.ScriptTarget.Latest, true, kind);
    if (file.parseDiagnostics.length) return null;
    let changes = changesOf(file, random);
    for (let tried = 0; tried < TRIES && changes.length; tried++) {
        const out = changed(text, changes);
        const known = byParser(out, extension);
        if (known) return { name, extension, text: out, known, isModule: known.isModule };
        changes = changes.filter(() => random() < 0.4);
    }
    return null;
}

export function run() {
    if (!parsersAreThere('changed')) return 0;
    const random = randomFrom(SEED * 7919);
    const files = sampled().filter((it) => it.text.length <= LONGEST);
    return compare('changed', files.map((it) => changedFile(it, random)).filter(Boolean));
}
