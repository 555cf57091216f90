/* Random programs of templates, in which the role of each slash is known.

   In a template « and » stand around a hole: R a regular expression, D a division sign, E an expression, P an operand that
   needs no parentheses, N a name, V a new name, L the number of a label, T a type, S statements. A template of statements that
   ends in ¶ may end its line without a semicolon, whatever comes next; the others end in a semicolon, or in a brace. */
import { COUNT, SEED, bytePlace, compare } from './program.mjs';
import { byAcorn, byTypescript, parsersAreThere } from './parsers.mjs';
import { randomFrom } from './random.mjs';

/* Names that a template may use. */
const NAMES = [
    'a', 'b', 'c', 'x', 'of', 'get', 'set', 'async', 'type', 'as', 'from', '$', 'K',
];

/* Types. */
const TYPES = [
    'number', 'string[]', 'A<B>', 'A<B<C>>', '{ a: «T» }', '[«T», «T»]', '(«T»)', '«T»[]', 'keyof T', 'typeof x', '"a"',
    '`a/${string}`', '() => void', '«T» | «T»', '«T» & B', 'null', 'this', 'void', 'A.B<C>', 'new () => A',
    'T extends U ? «T» : «T»',
];

/* Operands that need no parentheses. */
const OPERANDS = {
    js: [
        '«N»', '«N»', '«R»', '«R»', '(«E»)', '1', '"a/b"', '[«E», «E»]', '«N»(«E»)', '«N».if(«E»)', '«N»["a"]', 'this',
        '`a/${«E»}/b`', 'new A(«E»)', '(class { a = «E»; static { «S» } })', '(function () { «S» })',
        '(async () => await «P»)', '(x => «E»)', '(() => { «S» })',
        '({ a: «E», b() { «S» }, [«E»]: 1, get() {}, async *c() {} })', '«N»?.a', '(function* () { yield «E» })',
        'import("a")',
    ],
    ts: [
        '«N»!', '«N»[0]!', '«N»(«E»)!', '(«E» as «T»)', '(<«T»>«P»)', 'new A<«T»>(«E»)', '«N»<«T»>(«E»)',
        '((a: «T», b?: «T»): void => {})', '(async <T,>(a: T): Promise<T> => await «P»)',
        '(class<T> { x!: «T»; private readonly y: «T» = «E»; m<U>(a: «T»): «T» { «S» } })', '({ m(): «T» { «S» } })',
        '(function (this: «T», a = «E»): «T» { «S» })',
    ],
};

/* Expressions. */
const EXPRESSIONS = {
    js: [
        '«P»', '«P»', '«P» «D» «P»', '«P» «D» «P» «D» «P»', '«P» ? «E» : «E»', 'typeof «P»', '!«P»', '«N» = «E»',
        '«N»++ «D» «P»', '«P» + «E»', '«P»\n«D» «P»', '«P» < «P»', '«P» && «E»', '() => «P»', 'async «N» => await «P»',
        'void «P» «D» «P»', 'function () { «S» } «D» «P»', 'class {} «D» «P»', 'async function () {} «D» «P»', '(«P») «D» «P»',
    ],
    ts: [
        '«P» as «T»', '«N» as «T» «D» «P»', '«N»! «D» «P»', '«N»!.a «D» «P»', '«N» as any as «T» «D» «P»',
        '(a: «T»): «T» => «P»', '«N»(«P»)! «D» «P»', '<«T»>«P»',
    ],
};

/* Statements. */
const STATEMENTS = {
    js: [
        'x = «E»;', 'var «N» = «E»;', 'let «V» = «E», «V»;', 'let «V»¶', '{ «S» }', 'if («E») «P»;',
        'if («E») { «S» } else «P»;', 'while («E») «P»;', 'while («E») { break¶«S» }',
        'l«L»: while («E») { continue l«L»¶«S» }', 'do «P»; while («E»)', 'for (;«E»; «E») «P»;', 'for (const k of «E») «P»;',
        'for (k in «E») «P»;', 'switch («E») { case «E»: «S» default: «S» }', 'try { «S» } catch { «S» } finally { «S» }',
        'try { «S» } catch (e) { «S» }', 'function «V»(a, b = «E») { «S» }',
        'async function «V»() { for await (const k of «E») «P»; }', 'function* «V»() { yield¶«S» }',
        'class «V» extends B { a = «E»\n b = «E»; static { «S» } m() { «S» } get c() { return «E»; } #d; }', 'debugger¶',
        '«P»;', 'm«L»: «P»;', 'throw «E»;', 'async function «V»() { return await «E»; }', 'x\n++«P».a;', 'x = () => { «S» };',
        'var yield_ = «E»;',
    ],
    ts: [
        'type «V» = «T»¶', 'type «V»<T extends «T»> = «T»¶', 'interface I<T> extends J<«T»> { a: «T»; m(): «T» }',
        'enum F { a = 1, b = «P» «D» 2 }', 'const enum F { a }', 'namespace N.M { «S» }', 'declare module "m" { }',
        'declare const q: «T»¶',
        'abstract class A<T> extends B<«T»> implements I { abstract m(): «T»; constructor(private a: «T» = «E») { super(); } }',
        'let v: «T»¶', 'let v: «T» = «E»;', 'function f<T>(a: T, b?: «T»): a is T { «S» }', 'function f(a: «T»): «T» { «S» }',
        'declare function f(a: «T»): «T»¶', 'import «V» = require("q")¶', '@dec(«E») class A { @dec() x = «E»; }',
        'x = «N»! «D» «P»;',
    ],
    module: [
        'import "a"¶', 'import «V» from "a"¶', 'import { if as «V» } from "a"¶', 'import * as «V» from "a"¶',
        'export * from "a"¶', 'export {}¶', 'export const «V» = «E»;',
    ],
};

const EXPRESSIONS_OF_SLASHES = ['/re/', '/[/"]/', "/'/g", '/`/', '/=x/'];

const DEEPEST_TYPE = 7;
const DEEPEST_EXPRESSION = 6;

class Program {
    constructor(seed, isTypescript, isModule) {
        this.random = randomFrom(seed);
        this.isTypescript = isTypescript;
        this.isModule = isModule;
        this.text = '';
        this.expressions = [];
        this.divisions = [];
        this.names = 0;
        this.depth = 0;
        this.addStatements(3 + this.below(3));
    }

    below(count) {
        return Math.floor(this.random() * count);
    }

    pick(list) {
        return list[this.below(list.length)];
    }

    /* A template of the language. */
    template(of) {
        return this.pick(this.pick([of.js, of.js, this.isTypescript ? of.ts : of.js]));
    }

    addExpressionOfSlashes() {
        if (/[/*<]$/.test(this.text)) this.text += ' ';
        this.expressions.push(this.text.length);
        this.text += this.pick(EXPRESSIONS_OF_SLASHES);
    }

    addDivision() {
        this.text += ' ';
        this.divisions.push(this.text.length);
        this.text += '/ ';
    }

    addHole(hole, label) {
        switch (hole) {
            case 'R':
                return this.addExpressionOfSlashes();
            case 'D':
                return this.addDivision();
            case 'N':
                return this.addText(this.pick(NAMES));
            case 'V':
                return this.addText(`v${++this.names}`);
            case 'L':
                return this.addText(String(label));
            case 'T':
                return this.add(this.depth > DEEPEST_TYPE ? 'number' : this.pick(TYPES));
            case 'P':
                return this.add(this.depth > DEEPEST_EXPRESSION ? this.pick(['a', '«R»']) : this.template(OPERANDS));
            case 'E':
                return this.add(this.depth > DEEPEST_EXPRESSION ? '«P»' : this.template(EXPRESSIONS));
            default:
                return this.depth < DEEPEST_EXPRESSION ? this.addStatements(1 + this.below(2)) : undefined;
        }
    }

    addText(text) {
        this.text += text;
    }

    /* A template's text, some of whose spaces become line ends where that changes nothing. */
    addSpaced(text) {
        const may = this.random() < 0.1 && !/=> *$|^ *(=>|as )/.test(text);
        this.text += may ? text.replace(/ (?=[=+<?({]( |$))/, '\n ') : text;
    }

    add(template) {
        this.depth += 1;
        const label = template.includes('«L»') ? ++this.names : 0;
        for (const part of template.split(/(«[A-Z]»|¶)/)) {
            if (part === '¶') this.text += '\n';
            else if (part.startsWith('«')) this.addHole(part[1], label);
            else this.addSpaced(part);
        }
        this.depth -= 1;
    }

    addStatements(count) {
        for (let at = 0; at < count; at++) {
            const lists = [STATEMENTS.js, STATEMENTS.js];
            if (this.isTypescript) lists.push(STATEMENTS.ts, STATEMENTS.ts);
            if (this.isModule && this.depth === 0) lists.push(STATEMENTS.module);
            this.add(this.pick(this.pick(lists)));
            this.text += this.random() < 0.5 ? '\n' : ' ';
        }
    }
}

const EXTENSIONS = { false: { false: '.js', true: '.mjs' }, true: { false: '.ts', true: '.mts' } };

/* A program that a parser takes, with its slashes, or null. */
function program(at) {
    const isTypescript = at % 2 === 1;
    const isModule = (at >> 1) % 2 === 1;
    const { text, expressions, divisions } = new Program(SEED * 1_000_003 + at, isTypescript, isModule);
    const extension = EXTENSIONS[isTypescript][isModule];
    // acorn itself misreads `async function () {} / x`: what it refuses is put before TypeScript's parser too.
    const taken = (isTypescript ? null : byAcorn(text, extension)) ?? byTypescript(text, extension);
    const bytes = (places) => places.map((place) => bytePlace(text, place));
    const known = { expressions: bytes(expressions), divisions: bytes(divisions) };
    return taken && { extension, text, known, isModule };
}

export function run() {
    if (!parsersAreThere('programs')) return 0;
    return compare('programs', Array.from({ length: COUNT }, (_, at) => program(at)).filter(Boolean));
}
