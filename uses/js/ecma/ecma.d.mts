export { Kind } from './kinds.mjs';

/** What a call could not do. */
export class EcmaError extends Error {
    readonly code: 'NOT_LOADED' | 'BAD_TEXT' | 'BAD_OPTION' | 'NO_SLASH' | 'NOT_UTF8' | 'TOO_LONG' | 'OUT_OF_MEMORY' | 'STOPPED';
}

/** A string, or its bytes in UTF-8. Places are units of UTF-16 of a string, and bytes of bytes. */
export type Source = string | Uint8Array;

export interface Options {
    /** Read as TypeScript. */
    typescript?: boolean;
    /** Module code: strict, `await` reserved, HTML-like comments are errors. */
    module?: boolean;
    /** Strict mode code. */
    strict?: boolean;
    /**
     * The places of the slashes that begin regular expressions, ascending, where you know them (a parser does); an empty list
     * says that there are none. Without it the tokens before a slash decide, with 'flag' the lexer's own flag.
     */
    slashes?: ArrayLike<number> | 'flag';
}

// What is read of a URL, a Response and a compiled module. By the names of the DOM's library these declarations would need it.
interface Address {
    readonly href: string;
    readonly protocol: string;
}
interface Answer {
    readonly ok: boolean;
    readonly status: number;
    readonly url: string;
    readonly headers: { get(name: string): string | null };
    arrayBuffer(): Promise<ArrayBuffer>;
}
interface CompiledModule {
    readonly [Symbol.toStringTag]?: string;
}
type Bytes = ArrayBuffer | ArrayBufferView;

/**
 * Loads the module: without an argument the file beside this one (by `fintaluy/inline` the one inside), once. A URL, the bytes, a
 * Response or a compiled module may be given; that module is then taken in place of the one before. Where it can't be loaded, the code
 * is `NOT_LOADED`.
 */
export function load(source?: CompiledModule | Bytes | Answer | Address | string): Promise<void>;
/** The same at once, of bytes or a compiled module. */
export function loadSync(source: CompiledModule | Bytes): void;

export type TokenType = 'name' | 'keyword' | 'punctuator' | 'string' | 'number' | 'bigint' | 'regexp' | 'template' | 'shebang' | 'error';

export interface Token {
    readonly start: number;
    readonly end: number;
    readonly type: TokenType;
    /** One of `Kind`. */
    readonly kind: number;
    /** A line terminator, or nothing, stands before it, or it is template text that has one. */
    readonly lineBreakBefore: boolean;
    /** Its value is not its spelling: an escape, a separator of digits, a line end that is read otherwise. */
    readonly respelled: boolean;
    /** Its spelling. */
    readonly text: string;
    /**
     * What a string, a name or template text says, a number, a bigint, or the parts of a regular expression. Undefined of an error
     * and of template text with a wrong escape; of all else the spelling.
     */
    readonly value: string | number | bigint | { pattern: string; flags: string } | undefined;
    toJSON(): { type: TokenType; start: number; end: number; text: string; lineBreakBefore: boolean; respelled: boolean };
}

/** The tokens one by one. The text is read at the first. */
export function tokens(text: Source, options?: Options): IterableIterator<Token>;
/** The tokens, all at once. */
export function tokenArray(text: Source, options?: Options): Token[];
/** The quickest: three numbers a token: start, end, kind + 65536 * flags. Flag 1 is `lineBreakBefore`, flag 2 `respelled`. */
export function tokenRows(text: Source, options?: Options): Uint32Array;
/** How many tokens there are. */
export function count(text: Source, options?: Options): number;

export interface Comment {
    readonly type: 'line' | 'block';
    readonly start: number;
    readonly end: number;
    /** What it says, without its marks. */
    readonly textStart: number;
    readonly textEnd: number;
    /** It belongs to the token before it. */
    readonly trailing: boolean;
    /** Where that token ends, or where the token begins that it leads. */
    readonly attachedTo: number;
}
/** The comments, and the tokens to which they belong. */
export function comments(text: Source, options?: Options): Comment[];

export interface Diagnostic {
    readonly start: number;
    readonly end: number;
    readonly message: string;
    /** `token`: there is a token of type `error`. `module`: an error in module code alone. */
    readonly source: 'token' | 'recorded' | 'module';
}
/** What is wrong with the text, by place. */
export function errors(text: Source, options?: Options): Diagnostic[];

/** The text of the tokens alone: two texts without errors have the same one exactly where their tokens agree. null: there are errors. */
export function canonical(text: Source, options?: Options): string | null;

/** As of es-module-lexer. */
export interface ImportSpecifier {
    /** The module's name, escapes decoded; undefined of `import.meta`, and of a call whose argument is not a string. */
    readonly n: string | undefined;
    /** The name without quotes; of a call, its first argument. */
    readonly s: number;
    readonly e: number;
    /** The statement, or the call. */
    readonly ss: number;
    readonly se: number;
    /** -1 of a statement and of `require`, -2 of `import.meta`, else where the bracket of `import(` is. */
    readonly d: number;
    /** Where the attributes begin (the brace behind `with`, or the second argument of a call); -1: there are none. */
    readonly a: number;
    /** Of `import defer` and `import source`. */
    readonly phase: 'defer' | 'source' | undefined;
    /** Types alone are imported or exported, as TypeScript's `type` says of the whole statement, or a call stands where a type does. */
    readonly type: boolean;
    /** It is a `require("x")`, as the option `commonjs` asks for. */
    readonly require: boolean;
}
export interface ImportOptions extends Options {
    /** As of `Options`, but true where nothing else is said. */
    module?: boolean;
    /** Find each `require("x")` of CommonJS too. */
    commonjs?: boolean;
}
export interface ExportSpecifier {
    readonly n: string;
    /** The local name, where there is one. */
    readonly ln: string | undefined;
    readonly s: number;
    readonly e: number;
    /** -1: there is no local name. */
    readonly ls: number;
    readonly le: number;
    /** It is the name of a type alone, by `type` or `interface` of TypeScript. */
    readonly type: boolean;
}
/** What a module imports and exports. It throws for nothing that a text says. A string in place of options is ignored. */
export function imports(
    text: Source,
    options?: ImportOptions | string,
): [imports: ImportSpecifier[], exports: ExportSpecifier[], facade: boolean, hasModuleSyntax: boolean];

/** What a string or a name says, of its spelling without quotes. */
export function cook(raw: string): string;
/** How many bytes the module holds now. */
export function memory(): number;
