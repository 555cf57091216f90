import type { Options } from './ecma.mjs';

export interface AcornToken<Type> {
    readonly type: Type;
    readonly value: any;
    readonly start: number;
    readonly end: number;
}

/**
 * Tokens with the types and values of an acorn that you have: `tokenizer(text, acorn.tokTypes)`. A token that is an error is thrown
 * as a SyntaxError with its place in `pos`.
 */
export function tokenizer<Type>(
    text: string,
    types: Record<string, Type>,
    options?: Options,
): IterableIterator<AcornToken<Type>> & { getToken(): AcornToken<Type> };
