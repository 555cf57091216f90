// The rows of tokens: start, end, kind + 65536 * flags.
export const TOKEN_WIDTH = 3;
export const KIND = 0xffff;
export const LINE_BREAK_BEFORE = 0x10000;
export const RESPELLED = 0x20000;
