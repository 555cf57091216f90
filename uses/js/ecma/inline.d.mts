export * from './ecma.mjs';
