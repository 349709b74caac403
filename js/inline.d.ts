// The types of `keywrap/inline` for TypeScript's `moduleResolution: node`, which does not read `exports`.
export * from './keywrap.js';
