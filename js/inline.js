// The package with the module inside, in base64: it fetches and reads no file, so a bundle of it needs
// no other file. `make js` writes module.js.

import callsOver from './calls.js';
import module from './module.js';

export * from './calls.js';

const inside = () => Uint8Array.from(atob(module), (character) => character.charCodeAt(0));

export const load = (source) => callsOver(source, inside);
