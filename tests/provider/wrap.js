// Wraps and unwraps a key by node:crypto, under the initial value that is given in hex.
const { createCipheriv, createDecipheriv } = require('crypto');
const kek = Buffer.from('000102030405060708090a0b0c0d0e0f101112131415161718191a1b1c1d1e1f', 'hex');
const key = Buffer.from('00112233445566778899aabbccddeeff', 'hex');
const iv = Buffer.from(process.argv[2], 'hex');
const wrapped = createCipheriv('id-aes256-wrap', kek, iv).update(key);
console.log(wrapped.toString('hex'));
console.log(createDecipheriv('id-aes256-wrap', kek, iv).update(wrapped).toString('hex'));
