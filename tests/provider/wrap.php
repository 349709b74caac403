<?php
// Wraps and unwraps a key by openssl_encrypt, under the initial value that is given in hex.
$kek = hex2bin('000102030405060708090a0b0c0d0e0f101112131415161718191a1b1c1d1e1f');
$key = hex2bin('00112233445566778899aabbccddeeff');
$iv = hex2bin($argv[1]);
$wrapped = openssl_encrypt($key, 'id-aes256-wrap', $kek, OPENSSL_RAW_DATA, $iv);
if ($wrapped === false) exit(openssl_error_string() . "\n");
echo bin2hex($wrapped), "\n";
echo bin2hex(openssl_decrypt($wrapped, 'id-aes256-wrap', $kek, OPENSSL_RAW_DATA, $iv)), "\n";
