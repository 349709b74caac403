# Wraps and unwraps a key by OpenSSL::Cipher, under the initial value that is given in hex.
require 'openssl'
kek = ['000102030405060708090a0b0c0d0e0f101112131415161718191a1b1c1d1e1f'].pack('H*')
key = ['00112233445566778899aabbccddeeff'].pack('H*')
%w[encrypt decrypt].each do |direction|
  cipher = OpenSSL::Cipher.new('id-aes256-wrap').public_send(direction)
  cipher.key = kek
  cipher.iv = [ARGV[0]].pack('H*')
  key = cipher.update(key) + cipher.final
  puts key.unpack1('H*')
end
