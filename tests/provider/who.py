"""Imports ssl, and writes the provider from which libcrypto, at the path that is given, has AES Key Wrap."""

import ctypes
import ssl  # noqa: F401: it loads libcrypto, which reads the configuration
import sys

crypto = ctypes.CDLL(sys.argv[1])
for name in ("EVP_CIPHER_fetch", "EVP_CIPHER_get0_provider"):
    getattr(crypto, name).restype = ctypes.c_void_p
crypto.OSSL_PROVIDER_get0_name.restype = ctypes.c_char_p
cipher = ctypes.c_void_p(crypto.EVP_CIPHER_fetch(None, b"id-aes256-wrap", None))
provider = ctypes.c_void_p(crypto.EVP_CIPHER_get0_provider(cipher))
print(crypto.OSSL_PROVIDER_get0_name(provider).decode())
