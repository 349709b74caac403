"""Rewraps the keys of 32 bytes in a file by a token, and prints the calls of the token, their blocks, how many keys
were refused, and how many keys a second of the processor it rewraps. The library over the token comes first."""

import ctypes
import pathlib
import sys
import time

import keywrap.steps

library, old_kek, new_kek, source, target = sys.argv[1:]
ecb = ctypes.CDLL(library)
ecb.ecb_crypt.argtypes = [
    ctypes.c_int,
    ctypes.c_int,
    *[ctypes.c_void_p] * 2,
    ctypes.c_size_t,
]


def cipher(is_new, decrypts):
    def crypt(blocks):
        out = bytearray(len(blocks))
        view = (ctypes.c_char * len(out)).from_buffer(out)
        given = ctypes.cast(ctypes.c_char_p(blocks), ctypes.c_void_p)
        if ecb.ecb_crypt(is_new, decrypts, given, ctypes.addressof(view), len(out)):
            raise OSError("the token failed")
        return out

    return crypt


ecb.ecb_open(old_kek.encode(), new_kek.encode())
content = pathlib.Path(source).read_bytes()
wrapped = [content[at : at + 40] for at in range(0, len(content), 40)]
begun = time.process_time()
results = keywrap.steps.rewrap_many(cipher(0, 1), cipher(1, 0), wrapped)
took = time.process_time() - begun
refused = [isinstance(result, keywrap.KeywrapError) for result in results]
kept = [
    given if is_refused else result
    for given, result, is_refused in zip(wrapped, results, refused)
]
pathlib.Path(target).write_bytes(b"".join(kept))
print(ecb.ecb_calls(), ecb.ecb_blocks(), sum(refused), int(len(wrapped) / took))
