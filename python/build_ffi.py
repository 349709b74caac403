"""The extension keywrap._ffi: the calls of keywrap.h and keywrap_steps.h, with libkeywrap_hw.a
linked in. The source distribution has keywrap.c instead, and a clone of the repository has it in
dist/: there the calls are the portable ones."""

import os
import re
from pathlib import Path

from cffi import FFI

HELPERS = """
int64_t unwrap_padded(const uint8_t *kek, size_t kek_len, const uint8_t *wrapped,
                      size_t wrapped_len, uint8_t *key, size_t room);
int64_t unwrap_any(const uint8_t *kek, size_t kek_len, const uint8_t *wrapped, size_t wrapped_len,
                   uint8_t *key, size_t room);
int32_t rewrap(const uint8_t *old_kek, size_t old_kek_len, const uint8_t *new_kek,
               size_t new_kek_len, const uint8_t *wrapped, size_t wrapped_len, uint8_t *result,
               uint32_t flags);
int64_t kind(const uint8_t *kek, size_t kek_len, const uint8_t *wrapped, size_t wrapped_len,
             uint8_t *scratch, size_t room);
int32_t step_wrap_each(uint8_t *texts, size_t text_len, size_t count, uint64_t *done, uint8_t *blocks);
int32_t step_unwrap_each(uint8_t *texts, size_t text_len, size_t count, uint64_t *left, uint8_t *blocks);
void wipe(uint8_t *bytes, size_t len);
int cpu_supported(void);
static const char *const VERSION;
"""

SOURCE = """
#include <keywrap_steps.h>
#include <string.h>

/* The key's length, doubled, and 1 more if it is padded; or the status of the refusal, negated. */
static int64_t found(int32_t status, uint32_t padded, size_t key_len) {
    return status == KEYWRAP_OK ? (int64_t)(2 * key_len + padded) : -(int64_t)status;
}

static int64_t unwrap_padded(const uint8_t *kek, size_t kek_len, const uint8_t *wrapped,
                             size_t wrapped_len, uint8_t *key, size_t room) {
    size_t key_len;
    int32_t status = keywrap_unwrap_padded(kek, kek_len, wrapped, wrapped_len, key, room, &key_len);
    return found(status, 1, key_len);
}

static int64_t unwrap_any(const uint8_t *kek, size_t kek_len, const uint8_t *wrapped,
                          size_t wrapped_len, uint8_t *key, size_t room) {
    uint32_t padded;
    size_t key_len;
    int32_t status =
        keywrap_unwrap_any(kek, kek_len, wrapped, wrapped_len, key, room, &padded, &key_len);
    return found(status, padded, key_len);
}

static int64_t kind(const uint8_t *kek, size_t kek_len, const uint8_t *wrapped, size_t wrapped_len,
                    uint8_t *scratch, size_t room) {
    uint32_t padded;
    size_t key_len;
    int32_t status = keywrap_kind(kek, kek_len, wrapped, wrapped_len, scratch, room, &padded, &key_len);
    return found(status, padded, key_len);
}

/* The result is as long as the wrapped key. */
static int32_t rewrap(const uint8_t *old_kek, size_t old_kek_len, const uint8_t *new_kek,
                      size_t new_kek_len, const uint8_t *wrapped, size_t wrapped_len,
                      uint8_t *result, uint32_t flags) {
    uint32_t already;
    memcpy(result, wrapped, wrapped_len);
    return keywrap_rewrap(old_kek, old_kek_len, new_kek, new_kek_len, result, wrapped_len, flags,
                          &already);
}

typedef int32_t step_one(uint8_t *, size_t, uint64_t *, uint8_t *);
typedef int32_t step_many(uint8_t *, size_t, size_t, uint64_t *, uint8_t *, size_t);

/* Makes the next step of each text. The call for many takes no text of a single register. */
static int32_t step_each(step_one *one, step_many *many, uint8_t *texts, size_t text_len, size_t count,
                         uint64_t *steps, uint8_t *blocks) {
    const uint64_t before = *steps;
    int32_t status = KEYWRAP_OK;
    if (text_len >= 24)
        return many(texts, text_len * count, text_len, steps, blocks, 16 * count);
    for (size_t i = 0; i < count && status == KEYWRAP_OK; i++) {
        *steps = before;
        status = one(texts + text_len * i + 8, text_len - 8, steps, blocks + 16 * i);
    }
    return status;
}

static int32_t step_wrap_each(uint8_t *texts, size_t text_len, size_t count, uint64_t *done,
                              uint8_t *blocks) {
    return step_each(keywrap_step_wrap, keywrap_step_wrap_many, texts, text_len, count, done, blocks);
}

static int32_t step_unwrap_each(uint8_t *texts, size_t text_len, size_t count, uint64_t *left,
                                uint8_t *blocks) {
    return step_each(keywrap_step_unwrap, keywrap_step_unwrap_many, texts, text_len, count, left, blocks);
}

/* Writes are volatile, so that no compiler leaves them out. */
static void wipe(uint8_t *bytes, size_t len) {
    volatile uint8_t *at = bytes;
    while (len-- > 0) *at++ = 0;
}

static int cpu_supported(void) {
    return KEYWRAP_CPU_SUPPORTED();
}

static const char *const VERSION = PACKAGE_VERSION;
"""


NUMBERS = [
    f"KEYWRAP_{name}"
    for name in (
        "MAX_KEY",
        "MAX_TEXT",
        "OLD_PADDED",
        "NEW_PADDED",
        "KEEP_FORM",
        "PASS_NEW",
        "ALREADY_NEW",
        "DECRYPT",
        "NEW",
    )
]


def declarations(header: str, steps: str) -> str:
    """The calls, the statuses and the numbers of the headers, as cffi reads them. The steps are those for one key."""
    calls = re.findall(
        r"^(?:u?int32_t|size_t|void) keywrap_\w+\([^;]*\);", header, re.M
    )
    calls += re.findall(r"^u?int\d+_t keywrap_\w+(?<!_many)\([^;]*\);", steps, re.M)
    statuses = re.findall(r"^enum keywrap_status \{.*?\};", header, re.M | re.S)
    numbers = [f"#define {name} ..." for name in NUMBERS]
    return "\n".join([*statuses, *numbers, *calls]).replace("KEYWRAP_RESTRICT ", "")


def place_of(name: str, elsewhere: str) -> str:
    """The directory of a file: this one, or in a clone of the repository another."""
    return "." if Path(name).exists() else elsewhere


C = place_of("keywrap.h", "../dist")
version = Path(place_of("VERSION", ".."), "VERSION").read_text(encoding="utf-8")
VERSION = version.strip().replace("-dev", ".dev0")

header = Path(C, "keywrap.h").read_text(encoding="utf-8")
ffi = FFI()
ffi.cdef(
    declarations(header, Path(C, "keywrap_steps.h").read_text(encoding="utf-8"))
    + HELPERS
)
# The library has no debugging information, which would name the directory, and is stripped. The package calls the
# library that is linked into it, whichever another one in the process exports.
NATIVE = {
    "extra_objects": ["libkeywrap_hw.a"],
    "extra_compile_args": ["-std=c99", "-g0"],
    "extra_link_args": ["-s", "-Wl,--exclude-libs,ALL", "-Wl,-z,relro,-z,now"],
}
PORTABLE = {
    "sources": [f"{C}/keywrap.c"],
    "extra_compile_args": ["-std=c99", "-O2", "-fvisibility=hidden"]
    if os.name == "posix"
    else [],
}
portable = Path(C, "keywrap.c").exists()
ffi.set_source(
    "keywrap._ffi",
    SOURCE,
    include_dirs=[".", C],
    depends=[f"{C}/keywrap.h", f"{C}/keywrap_steps.h"],
    define_macros=[
        ("PACKAGE_VERSION", f'"{VERSION}"'),
        *([("KEYWRAP_PORTABLE", None)] if portable else []),
    ],
    py_limited_api=True,
    **(PORTABLE if portable else NATIVE),
)
