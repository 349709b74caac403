/* rows.c: makes the calls of lines that faces.py writes, and prints what they return and write. A buffer that is read
 * is in memory of its own length. One that is written is between bytes that no call may write. Each has another
 * alignment each time. `changed` is printed if these bytes or what is only read are not as before. Aborts if something
 * else that keywrap.h has is wrong: the macros, the version, the texts of the statuses, the self test. */

#undef NDEBUG
#include <assert.h>
#include <keywrap.h>
#include <limits.h>
#include <stdio.h>
#include <stdlib.h>
#include <string.h>

enum { CALL, KEK, NEW, IV, FLAGS, GIVEN, ROOM, KEY_LEN, COUNT, LENS, FORMS, FIELDS };
enum { SIDE = 64, SIDE_BYTE = 0xC5, FILL = 0x5A, LINE = 1 << 22, SLOTS = 1024 };

struct bytes {
    uint8_t *at, *memory;
    size_t len;
};

static char line[LINE];
static char *field[FIELDS];
static size_t turn;

static void *memory(size_t len) {
    void *at = malloc(len > 0 ? len : 1);
    assert(at != NULL);
    return at;
}

static unsigned digit(char character) {
    return (unsigned)(character < 'a' ? character - '0' : character - 'a' + 10);
}

static struct bytes bytes(int name) {
    const char *text = field[name];
    struct bytes found = {NULL, NULL, *text == '-' ? 0 : strlen(text) / 2};
    found.memory = memory(found.len + turn % 8);
    found.at = found.memory + turn % 8;
    for (size_t i = 0; i < found.len; i++)
        found.at[i] = (uint8_t)(digit(text[2 * i]) << 4 | digit(text[2 * i + 1]));
    return found;
}

static size_t number(int name) {
    return (size_t)strtoull(field[name], NULL, 10);
}

static int is(const char *call) {
    return !strcmp(field[CALL], call);
}

static int are(const uint8_t *at, int byte, size_t len) {
    for (size_t i = 0; i < len; i++)
        if (at[i] != byte) return 0;
    return 1;
}

static void print_hex(const uint8_t *at, size_t len) {
    static const char all[] = "0123456789abcdef";
    for (size_t i = 0; i < len; i++) putchar(all[at[i] >> 4]), putchar(all[at[i] & 15]);
}

/* The numbers, of one byte or of size_t, up to the last one that a call has written. */
static void print_list(const char *name, const uint8_t *bytes, const size_t *list) {
    size_t count = SLOTS;
    while (count > 0 && (bytes ? bytes[count - 1] == FILL : list[count - 1] == SIZE_MAX)) count--;
    for (size_t i = 0; i < count; i++)
        printf("%s%ld", i ? "," : name, bytes ? (long)bytes[i] : (long)list[i]);
}

static void answer(void) {
    static size_t lens[SLOTS];
    static uint8_t statuses[SLOTS], forms[SLOTS];
    const struct bytes kek = bytes(KEK), new = bytes(NEW), iv = bytes(IV), given = bytes(GIVEN);
    const struct bytes read[] = {kek, new, iv, given},
                       again[] = {bytes(KEK), bytes(NEW), bytes(IV), bytes(GIVEN)};
    const uint8_t *k = kek.at, *g = given.at;
    const size_t kl = kek.len, gl = given.len, n = *field[ROOM] == '-' ? gl : number(ROOM),
                 count = number(COUNT);
    const uint32_t flags = (uint32_t)number(FLAGS);
    uint8_t *block = memory(n + 2 * SIDE + 8), *b = block + SIDE + turn++ % 8;
    uint32_t form = UINT32_MAX, already = UINT32_MAX;
    size_t len = SIZE_MAX;
    memset(block, SIDE_BYTE, n + 2 * SIDE + 8);
    memset(b, FILL, n);
    if (*field[ROOM] == '-') memcpy(b, g, n);
    memset(lens, 0xff, sizeof lens);
    memset(statuses, FILL, sizeof statuses);
    memset(forms, FILL, sizeof forms);
    const int32_t status =
        is("wrap")                     ? keywrap_wrap(k, kl, g, gl, b, n)
        : is("unwrap")                 ? keywrap_unwrap(k, kl, g, gl, b, n)
        : is("wrap_with")              ? keywrap_wrap_with(k, kl, iv.at, iv.len, g, gl, b, n)
        : is("unwrap_with")            ? keywrap_unwrap_with(k, kl, iv.at, iv.len, g, gl, b, n)
        : is("wrap_padded")            ? keywrap_wrap_padded(k, kl, g, gl, b, n)
        : is("unwrap_padded")          ? keywrap_unwrap_padded(k, kl, g, gl, b, n, &len)
        : is("wrap_in_place")          ? keywrap_wrap_in_place(k, kl, b, n)
        : is("unwrap_in_place")        ? keywrap_unwrap_in_place(k, kl, b, n)
        : is("wrap_padded_in_place")   ? keywrap_wrap_padded_in_place(k, kl, b, n, number(KEY_LEN))
        : is("unwrap_padded_in_place") ? keywrap_unwrap_padded_in_place(k, kl, b, n, &len)
        : is("unwrap_any")             ? keywrap_unwrap_any(k, kl, g, gl, b, n, &form, &len)
        : is("kind")                   ? keywrap_kind(k, kl, g, gl, b, n, &form, &len)
        : is("rewrap")          ? keywrap_rewrap(k, kl, new.at, new.len, b, n, flags, &already)
        : is("rewrap_in_place") ? keywrap_rewrap_in_place(k, kl, new.at, new.len, b, n, flags)
        : is("kek_init")        ? keywrap_kek_init(k, kl, b, n)
        : is("kek_clear")       ? (keywrap_kek_clear(b, n), KEYWRAP_OK)
        : is("wrap_many") ? keywrap_wrap_many(k, kl, b, n, number(KEY_LEN), flags, statuses, count)
        : is("unwrap_many")
            ? keywrap_unwrap_many(k, kl, b, n, flags, lens, number(LENS), statuses, count)
        : is("kind_many")
            ? keywrap_kind_many(k, kl, g, gl, b, n, forms, number(FORMS), lens, number(LENS),
                                statuses, count)
            : keywrap_rewrap_many(k, kl, new.at, new.len, b, n, flags, statuses, count);
    int right = are(block, SIDE_BYTE, (size_t)(b - block)) && are(b + n, SIDE_BYTE, SIDE);
    for (size_t i = 0; i < 4; i++) {
        right &= !memcmp(again[i].at, read[i].at, read[i].len);
        free(again[i].memory);
        free(read[i].memory);
    }
    printf("status=%d out=", (int)status);
    print_hex(b, n);
    if (form != UINT32_MAX) printf(" form=%u", (unsigned)form);
    if (len != SIZE_MAX) printf(" len=%lu", (unsigned long)len);
    if (already != UINT32_MAX) printf(" already=%u", (unsigned)already);
    print_list(" statuses=", statuses, NULL);
    print_list(" forms=", forms, NULL);
    print_list(" lens=", NULL, lens);
    puts(right ? "" : " changed");
    free(block);
}

/* A macro is one operand, and so is its argument. With a constant argument it is a constant. */
static void check_macros(void) {
    volatile size_t one = 1;
    static const size_t padded[] = {KEYWRAP_PADDED_TEXT_LEN(1), KEYWRAP_PADDED_TEXT_LEN(8),
                                    KEYWRAP_PADDED_TEXT_LEN(9)};
    static const size_t rooms[] = {KEYWRAP_ROOM(0), KEYWRAP_ROOM(8), KEYWRAP_ROOM(9)};
    assert(padded[0] == 16 && padded[1] == 16 && padded[2] == 24 && rooms[0] == 0 && rooms[1] == 0
           && rooms[2] == 1);
    assert(KEYWRAP_MAX_TEXT == KEYWRAP_MAX_KEY + 8 && 2 * KEYWRAP_MAX_TEXT == 2097168);
    assert(2 * KEYWRAP_TEXT_LEN(one ? 24 : 16) == 64
           && 2 * KEYWRAP_PADDED_TEXT_LEN(one ? 17 : 9) == 64);
    assert(2 * KEYWRAP_ROOM(one ? 24 : 16) == 32 && KEYWRAP_ROOM(one | 6) == 0);
    assert(2 * KEYWRAP_KEK_LEN(one ? 24 : 16) == 432);
}

/* The text of each status: whole, cut to each capacity, with the bytes after it unchanged. */
static void check_texts(void) {
    static const char *const texts[] = {
        "done",
        NULL,
        "initial value is not 8 bytes, or is reserved for the padded form",
        "key length is not 16, 24 or 32 bytes",
        "bad length",
        "integrity check failed",
        NULL,
        "out of memory",
        "no plain key has the length of the key"};
    static const int32_t statuses[] = {0, 1, 2, 3, 4, 5, 6, 7, 8, 9, 70, -1, INT32_MIN, INT32_MAX};
    for (size_t i = 0; i < sizeof statuses / sizeof *statuses; i++)
        for (size_t capacity = 0; capacity <= 90; capacity++) {
            const char *text = i < 9 && texts[i] != NULL ? texts[i] : "unknown status";
            char found[91], due[91];
            memset(found, '~', sizeof found);
            memset(due, '~', sizeof due);
            const int len = snprintf(due, capacity, "%s", text);
            assert(keywrap_status_text(statuses[i], found, capacity) == (size_t)len
                   && !memcmp(found, due, sizeof due));
        }
}

int main(void) {
    const uint32_t version = keywrap_version();
    assert(version == KEYWRAP_VERSION && version >> 16 == KEYWRAP_VERSION_MAJOR);
    assert((version >> 8 & 255) == KEYWRAP_VERSION_MINOR
           && (version & 255) == KEYWRAP_VERSION_PATCH);
    check_macros();
    check_texts();
    assert(keywrap_self_test() == KEYWRAP_OK);
    while (fgets(line, LINE, stdin)) {
        field[CALL] = strtok(line, " \n");
        for (int i = 1; i < FIELDS; i++) field[i] = strtok(NULL, " \n");
        answer();
    }
    return 0;
}
