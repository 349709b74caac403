/* fuzz.h: a random call, and all that it may read or write. */

#include <stddef.h>
#include <stdint.h>

enum { SLOTS = 60, LONGEST = 136 };

/* The buffers, and the numbers that a call returns or changes. */
struct world {
    uint8_t kek[272], new_kek[272], iv[16], key[LONGEST + 8], text[LONGEST + 8], first[8],
        block[16];
    uint8_t texts[SLOTS * LONGEST], blocks[SLOTS * 16], forms[SLOTS], statuses[SLOTS];
    size_t lens[SLOTS], key_len;
    uint64_t steps;
    uint32_t flag;
};

/* The calls of keywrap.h and keywrap_steps.h. */
enum {
    WRAP,
    UNWRAP,
    WRAP_WITH,
    UNWRAP_WITH,
    WRAP_PADDED,
    UNWRAP_PADDED,
    WRAP_IN_PLACE,
    UNWRAP_IN_PLACE,
    WRAP_PADDED_IN_PLACE,
    UNWRAP_PADDED_IN_PLACE,
    KIND,
    UNWRAP_ANY,
    REWRAP,
    REWRAP_IN_PLACE,
    KEK_INIT,
    KEK_CLEAR,
    STATUS_TEXT,
    REWRAP_MANY,
    WRAP_MANY,
    UNWRAP_MANY,
    KIND_MANY,
    BEGIN_WRAP,
    BEGIN_WRAP_PADDED,
    STEP_WRAP,
    END_WRAP,
    BEGIN_UNWRAP,
    BEGIN_UNWRAP_PADDED,
    STEP_UNWRAP,
    END_UNWRAP,
    END_UNWRAP_PADDED,
    END_UNWRAP_ANY,
    BEGIN_REWRAP,
    NEXT_REWRAP,
    NEXT_REWRAP_FROM,
    BEGIN_WRAP_MANY,
    STEP_WRAP_MANY,
    END_WRAP_MANY,
    BEGIN_UNWRAP_MANY,
    STEP_UNWRAP_MANY,
    END_UNWRAP_MANY,
    CALLS
};

struct choice {
    int call;
    size_t kek_len, new_kek_len, iv_len, key_len, text_len, room, count, texts_len, others;
    uint32_t flags;
};

/* fuzz_call.c over the library, and over keywrap.c of dist/. */
int32_t library_call(struct world *world, const struct choice *choice);
int32_t dist_call(struct world *world, const struct choice *choice);
