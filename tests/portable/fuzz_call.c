/* fuzz_call.c: makes the call of a choice. It is compiled twice: CALL is its name over one build of the library. */

#include <keywrap.h>
#include <keywrap_steps.h>
#include <string.h>

#include "fuzz.h"

/* The status of a rewrap's step. At its end the caller has to clear the block. */
static int32_t cleared(struct world *w, int32_t status) {
    if (w->flag == 0) memset(w->block, 0, sizeof w->block);
    return status;
}

static int32_t step(struct world *w, const struct choice *c) {
    switch (c->call) {
    case BEGIN_WRAP:
        return keywrap_begin_wrap(w->iv, c->iv_len, w->key, c->room, &w->steps, w->block);
    case BEGIN_WRAP_PADDED:
        return keywrap_begin_wrap_padded(c->key_len, w->key, c->room, &w->steps, w->block);
    case STEP_WRAP: return keywrap_step_wrap(w->key, c->room, &w->steps, w->block);
    case END_WRAP: return keywrap_end_wrap(w->first, w->key, c->room, w->steps, w->block);
    case BEGIN_UNWRAP: return keywrap_begin_unwrap(w->first, w->key, c->room, &w->steps, w->block);
    case BEGIN_UNWRAP_PADDED:
        return keywrap_begin_unwrap_padded(w->first, w->key, c->room, &w->steps, w->block);
    case STEP_UNWRAP: return keywrap_step_unwrap(w->key, c->room, &w->steps, w->block);
    case END_UNWRAP:
        return keywrap_end_unwrap(w->iv, c->iv_len, w->key, c->room, w->steps, w->block);
    case END_UNWRAP_PADDED:
        return keywrap_end_unwrap_padded(w->key, c->room, w->steps, w->block, &w->key_len);
    case END_UNWRAP_ANY:
        return keywrap_end_unwrap_any(w->key, c->room, w->steps, w->block, &w->flag, &w->key_len);
    case BEGIN_REWRAP:
        return keywrap_begin_rewrap(c->flags, w->text, c->text_len, &w->flag, &w->steps, w->block);
    case NEXT_REWRAP:
        return cleared(
            w, keywrap_next_rewrap(c->flags, w->text, c->text_len, &w->flag, &w->steps, w->block));
    default:
        return cleared(w, keywrap_next_rewrap_from(c->flags, w->texts, c->room + 8, w->text,
                                                   c->text_len, &w->flag, &w->steps, w->block));
    }
}

static int32_t step_of_many(struct world *w, const struct choice *c) {
    const size_t blocks_len = 16 * c->others;
    switch (c->call) {
    case BEGIN_WRAP_MANY:
        return keywrap_begin_wrap_many(w->iv, c->iv_len, w->texts, c->texts_len, c->text_len,
                                       &w->steps, w->blocks, blocks_len);
    case STEP_WRAP_MANY:
        return keywrap_step_wrap_many(w->texts, c->texts_len, c->text_len, &w->steps, w->blocks,
                                      blocks_len);
    case END_WRAP_MANY:
        return keywrap_end_wrap_many(w->texts, c->texts_len, c->text_len, w->steps, w->blocks,
                                     blocks_len);
    case BEGIN_UNWRAP_MANY:
        return keywrap_begin_unwrap_many(w->texts, c->texts_len, c->text_len, &w->steps, w->blocks,
                                         blocks_len);
    case STEP_UNWRAP_MANY:
        return keywrap_step_unwrap_many(w->texts, c->texts_len, c->text_len, &w->steps, w->blocks,
                                        blocks_len);
    default:
        return keywrap_end_unwrap_many(w->iv, c->iv_len, w->texts, c->texts_len, c->text_len,
                                       w->steps, w->blocks, blocks_len, w->statuses, c->count);
    }
}

static int32_t many(struct world *w, const struct choice *c) {
    switch (c->call) {
    case REWRAP_MANY:
        return keywrap_rewrap_many(w->kek, c->kek_len, w->new_kek, c->new_kek_len, w->texts,
                                   c->texts_len, c->flags, w->statuses, c->count);
    case WRAP_MANY:
        return keywrap_wrap_many(w->kek, c->kek_len, w->texts, c->texts_len, c->key_len, c->flags,
                                 w->statuses, c->count);
    case UNWRAP_MANY:
        return keywrap_unwrap_many(w->kek, c->kek_len, w->texts, c->texts_len, c->flags, w->lens,
                                   c->others, w->statuses, c->count);
    default:
        return keywrap_kind_many(w->kek, c->kek_len, w->texts, c->texts_len, w->key, c->room,
                                 w->forms, c->count, w->lens, c->others, w->statuses, c->count);
    }
}

int32_t CALL(struct world *w, const struct choice *c) {
    const uint8_t *kek = w->kek;
    const size_t k = c->kek_len;
    if (c->call >= BEGIN_WRAP_MANY) return step_of_many(w, c);
    if (c->call >= BEGIN_WRAP) return step(w, c);
    if (c->call >= REWRAP_MANY) return many(w, c);
    switch (c->call) {
    case WRAP: return keywrap_wrap(kek, k, w->key, c->key_len, w->text, c->text_len);
    case UNWRAP: return keywrap_unwrap(kek, k, w->text, c->text_len, w->key, c->room);
    case WRAP_WITH:
        return keywrap_wrap_with(kek, k, w->iv, c->iv_len, w->key, c->key_len, w->text,
                                 c->text_len);
    case UNWRAP_WITH:
        return keywrap_unwrap_with(kek, k, w->iv, c->iv_len, w->text, c->text_len, w->key, c->room);
    case WRAP_PADDED: return keywrap_wrap_padded(kek, k, w->key, c->key_len, w->text, c->text_len);
    case UNWRAP_PADDED:
        return keywrap_unwrap_padded(kek, k, w->text, c->text_len, w->key, c->room, &w->key_len);
    case WRAP_IN_PLACE: return keywrap_wrap_in_place(kek, k, w->text, c->text_len);
    case UNWRAP_IN_PLACE: return keywrap_unwrap_in_place(kek, k, w->text, c->text_len);
    case WRAP_PADDED_IN_PLACE:
        return keywrap_wrap_padded_in_place(kek, k, w->text, c->text_len, c->key_len);
    case UNWRAP_PADDED_IN_PLACE:
        return keywrap_unwrap_padded_in_place(kek, k, w->text, c->text_len, &w->key_len);
    case KIND:
        return keywrap_kind(kek, k, w->text, c->text_len, w->key, c->room, &w->flag, &w->key_len);
    case UNWRAP_ANY:
        return keywrap_unwrap_any(kek, k, w->text, c->text_len, w->key, c->room, &w->flag,
                                  &w->key_len);
    case REWRAP:
        return keywrap_rewrap(kek, k, w->new_kek, c->new_kek_len, w->text, c->text_len, c->flags,
                              &w->flag);
    case REWRAP_IN_PLACE:
        return keywrap_rewrap_in_place(kek, k, w->new_kek, c->new_kek_len, w->text, c->text_len,
                                       c->flags);
    case KEK_INIT: return keywrap_kek_init(kek, k, w->new_kek, c->new_kek_len);
    case KEK_CLEAR: keywrap_kek_clear(w->new_kek, c->new_kek_len); return KEYWRAP_OK;
    default: return (int32_t)keywrap_status_text((int32_t)c->flags - 4, (char *)w->key, c->room);
    }
}
