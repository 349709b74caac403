/* exhaustive.c: runs `keywrap wrap --padded` over every short text, and compares what it writes, its message and its
 * exit status with what the text denotes (meaning.c) and OpenSSL's key wrap.
 *
 * usage: exhaustive texts LENGTH [MODE]      all texts of up to LENGTH characters, one of each class
 *        exhaustive pairs [MODE]             each pair of bytes at each of some places of a text
 *        exhaustive faults [MODE]            each call of the system fails in turn, and each read is short
 *
 * MODE is hex, base64 or lines: without it all three. */

#include <openssl/evp.h>
#include <stdio.h>
#include <stdlib.h>
#include <string.h>

#include "commands.h"
#include "meaning.h"

static const char KEK[] = "000102030405060708090a0b0c0d0e0f\n";

struct mode {
    const char *name, *option;
    enum notation notation;
    int lines;
};
static const struct mode modes[] = {
    {"hex", NULL, HEX, 0},
    {"base64", "--base64", BASE64, 0},
    {"lines", "--lines", HEX, 1},
};
enum { MODES = sizeof modes / sizeof *modes };

static unsigned long runs, freed_with_kek;

/*** The expected results ***/

/* The padded wrapping of a key, by OpenSSL. */
static size_t wrapped(const unsigned char *key, size_t len, unsigned char *to) {
    static EVP_CIPHER_CTX *ctx;
    unsigned char kek[16];
    int written = 0;
    for (int i = 0; i < 16; i++) kek[i] = (unsigned char)i;
    if (!ctx) ctx = EVP_CIPHER_CTX_new();
    EVP_CIPHER_CTX_set_flags(ctx, EVP_CIPHER_CTX_FLAG_WRAP_ALLOW);
    if (!EVP_EncryptInit_ex(ctx, EVP_aes_128_wrap_pad(), NULL, kek, NULL)
        || !EVP_EncryptUpdate(ctx, to, &written, key, (int)len))
        abort();
    return (size_t)written;
}

/* The answer for a key, as a line. */
static void answer(enum notation notation, const struct meaning *key, char *to) {
    unsigned char text[4200];
    size_t len = wrapped(key->bytes, key->len, text);
    if (notation == BASE64) {
        EVP_EncodeBlock((unsigned char *)to, text, (int)len);
    } else {
        for (size_t i = 0; i < len; i++) sprintf(to + 2 * i, "%02x", text[i]);
    }
    strcat(to, "\n");
}

struct due {
    int status;
    char output[16384];
    char message[160], message2[160]; /* either of them is right; empty: none */
};

/* The expected result for a key: its answer, or a refusal after these words. Returns whether it is an answer. */
static int due_for(const struct mode *mode, const char *words, const unsigned char *text,
                   size_t len, struct due *due) {
    struct meaning key;
    meaning_of(mode->notation, mode->lines ? BLANKS_AT_THE_ENDS : BLANKS_ANYWHERE, text, len, &key);
    if (!key.fault[0] && key.len > 0) {
        answer(mode->notation, &key, due->output + strlen(due->output));
        return 1;
    }
    due->status = key.fault[0] ? 6 : 4;
    if (!key.fault[0]) words = mode->lines ? words : "";
    sprintf(due->message, "keywrap: %s%s\n", words, key.fault[0] ? key.fault : "bad length");
    sprintf(due->message2, "keywrap: %s%s\n", words, key.fault2[0] ? key.fault2 : key.fault);
    return 0;
}

static void due_for_lines(const struct mode *mode, const unsigned char *text, size_t len,
                          struct due *due) {
    size_t begin = 0;
    if (len == 0) {
        due->status = 4;
        strcpy(due->message, "keywrap: no lines\n");
        return;
    }
    for (unsigned line = 1; begin < len; line++) {
        const unsigned char *end = memchr(text + begin, '\n', len - begin);
        size_t line_len = end ? (size_t)(end - text) - begin : len - begin;
        char words[32];
        sprintf(words, "line %u: ", line);
        if (!due_for(mode, words, text + begin, line_len, due)) return;
        begin += line_len + 1;
    }
}

static void due_for_input(const struct mode *mode, const unsigned char *text, size_t len,
                          struct due *due) {
    memset(due, 0, sizeof *due);
    if (mode->lines) due_for_lines(mode, text, len, due);
    else due_for(mode, "input: ", text, len, due);
}

/*** One text ***/

static int says(const struct text *text, const char *expected) {
    return text->len == strlen(expected) && memcmp(text->bytes, expected, text->len) == 0;
}

static int is_due(const struct outcome *outcome, const struct due *due) {
    return outcome->status == due->status && says(&outcome->output, due->output)
           && (says(&outcome->errors, due->message) || says(&outcome->errors, due->message2));
}

static struct command wrapping(const struct mode *mode) {
    struct command command = {.words = {"keywrap", "wrap", "--padded", "--kek", "k", mode->option},
                              .failing = CALLS};
    command.kek.len = strlen(KEK);
    memcpy(command.kek.bytes, KEK, command.kek.len);
    for (int i = 0; i < 16; i++) command.secret[i] = (unsigned char)i;
    return command;
}

/* Shows a command that is wrong, and ends. */
static void fail(const struct mode *mode, const struct command *command,
                 const struct outcome *outcome) {
    printf("%lu commands, the last one is wrong: %s:", runs, mode->name);
    for (size_t i = 0; i < command->input.len; i++) printf(" %02x", command->input.bytes[i]);
    printf(": status %d, %.*s%.*s\n", outcome->status, (int)outcome->output.len,
           (const char *)outcome->output.bytes, (int)outcome->errors.len,
           (const char *)outcome->errors.bytes);
    exit(1);
}

static void try_text(const struct mode *mode, const void *text, size_t len) {
    static struct command command;
    static struct outcome outcome;
    static struct due due;
    command = wrapping(mode);
    memcpy(command.input.bytes, text, len);
    command.input.len = len;
    due_for_input(mode, text, len, &due);
    run_command(&command, &outcome);
    runs++;
    freed_with_kek += outcome.freed_with_kek;
    if (!is_due(&outcome, &due)) fail(mode, &command, &outcome);
}

/*** Which texts ***/

/* One character of each class: a digit, letters of hex and others in both cases, the characters of base64, blanks, and
 * bytes that no text has. */
static const char CLASSES[] = "7bgC+/-_= \t\r\n\0\x80\xff";
enum { CLASS_COUNT = sizeof CLASSES - 1 };

static void try_all_texts(const struct mode *mode, size_t longest) {
    unsigned char text[16];
    for (size_t len = 0; len <= longest; len++) {
        unsigned long count = 1;
        for (size_t i = 0; i < len; i++) count *= CLASS_COUNT;
        for (unsigned long number = 0; number < count; number++) {
            unsigned long rest = number;
            for (size_t i = 0; i < len; i++) {
                text[i] = (unsigned char)CLASSES[rest % CLASS_COUNT];
                rest /= CLASS_COUNT;
            }
            try_text(mode, text, len);
        }
    }
}

/* Two bytes of such a text take each pair of values. */
struct place {
    const char *text;
    size_t at;
};
static const struct place places[MODES][4] = {
    {{"00112233\n", 0}, {"00112233\n", 3}, {"00112233\n", 7}, {"0011223", 6}},
    {{"ABEiMw==\n", 0}, {"ABEiMw==\n", 5}, {"ABEiMw==\n", 6}, {"ABEi", 2}},
    {{"0011\n2233\n", 0}, {"0011\n2233\n", 3}, {"0011\n2233\n", 4}, {"0011\n2233", 7}},
};

static void try_all_pairs(const struct mode *mode, const struct place *place) {
    unsigned char text[32];
    size_t len = strlen(place->text);
    memcpy(text, place->text, len);
    for (unsigned pair = 0; pair < 65536; pair++) {
        text[place->at] = (unsigned char)(pair >> 8);
        text[place->at + 1] = (unsigned char)pair;
        try_text(mode, text, len);
    }
}

/*** Faults of the system ***/

/* With a fault nothing is written but the beginning of the answer, and the status says so. */
static void try_fault(const struct mode *mode, struct command *command,
                      const struct outcome *good) {
    static const char *const MESSAGES[] = {"keywrap: key file: cannot be opened\n",
                                           "cannot be read\n",
                                           "keywrap: output: ", "out of memory\n"};
    static struct outcome outcome;
    int expected = command->failing == ALLOCATE ? 7 : 6;
    run_command(command, &outcome);
    runs++;
    outcome.errors.bytes[outcome.errors.len] = 0;
    int is_refused = outcome.status == expected
                     && strstr((char *)outcome.errors.bytes, MESSAGES[command->failing])
                     && outcome.output.len <= good->output.len
                     && memcmp(outcome.output.bytes, good->output.bytes, outcome.output.len) == 0;
    int is_good = outcome.status == 0 && outcome.output.len == good->output.len
                  && memcmp(outcome.output.bytes, good->output.bytes, good->output.len) == 0;
    /* An allocation may be refused without harm. A read or write that failed may not. */
    if (!is_refused && !(is_good && command->failing == ALLOCATE)) fail(mode, command, &outcome);
}

static void try_all_faults(const struct mode *mode) {
    static const char HEX_TEXT[] = "00112233445566778899aabbccddeeff\n",
                      BASE64_TEXT[] = "ABEiM0RVZneImaq7zN3u/w==\n";
    static struct outcome good, outcome;
    static struct command command;
    static struct due due;
    command = wrapping(mode);
    const char *text = mode->notation == HEX ? HEX_TEXT : BASE64_TEXT;
    command.input.len = strlen(text);
    memcpy(command.input.bytes, text, command.input.len);
    due_for_input(mode, command.input.bytes, command.input.len, &due);
    run_command(&command, &good);
    runs++;
    if (!is_due(&good, &due)) fail(mode, &command, &good);
    for (command.most_read = 1; command.most_read <= command.input.len; command.most_read++) {
        run_command(&command, &outcome);
        runs++;
        if (outcome.status != 0 || outcome.output.len != good.output.len
            || memcmp(outcome.output.bytes, good.output.bytes, good.output.len) != 0)
            fail(mode, &command, &outcome);
    }
    command.most_read = 0;
    for (command.failing = 0; command.failing < CALLS; command.failing++) {
        unsigned count = good.calls[command.failing];
        for (command.failing_at = 1; command.failing_at <= count; command.failing_at++)
            try_fault(mode, &command, &good);
    }
}

/* Whether the last word is the name of another mode. */
static int is_left_out(const struct mode *mode, const char *last_word) {
    for (unsigned other = 0; other < MODES; other++)
        if (strcmp(last_word, modes[other].name) == 0) return &modes[other] != mode;
    return 0;
}

int main(int count, char **words) {
    const char *what = count > 1 ? words[1] : "";
    size_t longest = count > 2 ? strtoul(words[2], NULL, 10) : 0;
    for (unsigned mode = 0; mode < MODES; mode++) {
        if (is_left_out(&modes[mode], words[count - 1])) continue;
        if (strcmp(what, "texts") == 0 && longest > 0) {
            try_all_texts(&modes[mode], longest);
        } else if (strcmp(what, "pairs") == 0) {
            for (unsigned place = 0; place < 4; place++)
                try_all_pairs(&modes[mode], &places[mode][place]);
        } else if (strcmp(what, "faults") == 0) {
            try_all_faults(&modes[mode]);
        } else {
            fprintf(stderr, "usage: exhaustive texts LENGTH | pairs | faults, and a MODE\n");
            return 2;
        }
    }
    printf("%lu commands are right; %lu freed blocks had the KEK\n", runs, freed_with_kek);
    return 0;
}
