/* meaning.c: see meaning.h. */

#include "meaning.h"

#include <stdio.h>
#include <string.h>

static int is_blank(unsigned char c) {
    return c == ' ' || c == '\t' || c == '\r' || c == '\n';
}

/* The value of a digit, or -1. */
static int value_of(const char *digits, unsigned char c) {
    const char *found = c ? strchr(digits, c) : NULL;
    return found ? (int)(found - digits) : -1;
}

static int hex_value(unsigned char c) {
    int value = value_of("0123456789abcdef", c);
    return value >= 0 ? value : value_of("0123456789ABCDEF", c);
}

static void hex_meaning(const unsigned char *text, size_t len, struct meaning *meaning) {
    unsigned digits = 0;
    for (size_t i = 0; i < len; i++) {
        int value = hex_value(text[i]);
        if (is_blank(text[i])) continue;
        if (value < 0) {
            sprintf(meaning->fault, "no hex digit at byte %zu", i);
            return;
        }
        if (digits % 2 == 0) meaning->bytes[meaning->len] = (unsigned char)(16 * value);
        else meaning->bytes[meaning->len++] += (unsigned char)value;
        digits++;
    }
    if (digits % 2 != 0) strcpy(meaning->fault, "odd number of hex digits");
}

#define SHARED "ABCDEFGHIJKLMNOPQRSTUVWXYZabcdefghijklmnopqrstuvwxyz0123456789"

/* The first character that only one of the two alphabets has decides which one it is. */
static const char *alphabet_of(const unsigned char *text, size_t len) {
    for (size_t i = 0; i < len; i++) {
        if (text[i] == '-' || text[i] == '_') return SHARED "-_";
        if (text[i] == '+' || text[i] == '/') return SHARED "+/";
    }
    return SHARED "+/";
}

/* The message of base64 whose characters are all allowed, and in their places. */
static void base64_length(size_t characters, size_t padding, unsigned rest,
                          struct meaning *meaning) {
    static const char LENGTH[] = "length is not that of base64";
    static const char BITS[] = "last base64 character has bits of no byte";
    size_t last = characters % 4;
    int whole = padding == 0 || (padding < 3 && (characters + padding) % 4 == 0);
    int has_length = last != 1 && whole;
    int has_bits = (last == 2 && (rest & 15)) || (last == 3 && (rest & 3));
    if (!has_length) strcpy(meaning->fault, LENGTH);
    if (has_bits) strcpy(has_length ? meaning->fault : meaning->fault2, BITS);
}

static void base64_meaning(const unsigned char *text, size_t len, struct meaning *meaning) {
    const char *alphabet = alphabet_of(text, len);
    size_t characters = 0, padding = 0, after = len;
    unsigned bits = 0;
    for (size_t i = 0; i < len; i++) {
        if (is_blank(text[i])) continue;
        if (text[i] != '=' && value_of(alphabet, text[i]) < 0) {
            sprintf(meaning->fault, "no base64 character at byte %zu", i);
            return;
        }
        if (text[i] == '=') padding++;
        else if (padding > 0 && after == len) after = i;
    }
    if (after < len) {
        sprintf(meaning->fault, "base64 goes on after its padding at byte %zu", after);
        return;
    }
    for (size_t i = 0; i < len; i++) {
        if (is_blank(text[i]) || text[i] == '=') continue;
        bits = bits << 6 | (unsigned)value_of(alphabet, text[i]);
        characters++;
        if (characters % 4 != 1) {
            unsigned left = 6 - 2 * (unsigned)((characters - 1) % 4);
            meaning->bytes[meaning->len++] = (unsigned char)(bits >> left);
        }
    }
    base64_length(characters, padding, bits, meaning);
}

/* The offset of the first blank between two other characters, or the length. */
static size_t inner_blank(const unsigned char *text, size_t len) {
    size_t end = len, at = 0;
    while (end > 0 && is_blank(text[end - 1])) end--;
    while (at < end && is_blank(text[at])) at++;
    while (at < end && !is_blank(text[at])) at++;
    return at < end ? at : len;
}

void meaning_of(enum notation notation, enum blanks blanks, const unsigned char *text, size_t len,
                struct meaning *meaning) {
    unsigned char marked[4096];
    meaning->len = 0;
    meaning->fault[0] = meaning->fault2[0] = 0;
    memcpy(marked, text, len);
    /* A blank between other characters of a line is refused as any other character is. */
    if (blanks == BLANKS_AT_THE_ENDS) {
        size_t at = inner_blank(text, len);
        if (at < len) marked[at] = '*';
    }
    if (notation == HEX) hex_meaning(marked, len, meaning);
    else base64_meaning(marked, len, meaning);
    if (meaning->fault[0]) meaning->len = 0;
}
