/* meaning.h: what a text denotes, written from the manual page, and from RFC 4648 for base64. It shares nothing with
 * the program. */

#ifndef MEANING_H
#define MEANING_H

#include <stddef.h>

enum notation { HEX, BASE64 };
enum blanks { BLANKS_ANYWHERE, BLANKS_AT_THE_ENDS };

struct meaning {
    unsigned char bytes[4096];
    size_t len;
    char fault[96];  /* the message of a text that denotes no bytes; else empty */
    char fault2[96]; /* another message that is right, too, for a text that is wrong in two ways */
};

void meaning_of(enum notation, enum blanks, const unsigned char *text, size_t len,
                struct meaning *);

#endif
