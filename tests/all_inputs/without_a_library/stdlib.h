/* The part of stdlib.h that keywrap.c needs, for a machine without a C library. */
void abort(void);
