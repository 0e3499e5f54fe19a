/* A plain SHA-1, for comparison. The file plain_sha1.c is compiled once for
   each compiler, and the name of the function is given at that time. */
#ifndef PLAIN_SHA1_H
#define PLAIN_SHA1_H

#include <stddef.h>
#include <stdint.h>

#ifdef PLAIN_SHA1
void PLAIN_SHA1(const uint8_t *message, size_t length, uint8_t digest[20]);
#endif

void plain_sha1_gcc(const uint8_t *message, size_t length, uint8_t digest[20]);
void plain_sha1_clang(const uint8_t *message, size_t length, uint8_t digest[20]);

#endif
