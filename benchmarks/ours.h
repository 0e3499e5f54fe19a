/* The function that the proved library exports: a slice passes as a pointer
   and a length. */
#ifndef OURS_H
#define OURS_H

#include <stddef.h>
#include <stdint.h>

void welluthan_sha1(const uint8_t *message, size_t length, uint8_t digest[20]);

#endif
