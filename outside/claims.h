/* The proved claim checker's face for C. Link target/staticlib/libchecker.a, made by `tools/staticlib`.
   A slice is a pointer and a length; the pointer of an empty one must be valid too. */
#ifndef CLAIMS_H
#define CLAIMS_H

#include <stddef.h>
#include <stdint.h>

/* Decides on a claim file. Returns document 01's number, 0 to 9, and writes a and b. With 0 the first N bytes of the answer
   are written and no others; any other number leaves the answer as it was. */
size_t claim_check(const uint8_t *file, size_t file_len, uint8_t *answer, size_t answer_len, size_t *a, size_t *b);

/* The part of the file that holds the record of a shape: writes where it starts and returns its length; 0 and 0 if the file
   is refused by 1 to 6 or has no such shape. */
size_t claim_record(const uint8_t *file, size_t file_len, size_t number, size_t *start);

#endif
