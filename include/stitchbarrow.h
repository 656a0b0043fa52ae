/* Stitchbarrow for C: every function takes any bytes, keeps nothing between calls and allocates nothing.
 *
 * A slice is a pointer and a count of elements; an empty one may have any pointer. Slices that a call writes must not overlap its others.
 * Each function returns the number of its answer (run: of its stop), or STITCHBARROW_TOO_SHORT where a lent answer, sheet or counts slice is
 * too short for what it would write; then nothing is written at all. Elements of a longer slice stay as lent.
 */
#ifndef STITCHBARROW_H
#define STITCHBARROW_H

#include <stddef.h>
#include <stdint.h>

#ifdef __cplusplus
extern "C" {
#endif

/* What is returned where a lent slice is too short. */
#define STITCHBARROW_TOO_SHORT 255

/* An answer: its number (1 byte), zero (1), place (2) and value (8), little-endian: the last 12 bytes of a verdict. */
#define STITCHBARROW_ANSWER_SIZE 12

/* A sheet, which holds the text of an IBAN or an LEI between repairs: its kind, 1 or 2 (2 bytes), the text's length (2), remainder (8) and
 * bytes (34, zero past the length), little-endian. An empty one is 46 zeros. Any bytes may be lent as a sheet: a repair answers 20 where they
 * are an empty one, or are forged, that is, not what loading their own text would write. */
#define STITCHBARROW_SHEET_SIZE 46

/* A verdict: 20 (2 bytes), the kind (2), the record's stream offset (8), the answer (12), little-endian. */
#define STITCHBARROW_VERDICT_SIZE 24

/* Checks one field. Writes the answer, of a refusal too, to the first 12 bytes of `answer`, and returns its number.
 * 255: `answer` has fewer than 12 bytes, and nothing is written. */
uint8_t stitchbarrow_check(uint16_t kind, const uint8_t *value, size_t value_len, uint8_t *answer, size_t answer_len);

/* Judges the records of a batch whose first byte has this stream offset, at most `budget` of them. Writes 24 bytes to `out` for each
 * judged record, one after the other, and no others; writes records judged, bytes read and bytes written to the first three elements of
 * `counts`, at every stop; returns the stop: 0 no bytes left, 31 budget spent, 32 no room in `out`, 33 a record cut short, 34 offset plus
 * length is 2^64 or more (counts 0), 35 a length above 8,192. To go on after 31 or 32, call again with the bytes from `read` on and the
 * offset moved by as much. 255: `counts` has fewer than 3 elements, and nothing is written; a short `out` is stop 32. */
uint8_t stitchbarrow_run(const uint8_t *batch, size_t batch_len, uint64_t offset, uint8_t *out, size_t out_len, uint64_t budget,
                         uint64_t *counts, size_t counts_len);

/* Loads a field of kind 1 (IBAN, held without its blanks) or 2 (LEI). Writes the new sheet to the first 46 bytes of `sheet` where the answer
 * is 0 (number 1) or 5 (number the remainder), and leaves them as lent where it is another: 12 (another kind), 11, 1, 2 or 3, as check
 * answers. Writes the answer, of a refusal too, to the first 12 bytes of `answer`, and returns its number.
 * 255: `sheet` has fewer than 46 bytes or `answer` fewer than 12, and nothing is written. */
uint8_t stitchbarrow_load(uint16_t kind, const uint8_t *value, size_t value_len, uint8_t *sheet, size_t sheet_len, uint8_t *answer,
                          size_t answer_len);

/* Puts a byte at a place of the held text, counted from 0. Writes the repaired sheet to the first 46 bytes of `sheet` where the answer is 0
 * or 5, as a fresh check of the new text answers, and leaves them as lent where it is another: 20 (empty or forged), 21 (the place, its
 * number, is not below the length) or 22 (the byte is no ASCII letter or digit, or the character at the answer's place would be of a wrong
 * class). Writes the answer, of a refusal too, to the first 12 bytes of `answer`, and returns its number.
 * 255: `sheet` has fewer than 46 bytes or `answer` fewer than 12, and nothing is written. */
uint8_t stitchbarrow_replace(uint8_t *sheet, size_t sheet_len, size_t place, uint8_t byte, uint8_t *answer, size_t answer_len);

/* Exchanges the characters at two places of the held text, counted from 0. Writes the repaired sheet to the first 46 bytes of `sheet` where
 * the answer is 0 or 5, as a fresh check of the new text answers, and leaves them as lent where it is another: 20 (empty or forged), 21 (a
 * place is not below the length; its number is the first such place) or 22 (the character at the answer's place would be of a wrong class).
 * Writes the answer, of a refusal too, to the first 12 bytes of `answer`, and returns its number.
 * 255: `sheet` has fewer than 46 bytes or `answer` fewer than 12, and nothing is written. */
uint8_t stitchbarrow_exchange(uint8_t *sheet, size_t sheet_len, size_t i, size_t j, uint8_t *answer, size_t answer_len);

/* Sets the check digits of the held text, to 02..98. Writes the repaired sheet to the first 46 bytes of `sheet` where the answer is 0, and
 * leaves them as lent where it is 20 (empty or forged); no other answer is given. Writes the answer, of a refusal too, to the first 12 bytes
 * of `answer`, and returns its number. 255: `sheet` has fewer than 46 bytes or `answer` fewer than 12, and nothing is written. */
uint8_t stitchbarrow_fill(uint8_t *sheet, size_t sheet_len, uint8_t *answer, size_t answer_len);

#ifdef __cplusplus
}
#endif

#endif
