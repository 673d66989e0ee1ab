/* Dhokyurai: Avro declarations in one set of lent memory, for C and C++.
 *
 * Every function takes any bytes; no caller has to check first. Each answers 0 where it is accepted, and else the number of a
 * refusal, 1 to 29, 40 to 48 or 57 (README.md lists them); a refusal leaves memory, buffers and lists as they were. Nothing is allocated or kept: all
 * state is in the memory that is lent. Stack: 600 KB are enough (measured on x86-64, with rows nested 1,023 deep, the most that a set can hold; proofs
 * know no stack). What is promised is proved; docs/PROMISES.md says where.
 *
 * Pointers: each is followed by its length, and must be valid for that many bytes (a list: for that many numbers), also where the length is 0; the
 * numbers at the end must be valid to write. No two lent parts may overlap.
 */
#ifndef DHOKYURAI_H
#define DHOKYURAI_H
#include <stddef.h>
#include <stdint.h>

#ifdef __cplusplus
extern "C" {
#endif

/* How many bytes the memory of a set has: 51,266. */
size_t dhokyurai_memory_length(void);

/* Makes memory of that length the empty set, whatever it held.
 * Here and in put, where accepted: *a, *b, *c are how many declarations, rows and string bytes the set has.
 * Where refused: *a is the declaration's place in the set, *b the byte position in its text, *c is 0. Of a string that is no name
 * (7) *b is the first character or escape after which no name can follow, or the closing quote where it ends too soon. */
uint8_t dhokyurai_open(uint8_t *memory, size_t memory_length, size_t *a, size_t *b, size_t *c);

/* Puts the declaration that the text holds at a place of the set, from 0: in place of the one that stands there, or, where the place is the
 * count of declarations (*a of the last accepted call), as one more at the set's end. Answer and memory are those of putting the edited
 * list of texts one by one at the end of an empty set. No row or string before the place moves.
 * A field's default that does not fit its type is refused by 47, in the text that is put and in every declaration behind its place.
 * 20 has the place asked for. 21 is for places above the count, and no others; 22 for the place 32 of a set of 32, and no other.
 * (In earlier versions there were dhokyurai_add, which is put at the count, and dhokyurai_replace, which is put below it.) */
uint8_t dhokyurai_put(uint8_t *memory, size_t memory_length, size_t place, const uint8_t *text, size_t text_length, size_t *a, size_t *b,
                      size_t *c);

/* The full name of a row, by its declaration's place and its number there, from 0: of a definition, its alias or a reference. It is
 * stored from the buffer's start on, as far as there is room; 255 bytes hold any. Where accepted *a is its length, at least 1.
 * Where refused *a is the place asked for and *b is 0. */
uint8_t dhokyurai_full_name(const uint8_t *memory, size_t memory_length, size_t place, size_t row, uint8_t *buffer, size_t buffer_length,
                            size_t *a, size_t *b);

/* The canonical text of the declaration at a place into the buffer, from an offset on; all other bytes of it stay. Where accepted *a is
 * the text's length. Where refused *a is the place asked for and *b is 0, or with 29 (too little room) the text's length. */
uint8_t dhokyurai_canonical(const uint8_t *memory, size_t memory_length, size_t place, uint8_t *buffer, size_t buffer_length,
                            size_t offset, size_t *a, size_t *b);

/* The length of that text alone, in *a. It is at most 64 times the set's rows and its string bytes together: 81,920. */
uint8_t dhokyurai_canonical_length(const uint8_t *memory, size_t memory_length, size_t place, size_t *a, size_t *b);

/* The Rabin fingerprint (CRC-64-AVRO) of that text, in *fingerprint; 0 there where it is refused. */
uint8_t dhokyurai_fingerprint(const uint8_t *memory, size_t memory_length, size_t place, int64_t *fingerprint, size_t *a, size_t *b);

/* Reads a summary in Avro's single-object encoding: the bytes C3 01, the eight bytes of a fingerprint, lowest first, and a datum. Its declaration is
 * the first of the set that has this fingerprint; the datum is walked by its rows, in at most 4,096 steps: one for each row that is visited (a field, a
 * type, a branch; aliases and symbols are none) and one for each header of a block.
 * The list gets, in walking order, the offset of the datum of each field and of each union's branch that is taken, each time that it comes, and in
 * the end the offset of the datum's end. An offset counts bytes from the marker's first, C3. A list of 4,097 numbers is long enough for any
 * summary; numbers of the list behind those that are told stay.
 * Where accepted *a is the declaration's place and *b how many numbers were stored, at least 1.
 * Where refused the list is untouched. 20 comes before all others: memory is no well-formed set; *a and *b are 0. Then:
 * 40 the marker is wrong or cut, 42 the fingerprint is cut, 41 no declaration has it: *a is 0 and *b the offset of what is faulty (of a marker that is
 * wrong and of the fingerprint, its first byte; where the bytes end too soon, their count);
 * and in walking order 42 the datum is cut, 43 a number is too long or does not fit its type, or a length is below 0, 44 no such branch or symbol, or
 * no boolean, 45 a step more than 4,096, before its item is read, 46 bytes are left over, 57 a block's size is wrong, tested at the block's end: *a is
 * the declaration's place and *b the offset of the faulty item's first byte, or of the bytes' end where the datum is cut.
 * Last comes 29, the list is too short: *a is 0 and *b how many numbers are needed.
 * What bytes a string has is not looked at. */
uint8_t dhokyurai_summary(const uint8_t *memory, size_t memory_length, const uint8_t *summary, size_t summary_length, size_t *list,
                          size_t list_length, size_t *a, size_t *b);

/* The place of a fingerprint, as dhokyurai_fingerprint has it: of two declarations that have it, the earlier. It is for linkers that read thousands of
 * summaries of few declarations: to find the declaration of a summary the fingerprints of the set are made again, and here that is done once for
 * all of them. Where accepted *a is the place and *b is 0. Where refused, by 20 or 41, both are 0. */
uint8_t dhokyurai_find(const uint8_t *memory, size_t memory_length, int64_t fingerprint, size_t *a, size_t *b);

/* Walks a datum alone by the declaration at a place, as dhokyurai_summary does behind the ten bytes of a summary's head. Here offsets count from the
 * datum's first byte. Where accepted *a is the place and *b how many numbers were stored, at least 1. Where refused the list is untouched and *a is
 * the place asked for; *b is 0 with 20 and with 21, no such place, how many numbers are needed with 29, which comes last, and else the offset, as there. */
uint8_t dhokyurai_datum(const uint8_t *memory, size_t memory_length, size_t place, const uint8_t *datum, size_t datum_length, size_t *list,
                        size_t list_length, size_t *a, size_t *b);

#ifdef __cplusplus
}
#endif
#endif
