/* SPDX-License-Identifier: Apache-2.0 OR MIT */
/* The payout checker for Quanta contracts, proved. `rt lib` in crates/export makes the library: crates/export/out/libexport.a.
   A slice is a pointer and then a length; where the length is 0 the pointer is not read, and must not be null all the same.
   No function keeps what it is lent. Any bytes may be given. docs/USING.md says what each answer means. What the library has for
   comparisons alone stands in zevdrak_compare.h. */
#ifndef ZEVDRAK_H
#define ZEVDRAK_H

#include <stdbool.h>
#include <stddef.h>
#include <stdint.h>

/* Bytes that are enough for the covers of every entry, for the records and for the listing of every file. */
#define ZEVDRAK_COVERS 192
#define ZEVDRAK_RECORDS 12608
#define ZEVDRAK_LISTING 65536

/* What a verdict is, and its two numbers. The spare of an accepted entry is how many backings it has beyond its
   payouts, or 0. */
#define ZEVDRAK_ACCEPTED 0 /* first: the number of payouts, which have 3 bytes of covers each; second: its spare */
#define ZEVDRAK_REJECTED 1 /* first: the payout that has no cover, counted from 0; second: the reason, 1 to 6 */
#define ZEVDRAK_REFUSED 2  /* first: the question that said no, 1 to 12; second: the place in the file */

/* The verdict on an entry, counted from 0, of a model file. Only an accepted entry's covers are written, 3 bytes a payout
   (kind, then the index, most significant byte first); all other bytes of the covers stay as they are. */
uint8_t zevdrak_verdict(const uint8_t *file, size_t file_length, size_t entry, uint8_t *covers, size_t covers_length,
                        size_t *first, size_t *second);

/* The verdicts on all entries of a model file by one call. The answer is ZEVDRAK_ACCEPTED only where there are entries and each
   is accepted: publish a contract only then. Else it is ZEVDRAK_REFUSED where the file or an entry is refused or there is no
   entry, and ZEVDRAK_REJECTED otherwise. Into the front of records, which should have room for ZEVDRAK_RECORDS bytes, goes a
   record for each entry in file order; a file that is refused has one for the refusal alone, and one without entries the
   refusal of question 9. A record is 5 bytes, and for an accepted entry its covers
   behind them: what the verdict is, and its first and second number in two bytes each, most significant byte first. How many
   bytes of records they take is written to length; where there is less room, the last records are cut off. */
uint8_t zevdrak_contract(const uint8_t *file, size_t file_length, uint8_t *records, size_t records_length, size_t *length);

/* The listing of a model file, as the program `payouts` prints it, written into the front of out; the answer is how many
   bytes of out it takes. */
size_t zevdrak_listing(const uint8_t *file, size_t file_length, uint8_t *out, size_t out_length);

/* Questions 1 to 8 of a file: 0 if all pass, else the number of the first "no", whose place is then written. */
uint8_t zevdrak_check_file(const uint8_t *file, size_t file_length, size_t *place);

#endif
