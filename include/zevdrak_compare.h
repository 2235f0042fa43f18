/* SPDX-License-Identifier: Apache-2.0 OR MIT */
/* Functions of the payout checker that are there only to compare them one by one with the original's: who asks for verdicts needs
   none of them. They are in the same library as those of zevdrak.h, and what is said there of slices holds here too.

   Limits. zevdrak_reserve_bounding_payout asks the questions about the file and the entry first, as zevdrak_verdict does, and took
   at most 116 KB of stack. The others ask none, since they are compared on parts of files too, and go into what they are given as
   deep as it is nested. Each level takes stack: 48 bytes in zevdrak_expr_eq and zevdrak_bounded_by_backing, 64 in the three about
   tokens. A stack that is too small for it overflows, and that ends the process. So ask zevdrak_check_file first: in a file that it
   passes expressions are at most 32 deep, and none of the others took more than 80 KB. Without asking, lend a stack of 2 MB: the
   deepest expressions that a field's length allows, of 21,846 levels, took 1,032 KB, and the deepest file of 32,768 bytes 732. That
   is measured, and no proof bounds it. */
#ifndef ZEVDRAK_COMPARE_H
#define ZEVDRAK_COMPARE_H

#include <stdbool.h>
#include <stddef.h>
#include <stdint.h>

/* A part of a file is its bytes from where an expression or an entry stands; what comes behind that is not read. */

/* Whether the expressions at the fronts of two parts are equal. */
bool zevdrak_expr_eq(const uint8_t *a, size_t a_length, const uint8_t *b, size_t b_length);

/* Whether the backing at the front of one part bounds the amount at the front of another. The backing is compared as it stands:
   peel it first. */
bool zevdrak_bounded_by_backing(const uint8_t *amount, size_t amount_length, const uint8_t *backing, size_t backing_length,
                                bool wrapping);

/* Whether the token is the one that the entry at the front of a part admits. In these three a token is its name, and no bytes
   stand for none; of more than 32,768 bytes the answer is no. */
bool zevdrak_is_admitted_inflow_token(const uint8_t *entry, size_t entry_length, const uint8_t *token, size_t token_length);

/* Whether the token is the one token that funds the map of that name. */
bool zevdrak_is_ledger_funding_token(const uint8_t *file, size_t file_length, const uint8_t *map, size_t map_length,
                                     const uint8_t *token, size_t token_length);

/* Whether the token is the one that the state field of that name holds. */
bool zevdrak_is_reserve_token(const uint8_t *file, size_t file_length, const uint8_t *field, size_t field_length,
                              const uint8_t *token, size_t token_length);

/* What is answered about a payout's reserve, and the two numbers. */
#define ZEVDRAK_RESERVE_COVERS 0  /* first: the number of the state field, counted from 0; second: 0 */
#define ZEVDRAK_RESERVE_NONE 1    /* first: ZEVDRAK_NO_FIELD, a number that no state field has; second: 0 */
#define ZEVDRAK_RESERVE_REFUSED 2 /* first: the question that said no, 1 to 9; second: the place in the file */
#define ZEVDRAK_NO_FIELD 65535

/* The state field that covers a payout of an entry by itself, whatever else backs the payout and whether or not another one uses
   the field. The entry and the payout are counted from 0. None covers a payout that is not there. */
uint8_t zevdrak_reserve_bounding_payout(const uint8_t *file, size_t file_length, size_t entry, size_t payout, size_t *first,
                                        size_t *second);

#endif
