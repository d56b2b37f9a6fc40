/* The piece that goes with the design. */
#ifndef FUZZ_PIECES_H
#define FUZZ_PIECES_H

#include <stddef.h>
#include <stdint.h>

/* What a call on property 0 says of a piece that is none. */
enum { BAD_PIECE = 8 };

extern const uint8_t *piece;
extern size_t piece_len;
extern uint64_t piece_code; /* what a call on property 0 says of it: 0, or BAD_PIECE */

/* The piece that the tests ask about. */
void set_piece(const uint8_t *bytes, size_t len);

/* Any piece, in a region of its own. Answers its length. */
size_t lend_piece(size_t region);

void next_piece(void);

#endif
