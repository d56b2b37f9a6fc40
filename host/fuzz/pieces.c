#include "pieces.h"

#include "../stm/formula.h"
#include "designs.h"
#include "memory.h"
#include "random.h"
#include "report.h"

const uint8_t *piece;
size_t piece_len;
uint64_t piece_code;

/* The bytes of a file's invariant, or of its constraint where it has one. Answers their number; the file is a whole design. */
static size_t property_of(size_t file, int constraint, uint8_t *bytes)
{
    const uint8_t *from = files[file].bytes, *trailer = from + files[file].len - 16;
    const uint8_t *end = from + files[file].len - tail_len(from, files[file].len);
    const uint8_t *invariant = from + trailer[14] + 256u * trailer[15];
    const uint8_t *middle = end == trailer ? end : from + end[0] + 256u * end[1];
    const uint8_t *first = constraint ? middle : invariant, *past = constraint ? end : middle;
    memcpy(bytes, first, (size_t)(past - first));
    return (size_t)(past - first);
}

/* An expression of constants alone, of so many bytes, at least 2. */
static uint8_t *constants(uint8_t *at, size_t len)
{
    if (len == 2 || len == 3) {
        memcpy(at, len == 2 ? "\x10\1" : "\x12\x10\1", len);
        return at + len;
    }
    *at = len == 4 ? 0x12 : (uint8_t)PICK(0x13, 0x14);
    if (len == 4)
        return constants(at + 1, 3);
    return constants(constants(at + 1, (len - 1) / 2), len - 1 - (len - 1) / 2);
}

/* A piece: none, a property of the design's own file or of another, as it is or damaged, or a long one. */
static size_t any_piece(uint8_t bytes[MAX_DESIGN])
{
    if (chance(40))
        return 0;
    if (chance(5)) {
        size_t len = (size_t)PICK(16383, 16384, 16385, 16386);
        constants(bytes, len);
        return len;
    }
    size_t len = property_of(chance(60) ? last_file : below(file_count), chance(20), bytes);
    if (chance(60))
        return len;
    switch (below(3)) {
    case 0:
        bytes[len] = likely_byte();
        return len + 1;
    case 1:
        return below(len + 1);
    default:
        if (len)
            bytes[below(len)] = likely_byte();
        return len;
    }
}

/* 0 where CHECK accepts the design with the piece in its invariant's place, else the piece's 8. Where that file would be too long,
 * SIZE tells. */
static uint64_t refusal_of_piece(void)
{
    static uint8_t file[2 * MAX_DESIGN + 512];
    size_t tail = tail_len(design, design_len), items = design_len - tail;
    size_t invariant = design[design_len - 2] + 256u * design[design_len - 1];
    size_t constraint = tail == 18 ? design[items] + 256u * design[items + 1] : items;
    size_t len = design_len - (constraint - invariant) + piece_len;
    if (piece_len == 0 || piece_len > 16384)
        return piece_len == 0 ? 0 : BAD_PIECE;
    if (len > 16384) {
        uint64_t sizes[SIZE_LEN];
        return stm_size(design, design_len, piece, piece_len, INVARIANT, 0, sizes);
    }
    memcpy(file, design, invariant);
    memcpy(file + invariant, piece, piece_len);
    memcpy(file + invariant + piece_len, design + constraint, design_len - constraint);
    if (tail == 18) {
        file[len - 18] = (uint8_t)(invariant + piece_len);
        file[len - 17] = (uint8_t)((invariant + piece_len) >> 8);
    }
    return stm_check(file, len) ? BAD_PIECE : 0;
}

void set_piece(const uint8_t *bytes, size_t len)
{
    piece = bytes;
    piece_len = len;
    piece_code = design_code ? 0 : refusal_of_piece();
    require(piece_code == 0 || piece_code == BAD_PIECE, "size", "no such refusal of a piece", piece_code);
}

size_t lend_piece(size_t region)
{
    static uint8_t bytes[MAX_DESIGN];
    size_t len = any_piece(bytes);
    memcpy(lent(region, len), bytes, len);
    keep(region);
    return len;
}

void next_piece(void)
{
    size_t len = lend_piece(PIECE);
    set_piece(regions[PIECE].at, len);
    seen.pieces_refused += piece_code != 0;
    seen.pieces_taken += design_code == 0 && piece_code == 0 && piece_len > 0;
}
