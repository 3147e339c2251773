/* One move of a lane of wagons, made by a proved library.
 *
 * Link target/staticlib/libmoves.a, which `simulator/test` builds from the crate `moves_c`.
 * docs/MOVES.md says what a move asks and does, and lists the refusals.
 */
#ifndef ZENTURPA_H
#define ZENTURPA_H

#include <stddef.h>
#include <stdint.h>

#ifdef __cplusplus
extern "C" {
#endif

/* What a move answers.
 *
 * Where `refusal` is 0 the move was made: `mode`, `phase` and `len` are those after it, and the first `len` bytes of the
 * buffer are the lane. Otherwise nothing has changed: `refusal` is the number of the refusal, `place` its place, and
 * `mode`, `phase` and `len` are those that were handed over.
 */
typedef struct zenturpa_move_answer {
    uint32_t refusal;
    uint32_t mode;
    size_t place;
    uint64_t phase;
    size_t len;
} zenturpa_move_answer;

/* Carries out the order or notice `number` that the text `line` says.
 *
 * line, line_len      the text of one order line or notice line, without the byte that ends it
 * mode                the mode, 0 to 15
 * phase               the numbers in force: bit n for number n
 * buffer, buffer_len  bytes to write to; the lane is in front, its top the first byte, one byte from 0 to 31 for each wagon
 * len                 how many wagons the lane has
 * number              the number to carry out
 *
 * Every value of the numbers is taken, and any bytes. The call always returns, reads and writes nothing but these two
 * ranges of bytes, keeps nothing, and needs no memory from the heap. Several threads may call it at once, each with a
 * buffer of its own.
 *
 * The caller owes what C cannot check: `line` and `buffer` are not NULL, also where their length is 0, they point to as
 * many bytes as their lengths say, and the two ranges do not overlap.
 */
zenturpa_move_answer zenturpa_move(const uint8_t *line, size_t line_len, uint8_t mode, uint64_t phase, uint8_t *buffer,
                                   size_t buffer_len, size_t len, uint8_t number);

#ifdef __cplusplus
}
#endif

#endif
