/* The proved streams and the proved decoder, for C on x86-64 Linux. Link with target/staticlib/libexports.a (./build.sh).
 *
 * What is returned. Each reader and writer returns one byte:
 *   0           done; *place is the offset behind the record
 *   255         no bytes left where a record would start
 *   7, 8, 9     refused by that number of document 01; *place is the offset of the number's first byte
 *   any other   refused by that number of document 01; 31, of document 02: neither model 0 nor model 1
 * Where nothing is said of *place it stays as it was. Unless 0 is returned, no buffer, no value and no lent offset is
 * changed. A writer stores the record's own bytes and no others.
 *
 * What the caller sees to. The proofs hold where
 *   - a slice, a pointer and a length, has that many bytes, at most PTRDIFF_MAX; NULL will do with length 0, and only
 *     there;
 *   - every other pointer points to one value of its type, aligned as C aligns it;
 *   - all of these are initialised, those too that the call is to store to;
 *   - what a call may store to, all that is not const, overlaps nothing else that it is handed, while const slices may
 *     overlap each other.
 * No pointer is kept when a call returns. There is no state besides the arguments, no allocation, no input or output:
 * calls on several threads at once are independent if none stores to what another is handed.
 * baizeridge_decode needs BAIZERIDGE_DECODE_STACK bytes of stack, every other call BAIZERIDGE_STACK; how much does not
 * depend on the input. */
#ifndef BAIZERIDGE_H
#define BAIZERIDGE_H

#include <stddef.h>
#include <stdint.h>

/* 384 KiB to decode, where the window's arrays stand in one frame, whatever the shape. Any other call takes less than
 * 2,500 bytes, measured. */
#define BAIZERIDGE_DECODE_STACK 393216
#define BAIZERIDGE_STACK 32768

#ifdef __cplusplus
extern "C" {
#endif

/* Numbers in groups of seven bits, and sheet lists: a byte 0 or 1 an entry. */
uint8_t baizeridge_read_number(const uint8_t *src, size_t src_len, size_t at, uint32_t *value, size_t *place);
uint8_t baizeridge_write_number(uint32_t n, uint8_t *out, size_t out_len, size_t at, size_t *place);
uint8_t baizeridge_read_list(const uint8_t *src, size_t src_len, size_t at, uint8_t *out, size_t out_len, size_t *place);
uint8_t baizeridge_write_list(const uint8_t *entries, size_t entries_len, uint8_t *out, size_t out_len, size_t at,
                              size_t *place);

/* The header, a round of the input and a round of the result, read at an offset. The model is 0 without the diagonals and
 * 1 with them. Defects and escapes have a byte a detector, edges a byte an edge of a layer. */
uint8_t baizeridge_read_header(const uint8_t *src, size_t src_len, size_t at, uint32_t *height, uint32_t *distance,
                               uint32_t *model, size_t *place);
uint8_t baizeridge_read_round(uint32_t height, uint32_t distance, uint32_t model, const uint8_t *src, size_t src_len,
                              size_t at, uint8_t *defects, size_t defects_len, size_t *place);
uint8_t baizeridge_read_result(uint32_t height, uint32_t distance, uint32_t model, const uint8_t *src, size_t src_len,
                               size_t at, uint8_t *edges, size_t edges_len, uint8_t *escapes, size_t escapes_len,
                               uint32_t *steps, size_t *place);

/* The same with the offset lent: *at moves behind what was read, and stays where nothing was. */
uint8_t baizeridge_take_header(const uint8_t *src, size_t src_len, size_t *at, uint32_t *height, uint32_t *distance,
                               uint32_t *model, size_t *place);
uint8_t baizeridge_take_round(uint32_t height, uint32_t distance, uint32_t model, const uint8_t *src, size_t src_len,
                              size_t *at, uint8_t *defects, size_t defects_len, size_t *place);
uint8_t baizeridge_take_result(uint32_t height, uint32_t distance, uint32_t model, const uint8_t *src, size_t src_len,
                               size_t *at, uint8_t *edges, size_t edges_len, uint8_t *escapes, size_t escapes_len,
                               uint32_t *steps, size_t *place);

/* The same three, written from an offset on. */
uint8_t baizeridge_write_header(uint32_t height, uint32_t distance, uint32_t model, uint8_t *out, size_t out_len,
                                size_t at, size_t *place);
uint8_t baizeridge_write_round(uint32_t height, uint32_t distance, uint32_t model, const uint8_t *defects,
                               size_t defects_len, uint8_t *out, size_t out_len, size_t at, size_t *place);
uint8_t baizeridge_write_result(uint32_t height, uint32_t distance, uint32_t model, const uint8_t *edges,
                                size_t edges_len, const uint8_t *escapes, size_t escapes_len, uint32_t steps,
                                uint8_t *out, size_t out_len, size_t at, size_t *place);

/* A whole input stream and a whole result stream: the shape, and how many rounds there are; *place is the length. */
uint8_t baizeridge_scan_input(const uint8_t *src, size_t src_len, uint32_t *height, uint32_t *distance,
                              uint32_t *model, size_t *rounds, size_t *place);
uint8_t baizeridge_scan_results(const uint8_t *src, size_t src_len, uint32_t *height, uint32_t *distance,
                                uint32_t *model, size_t *rounds, size_t *place);

/* Decodes a whole input stream into a result stream at the front of out. Returned is 0 where it was decoded to the
 * input's end, else the refusal's number (11: out has no room for the next record); 254, for a round that ended spent,
 * is never returned. In every case *count is the length of what was written: the header's bytes, if it was read and had
 * room, and those of the finished rounds; the bytes behind them stay as they were. With 7, 8 and 9 *place is the offset
 * in src of the number's first byte; else it stays as it was, with 0 too. */
uint8_t baizeridge_decode(const uint8_t *src, size_t src_len, uint8_t *out, size_t out_len, size_t *count,
                          size_t *place);

/* A shape's nodes in a window, detectors of a sheet, and edges of a layer; 0 where the shape is refused. */
size_t baizeridge_nodes(uint32_t height, uint32_t distance, uint32_t model);
size_t baizeridge_detectors(uint32_t height, uint32_t distance, uint32_t model);
size_t baizeridge_layer_edges(uint32_t height, uint32_t distance, uint32_t model);

/* The most merging steps that a merging stage takes in a window of the shape, 4 N + 4 with N its nodes: if calls on a
 * fresh window have left it not at rest, a run with this budget brings it there. 0 where the shape is refused. */
size_t baizeridge_step_bound(uint32_t height, uint32_t distance, uint32_t model);

/* Whether a caller whose patches have at most a largest height and a largest distance may create a window of a shape:
 * 0 if it may, else the refusal's number, the first of
 *   1, 2, 31   there is no such shape, whatever the limits
 *   32         a limit is above 15, or the shape is over a limit
 * A caller that takes every shape has the limits 15 and 15, as every other function here has. A console with patches up
 * to 7 by 7 reads a stream's header, asks baizeridge_allowed(height, distance, model, 7, 7), and decodes the stream if
 * that is 0 (examples/console.c). */
uint8_t baizeridge_allowed(uint32_t height, uint32_t distance, uint32_t model, uint32_t largest_height,
                           uint32_t largest_distance);

#ifdef __cplusplus
}
#endif

#endif
