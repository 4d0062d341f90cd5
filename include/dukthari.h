/* Dukthari: a proved library for storage shelves wired as a mesh. Link libdukthari.a, which `make` makes.
 *
 * Sizes: width w and height h are 2 to 16, depth d is 1 to 16. The mesh has N = w * h * d nodes, at most 4096.
 * Node (x, y, z) has number x + w * (y + h * z).
 * Directions: 0 is +X, 1 -X, 2 +Y, 3 -Y, 4 +Z, 5 -Z.
 *
 * A cell is 0 (the node works) or 1 (it is faulty). Orientation 0 to 7: bit 0 set means that X runs down, bit 1 Y, bit 2 Z.
 *
 * Every call takes every number and every length: none is undefined on any. A pointer leads to as many elements as the length after it
 * says, and may be NULL where that is 0; what is lent to be written overlaps nothing else that is lent. In each answer `refusal` is 0 when
 * the call is granted, else the number of the first cause, in the order that stands at the call, and then every other field is 0, except
 * that refusal 4 gives the node number of the first bad cell in `bad`. A refused call changes no lent byte.
 * Nothing is kept between calls: they may be made from several threads at once. */
#ifndef DUKTHARI_H
#define DUKTHARI_H

#include <stddef.h>
#include <stdint.h>

#ifdef __cplusplus
extern "C" {
#endif

#define DK_BAD_SIZES 1u  /* w, h or d outside its range */
#define DK_BAD_LENGTH 2u /* cells not exactly N bytes, or a state not exactly 7 * N */
#define DK_NO_ROOM 3u    /* an output lent is shorter than what is to be written */
#define DK_BAD_CELL 4u   /* a cell above 1 */
#define DK_BAD_NUMBER 5u /* orientation above 7, node N or above, place outside the mesh, direction above 5, or a word not 0, 2, 4, 6 */
#define DK_UNSOUND 6u    /* the state is not sound for this orientation */
#define DK_NO_PAIR 7u    /* the listener is faulty, or the neighbour is absent or faulty */
#define DK_NOT_HELD 8u   /* the word holds a mark that the speaker lacks now */
#define DK_FAULTY_END 9u /* start or end of a route is faulty */
#define DK_NO_PATH 10u   /* no path */
#define DK_BAD_FILE 11u  /* file: length, mark, zero byte or distance wrong */

#define DK_MOST_NODES       4096u /* of a mesh */
#define DK_MOST_COMPONENTS  1024u /* of a mesh, in one orientation */
#define DK_LONGEST_ROUTE      46u /* nodes of a route: 45 hops, and the start */
#define DK_LONGEST_FILE    65536u /* bytes of a map file */

/* A refusal in words: those of the wrapper for Rust (rust/dukthari/src/refusal.rs), whose tests hold these to them; the audit has shorter ones of
 * its own. This is no call of the library. */
static inline const char *dk_reason(uint32_t refusal) {
    switch (refusal) {
    case 0u:
        return "granted";
    case DK_BAD_SIZES:
        return "width and height must be 2 to 16, depth 1 to 16";
    case DK_BAD_LENGTH:
        return "the cells must be exactly one byte for each node, a state exactly seven";
    case DK_NO_ROOM:
        return "an output that was lent is shorter than what is to be written";
    case DK_BAD_CELL:
        return "a cell is neither 0 (works) nor 1 (faulty)";
    case DK_BAD_NUMBER:
        return "an orientation above 7, a node or place outside the mesh, a direction above 5, or a word that is not 0, 2, 4 or 6";
    case DK_UNSOUND:
        return "the state is not sound for this orientation";
    case DK_NO_PAIR:
        return "the listener is faulty, or its neighbour in that direction is absent or faulty";
    case DK_NOT_HELD:
        return "the word holds a mark that the speaker lacks now";
    case DK_FAULTY_END:
        return "the start or the end of the route is faulty";
    case DK_NO_PATH:
        return "no path: every way of the least length from start to end meets a faulty node";
    case DK_BAD_FILE:
        return "no map file: its length, mark, zero byte or distance is wrong";
    default:
        return "no refusal of this library";
    }
}

typedef struct { uint32_t refusal, bad; } dk_done;
typedef struct { uint32_t refusal, bad, count; } dk_counted; /* a number, or a length written */
typedef struct { uint32_t refusal, bad, hops, offered; } dk_verdict_answer;
typedef struct { uint32_t refusal, bad, w, h, d; } dk_map_answer;
typedef struct { uint32_t refusal, node; } dk_node_answer;
typedef struct { uint32_t refusal, x, y, z; } dk_place_answer;
typedef struct { uint32_t refusal, there, x, y, z; } dk_step_answer; /* there 0: the mesh ends, and x, y, z are 0 */
typedef struct { uint16_t count; uint8_t x0, y0, z0, x1, y1, z1; } dk_component; /* nodes; least and greatest coordinates */

/* The number of the node at (x, y, z).
 * Refusals, in order: 1 sizes; 5 a place outside the mesh. */
dk_node_answer dk_number(uint32_t w, uint32_t h, uint32_t d, uint32_t x, uint32_t y, uint32_t z);

/* The place of a node: the way back.
 * Refusals, in order: 1 sizes; 5 a node N or above. */
dk_place_answer dk_place(uint32_t w, uint32_t h, uint32_t d, uint32_t node);

/* One step from (x, y, z) in a direction: there is 1 and (x, y, z) the next place, or there is 0 where the mesh ends. That is no refusal.
 * Refusals, in order: 1 sizes; 5 a place outside the mesh, or a direction above 5. */
dk_step_answer dk_step(uint32_t w, uint32_t h, uint32_t d, uint32_t x, uint32_t y, uint32_t z, uint32_t direction);

/* The mark byte of each node, in node order: 0 none, 1 faulty, 2 useless, 4 can't-reach, 6 both. A working node is useless if on every axis
 * of size 2 or more its neighbour ahead, the way the axis runs, exists and is faulty or useless; it is can't-reach if on every such axis
 * its neighbour behind exists and is faulty or can't-reach. N bytes are written to out; later bytes stay.
 * Refusals, in order: 1 sizes; 2 cells; 4 a bad cell; 5 the orientation; 3 out shorter than N. */
dk_done dk_marks(uint32_t w, uint32_t h, uint32_t d, uint32_t orientation, const uint8_t *cells, size_t cells_len,
                 uint8_t *out, size_t out_len);

/* The components of the unsafe nodes, those whose mark byte is not 0: two are in one if a chain of touching ones joins them, and two touch
 * if their coordinates differ by 1 on one or two axes and by 0 on the others. They are numbered from 1 by their lowest node. N numbers are
 * written to table, 0 for a safe node, and one record for each component to row, in that order; later places stay. count: how many
 * components there are, at most 1024.
 * Refusals, in order: 1 sizes; 2 cells; 4 a bad cell; 5 the orientation; 3 table shorter than N, or row than count: neither has changed. */
dk_counted dk_components(uint32_t w, uint32_t h, uint32_t d, uint32_t orientation, const uint8_t *cells, size_t cells_len,
                         uint16_t *table, size_t table_len, dk_component *row, size_t row_len);

/* May a transfer go from start to end by a path of Manhattan length through working nodes? Its hops, and the directions offered at the
 * start: bit k is set when such a path begins in direction k. At the end itself both are 0.
 * Refusals, in order: 1 sizes; 2 cells; 4 a bad cell; 5 a node N or above; 9 an end is faulty; 10 no path. */
dk_verdict_answer dk_verdict(uint32_t w, uint32_t h, uint32_t d, uint32_t start, uint32_t end, const uint8_t *cells, size_t cells_len);

/* The route: the path that takes the lowest-numbered offered direction at each node. Its node numbers go to the front of out; count is how
 * many, hops + 1, at most 46. Later places stay.
 * Refusals, in order: 1 sizes; 2 cells; 4 a bad cell; 5 a node N or above; 9 an end is faulty; 10 no path; 3 out too short. */
dk_counted dk_route(uint32_t w, uint32_t h, uint32_t d, uint32_t start, uint32_t end, const uint8_t *cells, size_t cells_len,
                    uint16_t *out, size_t out_len);

/* What is reached: for each node, in node order, 1 where preferred steps through working nodes lead from start to it on the way to end, else
 * 0. N bytes are written to out; later bytes stay. count: how many are 1. The byte of start is 1; the byte of end is 1 exactly if dk_verdict
 * grants; and a preferred step from a node with 1 leads to a node with 1 or to a faulty one. So where the byte of end is 0, the bytes
 * themselves show that no path exists.
 * Refusals, in order: 1 sizes; 2 cells; 4 a bad cell; 5 a node N or above; 9 an end is faulty; 3 out shorter than N. */
dk_counted dk_reached(uint32_t w, uint32_t h, uint32_t d, uint32_t start, uint32_t end, const uint8_t *cells, size_t cells_len,
                      uint8_t *out, size_t out_len);

/* A fresh state of the talking nodes for a map: 7 bytes for each node, its own mark byte, then what it has heard from directions 0 to 5.
 * Refusals, in order: 1 sizes; 2 cells, or a state not exactly 7 * N bytes; 4 a bad cell; 5 the orientation. */
dk_done dk_fresh(uint32_t w, uint32_t h, uint32_t d, uint32_t orientation, const uint8_t *cells, size_t cells_len,
                 uint8_t *state, size_t state_len);

/* Is this a sound state of the talking nodes? Each byte heard is 8 where no neighbour exists, 1 where it is faulty, else a word, 0, 2, 4 or 6,
 * with no mark that the neighbour's own byte lacks; own bytes follow from those heard by the mark rule; a faulty node has 1 and six zeros.
 * Refusals, in order: 1 sizes; 2 the state's length; 5 the orientation; 6 unsound. */
dk_done dk_sound(uint32_t w, uint32_t h, uint32_t d, uint32_t orientation, const uint8_t *state, size_t state_len);

/* How many words are outstanding: ordered pairs of working neighbours whose speaker's own byte is not the word heard. 0: settled.
 * Refusals, in order: 1 sizes; 2 the state's length; 5 the orientation; 6 unsound. */
dk_counted dk_outstanding(uint32_t w, uint32_t h, uint32_t d, uint32_t orientation, const uint8_t *state, size_t state_len);

/* The listener hears a word from its neighbour in a direction: its marks are added to the byte heard, then the listener's own byte is set
 * by the rule. A late or repeated word takes nothing away.
 * Refusals, in order: 1 sizes; 2 the state's length; 5 orientation, listener, direction or word; 6 unsound; 7 no such pair; 8 not held. */
dk_done dk_hear(uint32_t w, uint32_t h, uint32_t d, uint32_t orientation, uint32_t listener, uint32_t direction, uint32_t word,
                uint8_t *state, size_t state_len);

/* Reads a map file of 12 to 65,536 bytes: its sizes, and its N cells to the front of cells; later bytes stay.
 * Refusals, in order: 11 length, mark or zero byte; 1 sizes; 11 distance; 3 cells shorter than N; 4 a bad cell. */
dk_map_answer dk_read_map(const uint8_t *file, size_t file_len, uint8_t *cells, size_t cells_len);

/* Writes a map file without notes to the front of out; count is its length, N + 12. Later bytes stay.
 * Refusals, in order: 1 sizes; 2 cells; 4 a bad cell; 3 out shorter than N + 12. */
dk_counted dk_write_map(uint32_t w, uint32_t h, uint32_t d, const uint8_t *cells, size_t cells_len, uint8_t *out, size_t out_len);

#ifdef __cplusplus
}
#endif

#endif
