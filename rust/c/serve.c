/* Answers the calls of dukthari.h for rust/agree: reads the count of words that follow and then so many 32-bit words, requests one after
 * another, and writes the answers in the same way. A request is the number of a call, its numbers, and each of its buffers as a count of
 * bytes and the bytes, four to a word; an answer is its fields, and the bytes of each buffer that was lent to be written. Ends where its
 * input does. Each buffer stands in a room of its own between walls, and a call that changes a wall or a buffer that it only reads is found
 * out. */
#include "dukthari.h"
#include <stddef.h>

/* the two functions of the C library that it needs */
extern long read(int file, void *to, size_t count);
extern long write(int file, const void *from, size_t count);

enum { WORDS = 1 << 18, WALL = 64, BRICK = 0xA5, ROOM = 1 << 17 };
static uint32_t asked[WORDS], answer[WORDS];

static int read_all(void *to, size_t count) {
    char *at = (char *)to;
    while (count > 0) {
        long got = read(0, at, count);
        if (got <= 0)
            return 0;
        at += got;
        count -= (size_t)got;
    }
    return 1;
}

static int write_all(const void *from, size_t count) {
    const char *at = (const char *)from;
    while (count > 0) {
        long put = write(1, at, count);
        if (put <= 0)
            return 0;
        at += put;
        count -= (size_t)put;
    }
    return 1;
}

/* where the next word is read, and where the next is written */
static const uint32_t *next;
static uint32_t *made;

/* The three rooms, aligned for any element; how many bytes each has now, and whence they came. */
static uint64_t rooms[3][(WALL + ROOM + WALL) / sizeof(uint64_t)];
static size_t sizes[3];
static const uint8_t *from[3];

/* The next buffer, put into room i: NULL if it is empty. */
static void *buffer(int i) {
    uint8_t *room = (uint8_t *)rooms[i];
    size_t count = *next++, k;
    from[i] = (const uint8_t *)next;
    sizes[i] = count;
    next += (count + 3) / 4;
    for (k = 0; k < WALL; k++)
        room[k] = BRICK, room[WALL + count + k] = BRICK;
    for (k = 0; k < count; k++)
        room[WALL + k] = from[i][k];
    return count == 0 ? NULL : room + WALL;
}

/* Whether the walls of room i stand. */
static int walled(int i) {
    const uint8_t *room = (const uint8_t *)rooms[i];
    size_t k;
    for (k = 0; k < WALL; k++)
        if (room[k] != BRICK || room[WALL + sizes[i] + k] != BRICK)
            return 0;
    return 1;
}

/* Whether room i is as it was. */
static int kept(int i) {
    const uint8_t *room = (const uint8_t *)rooms[i];
    size_t k;
    for (k = 0; k < sizes[i]; k++)
        if (room[WALL + k] != from[i][k])
            return 0;
    return walled(i);
}

/* Writes the bytes of room i to the answer. */
static int give(int i) {
    const uint8_t *room = (const uint8_t *)rooms[i];
    uint8_t *to = (uint8_t *)made;
    size_t count = sizes[i], k;
    for (k = 0; k < count; k++)
        to[k] = room[WALL + k];
    for (; k % 4 != 0; k++)
        to[k] = 0;
    made += k / 4;
    return walled(i);
}

/* Answers one call; 0 where there is no such call, or it touched what it must not. */
static int serve(void) {
    uint32_t call = *next++;
    const uint32_t *a = next;
    switch (call) {
    case 0: {
        dk_node_answer n = dk_number(a[0], a[1], a[2], a[3], a[4], a[5]);
        next += 6;
        *made++ = n.refusal, *made++ = n.node;
        return 1;
    }
    case 1: {
        dk_place_answer p = dk_place(a[0], a[1], a[2], a[3]);
        next += 4;
        *made++ = p.refusal, *made++ = p.x, *made++ = p.y, *made++ = p.z;
        return 1;
    }
    case 2: {
        dk_step_answer s = dk_step(a[0], a[1], a[2], a[3], a[4], a[5], a[6]);
        next += 7;
        *made++ = s.refusal, *made++ = s.there, *made++ = s.x, *made++ = s.y, *made++ = s.z;
        return 1;
    }
    case 3: {
        const uint8_t *cells;
        uint8_t *out;
        dk_done r;
        next += 4;
        cells = (const uint8_t *)buffer(0), out = (uint8_t *)buffer(1);
        r = dk_marks(a[0], a[1], a[2], a[3], cells, sizes[0], out, sizes[1]);
        *made++ = r.refusal, *made++ = r.bad;
        return kept(0) && give(1);
    }
    case 4: {
        const uint8_t *cells;
        uint16_t *table;
        dk_component *row;
        dk_counted r;
        next += 4;
        cells = (const uint8_t *)buffer(0), table = (uint16_t *)buffer(1), row = (dk_component *)buffer(2);
        r = dk_components(a[0], a[1], a[2], a[3], cells, sizes[0], table, sizes[1] / 2, row, sizes[2] / sizeof(dk_component));
        *made++ = r.refusal, *made++ = r.bad, *made++ = r.count;
        return kept(0) && give(1) && give(2);
    }
    case 5: {
        const uint8_t *cells;
        dk_verdict_answer r;
        next += 5;
        cells = (const uint8_t *)buffer(0);
        r = dk_verdict(a[0], a[1], a[2], a[3], a[4], cells, sizes[0]);
        *made++ = r.refusal, *made++ = r.bad, *made++ = r.hops, *made++ = r.offered;
        return kept(0);
    }
    case 6: {
        const uint8_t *cells;
        uint16_t *out;
        dk_counted r;
        next += 5;
        cells = (const uint8_t *)buffer(0), out = (uint16_t *)buffer(1);
        r = dk_route(a[0], a[1], a[2], a[3], a[4], cells, sizes[0], out, sizes[1] / 2);
        *made++ = r.refusal, *made++ = r.bad, *made++ = r.count;
        return kept(0) && give(1);
    }
    case 7: {
        const uint8_t *cells;
        uint8_t *out;
        dk_counted r;
        next += 5;
        cells = (const uint8_t *)buffer(0), out = (uint8_t *)buffer(1);
        r = dk_reached(a[0], a[1], a[2], a[3], a[4], cells, sizes[0], out, sizes[1]);
        *made++ = r.refusal, *made++ = r.bad, *made++ = r.count;
        return kept(0) && give(1);
    }
    case 8: {
        const uint8_t *cells;
        uint8_t *state;
        dk_done r;
        next += 4;
        cells = (const uint8_t *)buffer(0), state = (uint8_t *)buffer(1);
        r = dk_fresh(a[0], a[1], a[2], a[3], cells, sizes[0], state, sizes[1]);
        *made++ = r.refusal, *made++ = r.bad;
        return kept(0) && give(1);
    }
    case 9: {
        const uint8_t *state;
        dk_done r;
        next += 4;
        state = (const uint8_t *)buffer(0);
        r = dk_sound(a[0], a[1], a[2], a[3], state, sizes[0]);
        *made++ = r.refusal, *made++ = r.bad;
        return kept(0);
    }
    case 10: {
        const uint8_t *state;
        dk_counted r;
        next += 4;
        state = (const uint8_t *)buffer(0);
        r = dk_outstanding(a[0], a[1], a[2], a[3], state, sizes[0]);
        *made++ = r.refusal, *made++ = r.bad, *made++ = r.count;
        return kept(0);
    }
    case 11: {
        uint8_t *state;
        dk_done r;
        next += 7;
        state = (uint8_t *)buffer(0);
        r = dk_hear(a[0], a[1], a[2], a[3], a[4], a[5], a[6], state, sizes[0]);
        *made++ = r.refusal, *made++ = r.bad;
        return give(0);
    }
    case 12: {
        const uint8_t *file = (const uint8_t *)buffer(0);
        uint8_t *cells = (uint8_t *)buffer(1);
        dk_map_answer r = dk_read_map(file, sizes[0], cells, sizes[1]);
        *made++ = r.refusal, *made++ = r.bad, *made++ = r.w, *made++ = r.h, *made++ = r.d;
        return kept(0) && give(1);
    }
    case 13: {
        const uint8_t *cells;
        uint8_t *out;
        dk_counted r;
        next += 3;
        cells = (const uint8_t *)buffer(0), out = (uint8_t *)buffer(1);
        r = dk_write_map(a[0], a[1], a[2], cells, sizes[0], out, sizes[1]);
        *made++ = r.refusal, *made++ = r.bad, *made++ = r.count;
        return kept(0) && give(1);
    }
    }
    return 0;
}

int main(void) {
    uint32_t words;
    while (read_all(&words, sizeof words)) {
        if (words > WORDS || !read_all(asked, words * sizeof *asked))
            return 1;
        next = asked, made = answer;
        while (next < asked + words)
            if (!serve())
                return 1;
        words = (uint32_t)(made - answer);
        if (!write_all(&words, sizeof words) || !write_all(answer, words * sizeof *answer))
            return 1;
    }
    return 0;
}
