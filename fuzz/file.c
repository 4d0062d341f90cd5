/* Fuzzes dk_read_map, and dk_write_map on what was read and on numbers and cells as they come: each answer and each lent byte against the
 * scope paper's words on map files, told here once more, a byte at a time. The input is how long the notes before it are made, how much room
 * is lent for the cells, and the file; the file's bytes are also taken for sizes and cells to be written. */
#include "fuzz.h"

/* What reading a file is to answer. */
static dk_map_answer expected(const uint8_t *file, size_t length, size_t room) {
    dk_map_answer refused = {0, 0, 0, 0, 0}, read = {0, 0, 0, 0, 0};
    const uint8_t *trailer;
    uint64_t distance;
    uint32_t k, nodes;
    refused.refusal = DK_BAD_FILE;
    if (length < 12 || length > 65536)
        return refused;
    trailer = file + length - 12;
    if (trailer[8] != 0x46 || trailer[9] != 0x4C || trailer[10] != 0x44 || trailer[11] != 0x31 || trailer[3] != 0)
        return refused;
    read.w = trailer[0], read.h = trailer[1], read.d = trailer[2];
    if (!in_range(read.w, read.h, read.d)) {
        refused.refusal = DK_BAD_SIZES;
        return refused;
    }
    nodes = read.w * read.h * read.d;
    distance = trailer[4] + 256 * (trailer[5] + 256 * (trailer[6] + (uint64_t)256 * trailer[7]));
    if (distance != nodes + 12 || distance > length)
        return refused;
    if (room < nodes) {
        refused.refusal = DK_NO_ROOM;
        return refused;
    }
    for (k = 0; k < nodes; k++)
        if (file[length - distance + k] > 1) {
            refused.refusal = DK_BAD_CELL, refused.bad = k;
            return refused;
        }
    return read;
}

/* Writing what was read gives the file without its notes; a byte less of room is refused; so is a cell that is none. */
static void write_back(dk_map_answer map, const uint8_t *cells, const uint8_t *from) {
    size_t nodes = (size_t)map.w * map.h * map.d, long_enough = nodes + 12 + next() % 3;
    uint8_t *exact = lent(cells, nodes), *out = lent(NULL, long_enough), *again = lent(NULL, nodes);
    uint32_t bad = next16() % (uint32_t)nodes;
    dk_counted short_one = dk_write_map(map.w, map.h, map.d, exact, nodes, out, nodes + 11), written;
    dk_map_answer read;
    CHECK(short_one.refusal == DK_NO_ROOM && short_one.bad == 0 && short_one.count == 0 && untouched(out, long_enough));
    written = dk_write_map(map.w, map.h, map.d, exact, nodes, out, long_enough);
    CHECK(written.refusal == 0 && written.bad == 0 && written.count == nodes + 12);
    CHECK(same(out, from, nodes + 12) && untouched(out + nodes + 12, long_enough - nodes - 12) && same(exact, cells, nodes));
    read = dk_read_map(out, nodes + 12, again, nodes);
    CHECK(read.refusal == 0 && read.w == map.w && read.h == map.h && read.d == map.d && same(again, cells, nodes));
    exact[bad] = (uint8_t)(2 + next() % 254);
    written = dk_write_map(map.w, map.h, map.d, exact, nodes, out, long_enough);
    CHECK(written.refusal == DK_BAD_CELL && written.bad == bad && written.count == 0 && same(out, from, nodes + 12));
    free(exact), free(out), free(again);
}

/* Writing cells as they come, with sizes as they come: a file that is read again, or the refusal, and then nothing has changed. */
static void write_raw(void) {
    uint32_t w = next() % 19, h = next() % 19, d = next() % 19, nodes = in_range(w, h, d) ? w * h * d : 4, k, bad = nodes;
    size_t count = next() < 240 ? nodes : next16() % 4200, room = next() < 240 ? nodes + 12 : next16() % 4200;
    uint8_t *cells = lent(NULL, count), *kept, *out = lent(NULL, room);
    uint32_t refusal = !in_range(w, h, d) ? DK_BAD_SIZES : count != nodes ? DK_BAD_LENGTH : 0;
    dk_counted written;
    for (k = 0; k < count; k++)
        cells[k] = next() % 8 < 7 ? next() % 2 : next();
    for (k = 0; k < nodes && refusal == 0 && bad == nodes; k++)
        if (cells[k] > 1)
            bad = k;
    refusal = refusal != 0 ? refusal : bad != nodes ? DK_BAD_CELL : room < nodes + 12 ? DK_NO_ROOM : 0;
    kept = lent(cells, count);
    written = dk_write_map(w, h, d, cells, count, out, room);
    CHECK(written.refusal == refusal && written.bad == (refusal == DK_BAD_CELL ? bad : 0) && same(cells, kept, count));
    if (refusal != 0) {
        CHECK(written.count == 0 && untouched(out, room));
    } else {
        dk_map_answer read = expected(out, nodes + 12, nodes);
        CHECK(written.count == nodes + 12 && read.refusal == 0 && read.w == w && read.h == h && read.d == d);
        CHECK(same(out, cells, nodes) && untouched(out + nodes + 12, room - nodes - 12));
    }
    free(cells), free(kept), free(out);
}

int LLVMFuzzerTestOneInput(const uint8_t *data, size_t size) {
    uint8_t *file, *kept, *cells;
    size_t length, notes, room;
    dk_map_answer want, got;
    input = data, left = size;
    notes = next(), room = next16() % 4200;
    notes = notes < 128 ? notes % 4 : 65536 + 192 - notes - left; /* few, or up to a file of about the greatest length */
    length = notes + left;
    file = lent(NULL, length);
    if (left > 0)
        memcpy(file + notes, input, left);
    kept = lent(file, length), cells = lent(NULL, room);
    want = expected(kept, length, room);
    got = dk_read_map(file, length, cells, room);
    CHECK(got.refusal == want.refusal && got.bad == want.bad && got.w == want.w && got.h == want.h && got.d == want.d);
    CHECK(same(file, kept, length));
    if (got.refusal != 0) {
        CHECK(untouched(cells, room));
    } else {
        size_t nodes = (size_t)got.w * got.h * got.d;
        const uint8_t *from = kept + length - nodes - 12;
        CHECK(same(cells, from, nodes) && untouched(cells + nodes, room - nodes));
        write_back(got, cells, from);
    }
    free(file), free(kept), free(cells);
    write_raw();
    return 0;
}
