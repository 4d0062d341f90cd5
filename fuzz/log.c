/* Fuzzes the program meshaudit: its proved module is linked, the C functions that it calls are given here, and the page that it prints for a map
 * file and a log must be the search program's (rust/oracle), byte for byte. The input is how the map and the log are made, how many bytes a read
 * or a write moves, then a map file as it comes, or sizes and cells; the rest is the log, at times filled up to about the greatest length. */
#include "fuzz.h"
#include <errno.h>
#include <fcntl.h>
#include <stdbool.h>
#include <sys/types.h>

enum { LOG = 3, MAP = 4 }; /* descriptors */

/* the program; and whether a page is the search program's for a map file and a log */
int audit_main(void);
bool oracle_page(const uint8_t *map, size_t map_len, const uint8_t *log, size_t log_len, const uint8_t *page, size_t page_len);

typedef struct {
    uint8_t *bytes;
    size_t length, read;
} file;

static file map, log_file;
static uint8_t *page;
static size_t printed, room;
static size_t most; /* that a read or a write moves at once */

static size_t least(size_t a, size_t b) { return a < b ? a : b; }

/* The arguments are the program's name, and the names m and l of the map and the log: -1 where there are no more, -2 where one does not fit. */
ssize_t rattle_arg(size_t i, uint8_t *out, size_t out_len) {
    if (i >= 3)
        return -1;
    if (out_len == 0)
        return -2;
    out[0] = (uint8_t) "aml"[i];
    return 1;
}

int audit_open(const char *path, int flags, ...) {
    CHECK((flags & O_ACCMODE) == O_RDONLY && (flags & O_CREAT) == 0);
    CHECK(strcmp(path, "m") == 0 || strcmp(path, "l") == 0);
    return path[0] == 'm' ? MAP : LOG;
}

/* No error but that of an argument: of one that is not there, or does not fit. */
static int error;

int rattle_errno(void) { return error; }

void rattle_set_errno(int e) {
    CHECK(e == 0 || e == EINVAL || e == ENAMETOOLONG);
    error = e;
}

int audit_close(int from) {
    CHECK(from == MAP || from == LOG);
    return 0;
}

ssize_t audit_read(int from, uint8_t *out, size_t out_len) {
    file *f = from == MAP ? &map : &log_file;
    size_t count = least(least(out_len, most), f->length - f->read);
    CHECK(from == MAP || from == LOG);
    if (count > 0)
        memcpy(out, f->bytes + f->read, count);
    f->read += count;
    return (ssize_t)count;
}

ssize_t audit_write(int to, const uint8_t *text, size_t text_len) {
    size_t count = least(text_len, most);
    CHECK(to == 1);
    if (printed + count > room) {
        room = 2 * (printed + count);
        page = (uint8_t *)realloc(page, room);
        CHECK(page != NULL);
    }
    memcpy(page + printed, text, count);
    printed += count;
    return (ssize_t)count;
}

static file file_of(const uint8_t *from, size_t length) {
    file f = {lent(from, length), length, 0};
    return f;
}

/* A map file as it comes. */
static file raw_map(void) {
    size_t length = least(next16() % 4200, left);
    file f = file_of(input, length);
    input += length, left -= length;
    return f;
}

/* A map file of a small mesh; a bit of the input is a cell. */
static file made_map(void) {
    uint8_t w = 2 + next() % 6, h = 2 + next() % 6, d = 1 + next() % 4, bits = 0;
    size_t nodes = (size_t)w * h * d, k;
    uint8_t trailer[12] = {w, h, d, 0, (uint8_t)(nodes + 12), 0, 0, 0, 0x46, 0x4C, 0x44, 0x31};
    file f = file_of(NULL, nodes + 12);
    for (k = 0; k < nodes; k++) {
        bits = k % 8 == 0 ? next() : bits >> 1;
        f.bytes[k] = bits & 1;
    }
    memcpy(f.bytes + nodes, trailer, 12);
    return f;
}

/* What is left, with more after it where the length is given. */
static file made_log(size_t length, uint8_t more) {
    file f = file_of(NULL, length == 0 ? left : length);
    size_t told = least(left, f.length);
    if (f.length > 0)
        memset(f.bytes, more, f.length);
    if (told > 0)
        memcpy(f.bytes, input, told);
    return f;
}

int LLVMFuzzerTestOneInput(const uint8_t *data, size_t size) {
    static const char names[] = "log l\nmap m\n";
    size_t above = sizeof names - 1;
    uint8_t how, pieces;
    input = data, left = size;
    how = next(), pieces = next();
    most = pieces < 128 ? 100000 : (size_t)pieces - 87;
    map = how % 4 == 0 ? raw_map() : made_map();
    log_file = how < 224 ? made_log(0, 0) : made_log(65535 + how / 4 % 3, how < 240 ? ' ' : '\n');
    printed = 0;
    CHECK(audit_main() == 0);
    CHECK(printed >= above && memcmp(page, names, above) == 0);
    CHECK(oracle_page(map.bytes, map.length, log_file.bytes, log_file.length, page + above, printed - above));
    free(map.bytes), free(log_file.bytes);
    return 0;
}
