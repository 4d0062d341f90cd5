/* May a transfer go, and by which way? transfer MAP START END reads a map file and prints the hops and the nodes of the route, or why it was
 * refused. Status: 0 granted, 1 refused, 2 what was asked could not be read, or the answer not be written.
 *
 *     gcc transfer.c $(pkg-config --cflags --libs dukthari) -o transfer
 */
#include <dukthari.h>
#include <stdio.h>
#include <stdlib.h>

/* the largest file, and one byte more, so that a longer one is seen */
static uint8_t file[DK_LONGEST_FILE + 1];
static uint8_t cells[DK_MOST_NODES];

static int refused(uint32_t number, uint32_t bad) {
    printf("refused %u: %s", (unsigned)number, dk_reason(number));
    if (number == DK_BAD_CELL)
        printf(", the first at node %u", (unsigned)bad);
    printf("\n");
    return 1;
}

/* A node's number; the largest of all, which no mesh has, where the word is none. */
static uint32_t node(const char *word) {
    char *end;
    unsigned long number = strtoul(word, &end, 10);
    return *word >= '0' && *word <= '9' && *end == 0 && number < UINT32_MAX ? (uint32_t)number : UINT32_MAX;
}

static int transfer(size_t length, uint32_t start, uint32_t end) {
    uint16_t nodes[DK_LONGEST_ROUTE];
    dk_counted route;
    uint32_t i;
    dk_map_answer map = dk_read_map(file, length, cells, sizeof cells);
    if (map.refusal != 0)
        return refused(map.refusal, map.bad);
    route = dk_route(map.w, map.h, map.d, start, end, cells, (size_t)map.w * map.h * map.d, nodes, DK_LONGEST_ROUTE);
    if (route.refusal != 0)
        return refused(route.refusal, route.bad);
    printf("%u hops:", (unsigned)route.count - 1);
    for (i = 0; i < route.count; i++)
        printf(" %u", (unsigned)nodes[i]);
    printf("\n");
    return 0;
}

static int cannot(const char *what, const char *name) {
    fprintf(stderr, "transfer: cannot %s %s\n", what, name);
    return 2;
}

int main(int count, char **words) {
    FILE *from;
    size_t length;
    int failed, status;
    if (count != 4) {
        fprintf(stderr, "usage: transfer MAP START END\n");
        return 2;
    }
    from = fopen(words[1], "rb");
    if (from == NULL)
        return cannot("read", words[1]);
    length = fread(file, 1, sizeof file, from);
    failed = ferror(from);
    fclose(from);
    if (failed)
        return cannot("read", words[1]);
    status = transfer(length, node(words[2]), node(words[3]));
    return fflush(stdout) == 0 && !ferror(stdout) ? status : cannot("write", "standard output");
}
