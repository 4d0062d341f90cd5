/* The header as a C and a C++ program sees it: sizes and fields of the answers, the words of the refusals, and each call, on a mesh whose
 * sizes differ and on the scope paper's samples. Prints how many checks held; ends with status 1 at the first that does not. */
#include "dukthari.h"
#include <stddef.h>
#include <stdio.h>
#include <stdlib.h>
#include <string.h>

static int held = 0;

#define CHECK(fact) ((fact) ? (void)++held : (printf("FAILED: %s:%d: %s\n", __FILE__, __LINE__, #fact), exit(1)))
#define FIELD(type, field, at, size) CHECK(offsetof(type, field) == (at) && sizeof(((type *)0)->field) == (size))

static void layout(void) {
    CHECK(sizeof(dk_node_answer) == 8);
    FIELD(dk_node_answer, refusal, 0, 4);
    FIELD(dk_node_answer, node, 4, 4);
    CHECK(sizeof(dk_place_answer) == 16);
    FIELD(dk_place_answer, refusal, 0, 4);
    FIELD(dk_place_answer, x, 4, 4);
    FIELD(dk_place_answer, y, 8, 4);
    FIELD(dk_place_answer, z, 12, 4);
    CHECK(sizeof(dk_step_answer) == 20);
    FIELD(dk_step_answer, refusal, 0, 4);
    FIELD(dk_step_answer, there, 4, 4);
    FIELD(dk_step_answer, x, 8, 4);
    FIELD(dk_step_answer, y, 12, 4);
    FIELD(dk_step_answer, z, 16, 4);
    CHECK(sizeof(dk_done) == 8);
    FIELD(dk_done, refusal, 0, 4);
    FIELD(dk_done, bad, 4, 4);
    CHECK(sizeof(dk_counted) == 12);
    FIELD(dk_counted, refusal, 0, 4);
    FIELD(dk_counted, bad, 4, 4);
    FIELD(dk_counted, count, 8, 4);
    CHECK(sizeof(dk_verdict_answer) == 16);
    FIELD(dk_verdict_answer, refusal, 0, 4);
    FIELD(dk_verdict_answer, bad, 4, 4);
    FIELD(dk_verdict_answer, hops, 8, 4);
    FIELD(dk_verdict_answer, offered, 12, 4);
    CHECK(sizeof(dk_map_answer) == 20);
    FIELD(dk_map_answer, refusal, 0, 4);
    FIELD(dk_map_answer, bad, 4, 4);
    FIELD(dk_map_answer, w, 8, 4);
    FIELD(dk_map_answer, h, 12, 4);
    FIELD(dk_map_answer, d, 16, 4);
    CHECK(sizeof(dk_component) == 8);
    FIELD(dk_component, count, 0, 2);
    FIELD(dk_component, x0, 2, 1);
    FIELD(dk_component, y0, 3, 1);
    FIELD(dk_component, z0, 4, 1);
    FIELD(dk_component, x1, 5, 1);
    FIELD(dk_component, y1, 6, 1);
    FIELD(dk_component, z1, 7, 1);
}

static int is_place(dk_place_answer a, uint32_t refusal, uint32_t x, uint32_t y, uint32_t z) {
    return a.refusal == refusal && a.x == x && a.y == y && a.z == z;
}

static int is_step(dk_step_answer a, uint32_t refusal, uint32_t there, uint32_t x, uint32_t y, uint32_t z) {
    return a.refusal == refusal && a.there == there && a.x == x && a.y == y && a.z == z;
}

/* 3 x 4 x 5: node 31 is (1, 2, 2), since 1 + 3 * (2 + 4 * 2) = 31. */
static void places(void) {
    dk_node_answer a = dk_number(3, 4, 5, 1, 2, 2);
    CHECK(a.refusal == 0 && a.node == 31);
    CHECK(is_place(dk_place(3, 4, 5, 31), 0, 1, 2, 2));
    CHECK(is_step(dk_step(3, 4, 5, 1, 2, 2, 0), 0, 1, 2, 2, 2));
    CHECK(is_step(dk_step(3, 4, 5, 1, 2, 2, 1), 0, 1, 0, 2, 2));
    CHECK(is_step(dk_step(3, 4, 5, 1, 2, 2, 2), 0, 1, 1, 3, 2));
    CHECK(is_step(dk_step(3, 4, 5, 1, 2, 2, 3), 0, 1, 1, 1, 2));
    CHECK(is_step(dk_step(3, 4, 5, 1, 2, 2, 4), 0, 1, 1, 2, 3));
    CHECK(is_step(dk_step(3, 4, 5, 1, 2, 2, 5), 0, 1, 1, 2, 1));
    CHECK(is_step(dk_step(3, 4, 5, 2, 3, 4, 4), 0, 0, 0, 0, 0));
    a = dk_number(3, 4, 5, 1, 4, 2);
    CHECK(a.refusal == DK_BAD_NUMBER && a.node == 0);
    a = dk_number(3, 4, 17, 9, 9, 9);
    CHECK(a.refusal == DK_BAD_SIZES && a.node == 0);
    CHECK(is_place(dk_place(3, 4, 5, 60), DK_BAD_NUMBER, 0, 0, 0));
    CHECK(is_place(dk_place(1, 4, 5, 60), DK_BAD_SIZES, 0, 0, 0));
    CHECK(is_step(dk_step(3, 4, 5, 1, 2, 2, 6), DK_BAD_NUMBER, 0, 0, 0, 0));
    CHECK(is_step(dk_step(3, 1, 5, 1, 2, 2, 6), DK_BAD_SIZES, 0, 0, 0, 0));
}

/* map P: 5 x 5 x 1 with (2,1) and (1,2) faulty, which are nodes 7 and 11 */
static const uint8_t P[25] = {0, 0, 0, 0, 0, 0, 0, 1, 0, 0, 0, 1};

static int is_done(dk_done a, uint32_t refusal, uint32_t bad) {
    return a.refusal == refusal && a.bad == bad;
}

static int is_counted(dk_counted a, uint32_t refusal, uint32_t bad, uint32_t count) {
    return a.refusal == refusal && a.bad == bad && a.count == count;
}

static int is_verdict(dk_verdict_answer a, uint32_t refusal, uint32_t bad, uint32_t hops, uint32_t offered) {
    return a.refusal == refusal && a.bad == bad && a.hops == hops && a.offered == offered;
}

/* samples 1, 2 and 10 */
static void marks(void) {
    static const uint8_t cross[9] = {0, 1, 0, 1, 0, 1, 0, 1, 0}, crossed[9] = {2, 1, 0, 1, 6, 1, 0, 1, 4};
    static const uint8_t bad[4] = {0, 1, 2, 3};
    uint8_t out[26] = {0}, want[26] = {0};
    out[25] = 77, want[25] = 77, want[6] = 2, want[7] = 1, want[11] = 1, want[12] = 4;
    CHECK(is_done(dk_marks(5, 5, 1, 0, P, 25, out, 26), 0, 0) && memcmp(out, want, 26) == 0);
    CHECK(is_done(dk_marks(5, 5, 1, 1, P, 25, out, 26), 0, 0) && memcmp(out, P, 25) == 0);
    CHECK(is_done(dk_marks(3, 3, 1, 0, cross, 9, out, 9), 0, 0) && memcmp(out, crossed, 9) == 0);
    CHECK(is_done(dk_marks(2, 2, 1, 9, bad, 4, out, 0), DK_BAD_CELL, 2));
    CHECK(is_done(dk_marks(5, 5, 1, 8, P, 25, out, 0), DK_BAD_NUMBER, 0));
    CHECK(is_done(dk_marks(5, 5, 1, 7, P, 25, out, 24), DK_NO_ROOM, 0));
    CHECK(is_done(dk_marks(5, 5, 1, 8, NULL, 0, NULL, 0), DK_BAD_LENGTH, 0));
    {
        uint16_t table[26] = {0};
        dk_component row[2];
        memset(row, 77, sizeof row);
        CHECK(is_counted(dk_components(5, 5, 1, 0, P, 25, table, 26, row, 2), 0, 0, 1));
        CHECK(table[6] == 1 && table[7] == 1 && table[11] == 1 && table[12] == 1 && table[8] == 0 && table[25] == 0);
        CHECK(row[0].count == 4 && row[0].x0 == 1 && row[0].y0 == 1 && row[0].z0 == 0);
        CHECK(row[0].x1 == 2 && row[0].y1 == 2 && row[0].z1 == 0 && row[1].x0 == 77);
        CHECK(is_counted(dk_components(5, 5, 1, 1, P, 25, table, 25, row, 1), 0, 0, 1) && row[0].count == 2 && table[6] == 0);
        CHECK(is_counted(dk_components(5, 5, 1, 1, P, 25, table, 25, NULL, 0), DK_NO_ROOM, 0, 0));
        CHECK(is_counted(dk_components(5, 5, 1, 1, P, 25, table, 24, row, 1), DK_NO_ROOM, 0, 0));
    }
}

/* samples 3 to 9 */
static void routes(void) {
    CHECK(is_verdict(dk_verdict(5, 5, 1, 0, 24, P, 25), 0, 0, 8, 5));
    CHECK(is_verdict(dk_verdict(5, 5, 1, 1, 24, P, 25), 0, 0, 7, 1));
    CHECK(is_verdict(dk_verdict(5, 5, 1, 6, 24, P, 25), DK_NO_PATH, 0, 0, 0));
    CHECK(is_verdict(dk_verdict(5, 5, 1, 6, 6, P, 25), 0, 0, 0, 0));
    CHECK(is_verdict(dk_verdict(5, 5, 1, 5, 6, P, 25), 0, 0, 1, 1));
    CHECK(is_verdict(dk_verdict(5, 5, 1, 0, 12, P, 25), DK_NO_PATH, 0, 0, 0));
    CHECK(is_verdict(dk_verdict(5, 5, 1, 12, 24, P, 25), 0, 0, 4, 5));
    CHECK(is_verdict(dk_verdict(5, 5, 1, 2, 17, P, 25), DK_NO_PATH, 0, 0, 0));
    CHECK(is_verdict(dk_verdict(5, 5, 1, 24, 0, P, 25), 0, 0, 8, 10));
    CHECK(is_verdict(dk_verdict(5, 5, 1, 7, 24, P, 25), DK_FAULTY_END, 0, 0, 0));
    CHECK(is_verdict(dk_verdict(5, 5, 1, 25, 7, P, 25), DK_BAD_NUMBER, 0, 0, 0));
    {
        static const uint16_t there[9] = {0, 1, 2, 3, 4, 9, 14, 19, 24}, back[9] = {24, 23, 22, 21, 20, 15, 10, 5, 0};
        uint16_t out[10] = {0};
        out[9] = 777;
        CHECK(is_counted(dk_route(5, 5, 1, 0, 24, P, 25, out, 10), 0, 0, 9) && memcmp(out, there, sizeof there) == 0 && out[9] == 777);
        CHECK(is_counted(dk_route(5, 5, 1, 24, 0, P, 25, out, 9), 0, 0, 9) && memcmp(out, back, sizeof back) == 0);
        CHECK(is_counted(dk_route(5, 5, 1, 24, 0, P, 25, out, 8), DK_NO_ROOM, 0, 0));
        CHECK(is_counted(dk_route(5, 5, 1, 6, 6, P, 25, out, 1), 0, 0, 1) && out[0] == 6);
        CHECK(is_counted(dk_route(5, 5, 1, 6, 24, P, 25, NULL, 0), DK_NO_PATH, 0, 0));
    }
    {
        uint8_t out[26];
        memset(out, 77, sizeof out);
        CHECK(is_counted(dk_reached(5, 5, 1, 6, 24, P, 25, out, 26), 0, 0, 1));
        CHECK(out[6] == 1 && out[24] == 0 && out[0] == 0 && out[25] == 77);
        CHECK(is_counted(dk_reached(5, 5, 1, 0, 24, P, 25, out, 25), 0, 0, 22) && out[24] == 1 && out[12] == 0);
        CHECK(is_counted(dk_reached(5, 5, 1, 0, 24, P, 25, out, 24), DK_NO_ROOM, 0, 0));
    }
}

/* sample 11: 4 x 4 x 1 with (2,1), (1,2), (0,2) faulty */
static void field(void) {
    static const uint8_t corner[16] = {0, 0, 0, 0, 0, 0, 1, 0, 1, 1};
    uint8_t state[112];
    CHECK(is_done(dk_fresh(4, 4, 1, 0, corner, 16, state, 112), 0, 0));
    CHECK(is_done(dk_sound(4, 4, 1, 0, state, 112), 0, 0));
    CHECK(is_done(dk_sound(4, 4, 1, 3, state, 112), DK_UNSOUND, 0));
    CHECK(is_counted(dk_outstanding(4, 4, 1, 0, state, 112), 0, 0, 4));
    CHECK(is_done(dk_hear(4, 4, 1, 0, 4, 0, 4, state, 112), DK_NOT_HELD, 0));
    CHECK(is_done(dk_hear(4, 4, 1, 0, 4, 4, 2, state, 112), DK_NO_PAIR, 0));
    CHECK(is_done(dk_hear(4, 4, 1, 0, 4, 0, 2, state, 112), 0, 0) && state[7 * 4] == 2);
    CHECK(is_counted(dk_outstanding(4, 4, 1, 0, state, 112), 0, 0, 5));
    CHECK(is_done(dk_hear(4, 4, 1, 0, 0, 2, 2, state, 112), 0, 0));
    CHECK(is_done(dk_hear(4, 4, 1, 0, 1, 2, 2, state, 112), 0, 0));
    CHECK(is_done(dk_hear(4, 4, 1, 0, 5, 1, 2, state, 112), 0, 0));
    CHECK(is_done(dk_hear(4, 4, 1, 0, 11, 1, 4, state, 112), 0, 0));
    CHECK(is_done(dk_hear(4, 4, 1, 0, 14, 3, 4, state, 112), 0, 0));
    CHECK(is_counted(dk_outstanding(4, 4, 1, 0, state, 112), 0, 0, 0));
    CHECK(is_done(dk_fresh(4, 4, 1, 0, corner, 16, state, 111), DK_BAD_LENGTH, 0));
}

/* P's file of 37 bytes */
static void files(void) {
    static const uint8_t trailer[12] = {5, 5, 1, 0, 37, 0, 0, 0, 0x46, 0x4C, 0x44, 0x31};
    uint8_t file[38], cells[26];
    dk_map_answer a;
    file[37] = 77, cells[25] = 77;
    CHECK(is_counted(dk_write_map(5, 5, 1, P, 25, file, 38), 0, 0, 37));
    CHECK(memcmp(file, P, 25) == 0 && memcmp(file + 25, trailer, 12) == 0 && file[37] == 77);
    a = dk_read_map(file, 37, cells, 26);
    CHECK(a.refusal == 0 && a.bad == 0 && a.w == 5 && a.h == 5 && a.d == 1 && memcmp(cells, P, 25) == 0 && cells[25] == 77);
    a = dk_read_map(file, 38, cells, 26);
    CHECK(a.refusal == DK_BAD_FILE && a.bad == 0 && a.w == 0 && a.h == 0 && a.d == 0);
    file[20] = 2;
    a = dk_read_map(file, 37, cells, 25);
    CHECK(a.refusal == DK_BAD_CELL && a.bad == 20 && a.w == 0);
    a = dk_read_map(file, 37, cells, 24);
    CHECK(a.refusal == DK_NO_ROOM && a.bad == 0 && memcmp(cells, P, 25) == 0);
}

/* 3 x 2 x 1, each call but those on places */
static void flat(void) {
    /* (1,0) and (0,1) faulty: (0,0) is useless, (1,1) can't-reach */
    static const uint8_t cells[6] = {0, 1, 0, 1, 0, 0}, marks[6] = {2, 1, 0, 1, 4, 0};
    static const uint16_t numbers[6] = {1, 1, 0, 1, 1, 0};
    /* (1,0) faulty: from (0,1) to (2,0) the one way is 3 4 5 2 */
    static const uint8_t one[6] = {0, 1, 0, 0, 0, 0}, reached[6] = {1, 0, 1, 1, 1, 1};
    static const uint16_t way[4] = {3, 4, 5, 2};
    static const uint8_t trailer[12] = {3, 2, 1, 0, 18, 0, 0, 0, 0x46, 0x4C, 0x44, 0x31};
    uint8_t out[7], state[42], file[19];
    uint16_t table[8], nodes[5];
    dk_component row[3];
    dk_map_answer map;
    CHECK(is_done(dk_marks(3, 2, 1, 0, cells, 6, out, 7), 0, 0) && memcmp(out, marks, 6) == 0);
    CHECK(is_counted(dk_components(3, 2, 1, 0, cells, 6, table, 8, row, 3), 0, 0, 1) && memcmp(table, numbers, sizeof numbers) == 0);
    CHECK(row[0].count == 4 && row[0].x0 == 0 && row[0].y0 == 0 && row[0].z0 == 0 && row[0].x1 == 1 && row[0].y1 == 1 && row[0].z1 == 0);
    CHECK(is_verdict(dk_verdict(3, 2, 1, 3, 2, one, 6), 0, 0, 3, 1));
    CHECK(is_verdict(dk_verdict(3, 2, 1, 2, 3, one, 6), 0, 0, 3, 4));
    CHECK(is_counted(dk_route(3, 2, 1, 3, 2, one, 6, nodes, 5), 0, 0, 4) && memcmp(nodes, way, sizeof way) == 0);
    CHECK(is_counted(dk_reached(3, 2, 1, 3, 2, one, 6, out, 7), 0, 0, 5) && memcmp(out, reached, 6) == 0);
    CHECK(is_done(dk_fresh(3, 2, 1, 0, cells, 6, state, 42), 0, 0) && state[7 * 0] == 2 && state[7 * 4] == 4);
    CHECK(is_done(dk_sound(3, 2, 1, 0, state, 42), 0, 0));
    CHECK(is_counted(dk_outstanding(3, 2, 1, 0, state, 42), 0, 0, 1));
    CHECK(is_done(dk_hear(3, 2, 1, 0, 5, 1, 4, state, 42), 0, 0) && state[7 * 5 + 2] == 4);
    CHECK(is_counted(dk_outstanding(3, 2, 1, 0, state, 42), 0, 0, 0));
    CHECK(is_counted(dk_write_map(3, 2, 1, cells, 6, file, 19), 0, 0, 18));
    CHECK(memcmp(file, cells, 6) == 0 && memcmp(file + 6, trailer, 12) == 0);
    map = dk_read_map(file, 18, out, 7);
    CHECK(map.refusal == 0 && map.w == 3 && map.h == 2 && map.d == 1 && memcmp(out, cells, 6) == 0);
}

static void names(void) {
    uint32_t i, j;
    CHECK(DK_MOST_NODES == 16 * 16 * 16 && DK_LONGEST_ROUTE == 3 * 15 + 1 && DK_LONGEST_FILE == 65536u && DK_MOST_COMPONENTS == 1024u);
    CHECK(strcmp(dk_reason(0), "granted") == 0 && strncmp(dk_reason(DK_NO_PATH), "no path", 7) == 0);
    CHECK(strcmp(dk_reason(12), dk_reason(UINT32_MAX)) == 0);
    for (i = 0; i <= 12; i++)
        for (j = 0; j < i; j++)
            CHECK(strcmp(dk_reason(i), dk_reason(j)) != 0);
}

int main(void) {
    layout();
    names();
    flat();
    places();
    marks();
    routes();
    field();
    files();
#ifdef __cplusplus
    printf("from C++: dukthari.h: %d checks held\n", held);
#else
    printf("from C: dukthari.h: %d checks held\n", held);
#endif
    return 0;
}
