/* Fuzzes the calls on a state of the talking nodes, dk_hear, dk_sound, dk_outstanding and dk_fresh: each answer and each lent byte against the
 * scope paper's words, told here once more, a node at a time. The input is the sizes, the orientation and either the bytes of a state, as they
 * come, or cells, from which a fresh state is made; then what is to be heard, and which bytes of the state are to be spoilt on the way. */
#include "fuzz.h"

static uint32_t w, h, d, orientation;
static uint32_t nodes; /* 0 where the sizes are out of range */
static uint8_t *state; /* what is lent */
static size_t length;

/* The number of node k's neighbour in direction j, or -1 where the mesh ends. */
static int32_t beside(uint32_t k, uint32_t j) {
    uint32_t at[3] = {k % w, k / w % h, k / w / h}, sizes[3] = {w, h, d}, axis = j / 2;
    if (at[axis] == (j % 2 == 0 ? sizes[axis] - 1 : 0))
        return -1;
    at[axis] += j % 2 == 0 ? 1u : -1u;
    return (int32_t)(at[0] + w * (at[1] + h * at[2]));
}

static int is_word(uint32_t byte) { return byte == 0 || byte == 2 || byte == 4 || byte == 6; }

static int faulty(uint32_t k) { return state[7 * k] == 1; }

/* The own byte that the mark rule gives a working node from the bytes it has heard. */
static uint8_t by_rule(uint32_t k) {
    const uint8_t *heard = state + 7 * k + 1;
    int useless = 1, cannot_reach = 1;
    uint32_t axis;
    for (axis = 0; axis < (d >= 2 ? 3u : 2u); axis++) {
        uint32_t ahead = 2 * axis + (orientation >> axis & 1), behind = ahead ^ 1;
        if (heard[ahead] != 1 && (heard[ahead] == 8 || (heard[ahead] & 2) == 0))
            useless = 0;
        if (heard[behind] != 1 && (heard[behind] == 8 || (heard[behind] & 4) == 0))
            cannot_reach = 0;
    }
    return (uint8_t)(2 * useless + 4 * cannot_reach);
}

static int sound_node(uint32_t k) {
    const uint8_t *heard = state + 7 * k + 1;
    uint32_t j;
    for (j = 0; j < 6; j++) {
        int32_t neighbour = beside(k, j);
        if (faulty(k) ? heard[j] != 0 : neighbour < 0 ? heard[j] != 8 : faulty((uint32_t)neighbour) ? heard[j] != 1 : !is_word(heard[j]))
            return 0;
        if (!faulty(k) && neighbour >= 0 && !faulty((uint32_t)neighbour) && (heard[j] & ~state[7 * neighbour]) != 0)
            return 0;
    }
    return faulty(k) || state[7 * k] == by_rule(k);
}

static int sound(void) {
    uint32_t k;
    for (k = 0; k < nodes; k++)
        if (!sound_node(k))
            return 0;
    return 1;
}

/* What is refused of every call on a state. */
static uint32_t refusal(void) {
    return nodes == 0 ? DK_BAD_SIZES : length != 7 * nodes ? DK_BAD_LENGTH : orientation > 7 ? DK_BAD_NUMBER : sound() ? 0 : DK_UNSOUND;
}

static uint32_t pairs_with_news(void) {
    uint32_t k, j, count = 0;
    for (k = 0; k < nodes; k++)
        for (j = 0; j < 6 && !faulty(k); j++) {
            int32_t neighbour = beside(k, j);
            count += neighbour >= 0 && !faulty((uint32_t)neighbour) && state[7 * neighbour] != state[7 * k + 1 + j];
        }
    return count;
}

/* The two questions change nothing, and their answers are as they should be. */
static void ask(void) {
    uint8_t *kept = lent(state, length);
    uint32_t refused = refusal();
    dk_done tested = dk_sound(w, h, d, orientation, state, length);
    dk_counted counted = dk_outstanding(w, h, d, orientation, state, length);
    CHECK(tested.refusal == refused && tested.bad == 0);
    CHECK(counted.refusal == refused && counted.bad == 0);
    CHECK(counted.count == (refused == 0 ? pairs_with_news() : 0));
    CHECK(same(state, kept, length));
    free(kept);
}

/* The refusal of hearing a word. */
static uint32_t hearing_refusal(uint32_t listener, uint32_t direction, uint32_t word) {
    uint32_t first = refusal();
    int32_t neighbour;
    if (first == DK_BAD_SIZES || first == DK_BAD_LENGTH)
        return first;
    if (orientation > 7 || listener >= nodes || direction > 5 || !is_word(word))
        return DK_BAD_NUMBER;
    if (first != 0)
        return first;
    neighbour = beside(listener, direction);
    if (faulty(listener) || neighbour < 0 || faulty((uint32_t)neighbour))
        return DK_NO_PAIR;
    return (word & ~(uint32_t)state[7 * neighbour]) != 0 ? DK_NOT_HELD : 0;
}

/* Hearing changes the one heard byte and the listener's own, or nothing; heard once more, or a late 0, nothing changes. */
static uint32_t hear(uint32_t listener, uint32_t direction, uint32_t word) {
    uint8_t *before = lent(state, length), *after;
    uint32_t refused = hearing_refusal(listener, direction, word);
    dk_done heard = dk_hear(w, h, d, orientation, listener, direction, word, state, length);
    CHECK(heard.refusal == refused && heard.bad == 0);
    after = lent(state, length);
    if (refused == 0) {
        before[7 * listener + 1 + direction] |= (uint8_t)word;
        before[7 * listener] = by_rule(listener);
        CHECK(dk_hear(w, h, d, orientation, listener, direction, word, state, length).refusal == 0);
        CHECK(dk_hear(w, h, d, orientation, listener, direction, 0, state, length).refusal == 0);
    }
    CHECK(same(after, before, length) && same(state, after, length));
    free(before), free(after);
    return refused;
}

/* A fresh state of cells: every word heard is 0, and own bytes follow from that. */
static void fresh(void) {
    uint32_t other = next(), k, j, many = other >= 250 ? other : nodes == 0 ? 4 : nodes, bad = many, first;
    uint8_t *cells = lent(NULL, many), *kept, *before = lent(state, length);
    dk_done made;
    for (k = 0; k < many; k++) {
        uint8_t byte = next();
        cells[k] = byte < 250 ? byte % 3 == 1 : byte - 248;
        if (cells[k] > 1 && bad == many)
            bad = k;
    }
    kept = lent(cells, many);
    made = dk_fresh(w, h, d, orientation, cells, many, state, length);
    CHECK(same(cells, kept, many));
    first = nodes == 0 ? DK_BAD_SIZES : many != nodes || length != 7 * nodes ? DK_BAD_LENGTH : bad != many ? DK_BAD_CELL : 0;
    first = first != 0 ? first : orientation > 7 ? DK_BAD_NUMBER : 0;
    CHECK(made.refusal == first && made.bad == (first == DK_BAD_CELL ? bad : 0));
    if (first != 0) {
        CHECK(same(state, before, length));
    } else {
        CHECK(sound());
        for (k = 0; k < nodes; k++)
            for (j = 0; j < 6; j++)
                CHECK(faulty(k) == cells[k] && (state[7 * k + 1 + j] & 6) == 0);
    }
    free(cells), free(kept), free(before);
}

/* A sound state settles when all is heard, and then the own bytes are the marks of its map. */
static void settle(void) {
    uint8_t *cells = lent(NULL, nodes), *marks = lent(NULL, nodes);
    uint32_t k, j, rounds = 0;
    while (pairs_with_news() > 0) {
        CHECK(++rounds <= 2 * nodes + 1);
        for (k = 0; k < nodes; k++)
            for (j = 0; j < 6; j++)
                if (beside(k, j) >= 0 && !faulty(k) && !faulty((uint32_t)beside(k, j)))
                    CHECK(hear(k, j, state[7 * beside(k, j)]) == 0);
    }
    for (k = 0; k < nodes; k++)
        cells[k] = (uint8_t)faulty(k);
    CHECK(dk_marks(w, h, d, orientation, cells, nodes, marks, nodes).refusal == 0);
    for (k = 0; k < nodes; k++)
        CHECK(state[7 * k] == marks[k]);
    free(cells), free(marks);
}

/* One thing to do: hear a word, hear what the speaker holds, spoil a byte, or ask. */
static void act(void) {
    uint32_t what = next(), direction = what & 7, listener = next16(), word = next();
    if (nodes > 0 && listener < 0xFF00)
        listener %= nodes;
    switch (what >> 3 & 3) {
    case 0:
        hear(listener, direction, word);
        break;
    case 1:
        if (length == 7 * nodes && listener < nodes && direction < 6 && beside(listener, direction) >= 0)
            hear(listener, direction, state[7 * beside(listener, direction)]);
        break;
    case 2:
        if (length > 0)
            state[(7 * listener + direction) % length] = (uint8_t)word;
        break;
    default:
        ask();
    }
}

int LLVMFuzzerTestOneInput(const uint8_t *data, size_t size) {
    uint32_t shape, acts;
    input = data, left = size;
    w = next() % 19, h = next() % 19, d = next() % 19, orientation = next() % 10, shape = next();
    nodes = in_range(w, h, d) ? w * h * d : 0;
    length = 7 * (size_t)(nodes == 0 ? 4 : nodes);
    if (shape >= 254) /* any shorter length */
        length = next16() % length;
    else if (shape >= 240) /* another length, a little shorter or longer */
        length = length + (shape & 15) - 8;
    state = lent(NULL, length);
    if (shape % 2 == 0) {
        size_t k;
        for (k = 0; k < length; k++)
            state[k] = next();
    } else {
        fresh();
    }
    ask();
    for (acts = 0; acts < 48 && left > 0; acts++)
        act();
    ask();
    if (nodes > 0 && nodes <= 64 && refusal() == 0)
        settle();
    free(state);
    return 0;
}
