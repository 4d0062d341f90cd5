/* Wrong versions of the library and of the program meshaudit, one for each number WRONG: the right call is asked, or the right program run, and
 * something about it is made wrong. fuzz/wrong sees to it that the fuzz program named before each finds it. */
#include "dukthari.h"
#include <stdlib.h>
#include <string.h>
#include <sys/types.h>

#if WRONG <= 12
dk_map_answer __real_dk_read_map(const uint8_t *file, size_t file_len, uint8_t *cells, size_t cells_len);
dk_done __real_dk_sound(uint32_t w, uint32_t h, uint32_t d, uint32_t orientation, const uint8_t *state, size_t state_len);
dk_counted __real_dk_outstanding(uint32_t w, uint32_t h, uint32_t d, uint32_t orientation, const uint8_t *state, size_t state_len);
dk_done __real_dk_fresh(uint32_t w, uint32_t h, uint32_t d, uint32_t orientation, const uint8_t *cells, size_t cells_len, uint8_t *state,
                        size_t state_len);
dk_done __real_dk_hear(uint32_t w, uint32_t h, uint32_t d, uint32_t orientation, uint32_t listener, uint32_t direction, uint32_t word,
                       uint8_t *state, size_t state_len);

dk_map_answer __wrap_dk_read_map(const uint8_t *file, size_t file_len, uint8_t *cells, size_t cells_len) {
    dk_map_answer answer;
    uint8_t *copy = malloc(file_len), *end = copy + file_len;
    if (file_len > 0)
        memcpy(copy, file, file_len);
#if WRONG == 1 /* file: the mark is compared in three bytes only */
    if (file_len > 12)
        end[-1] = 0x31;
#elif WRONG == 2 /* file: the zero byte is not looked at */
    if (file_len > 12)
        end[-9] = 0;
#elif WRONG == 3 /* file: the highest byte of the distance is not looked at */
    if (file_len > 12)
        end[-5] = 0;
#elif WRONG == 4 /* file: the longest file is too long */
    if (file_len == 65536)
        end[-1] = 0;
#elif WRONG == 5 /* file: a file that is a byte too long is read */
    if (file_len == 65537) {
        answer = __real_dk_read_map(copy + 1, file_len - 1, cells, cells_len);
        free(copy);
        return answer;
    }
#endif
    (void)end;
    answer = __real_dk_read_map(copy, file_len, cells, cells_len);
    free(copy);
#if WRONG == 6 /* file: the byte after the last cell is cleared */
    if (answer.refusal == 0 && answer.w * answer.h * answer.d < cells_len)
        cells[answer.w * answer.h * answer.d] = 0;
#elif WRONG == 7 /* file: the room is filled up before a bad cell is seen */
    if (answer.refusal == DK_BAD_CELL)
        memset(cells, 0, answer.bad);
#endif
    return answer;
}

dk_done __wrap_dk_sound(uint32_t w, uint32_t h, uint32_t d, uint32_t orientation, const uint8_t *state, size_t state_len) {
#if WRONG == 8 /* talking: what a faulty node has heard is not looked at */
    dk_done answer;
    uint8_t *copy = malloc(state_len);
    size_t k;
    memcpy(copy, state, state_len);
    for (k = 0; k + 7 <= state_len; k += 7)
        if (copy[k] == 1)
            memset(copy + k + 1, 0, 6);
    answer = __real_dk_sound(w, h, d, orientation, copy, state_len);
    free(copy);
    return answer;
#else
    return __real_dk_sound(w, h, d, orientation, state, state_len);
#endif
}

dk_counted __wrap_dk_outstanding(uint32_t w, uint32_t h, uint32_t d, uint32_t orientation, const uint8_t *state, size_t state_len) {
    dk_counted answer = __real_dk_outstanding(w, h, d, orientation, state, state_len);
#if WRONG == 9 /* talking: no more than twelve words are counted */
    answer.count = answer.count > 12 ? 12 : answer.count;
#endif
    return answer;
}

dk_done __wrap_dk_fresh(uint32_t w, uint32_t h, uint32_t d, uint32_t orientation, const uint8_t *cells, size_t cells_len, uint8_t *state,
                        size_t state_len) {
    dk_done answer = __real_dk_fresh(w, h, d, orientation, cells, cells_len, state, state_len);
#if WRONG == 10 /* talking: an orientation above 7 is taken for one below */
    if (answer.refusal == DK_BAD_NUMBER)
        answer = __real_dk_fresh(w, h, d, orientation % 8, cells, cells_len, state, state_len);
#endif
    return answer;
}

dk_done __wrap_dk_hear(uint32_t w, uint32_t h, uint32_t d, uint32_t orientation, uint32_t listener, uint32_t direction, uint32_t word,
                       uint8_t *state, size_t state_len) {
    dk_done answer = __real_dk_hear(w, h, d, orientation, listener, direction, word, state, state_len);
#if WRONG == 11 /* talking: a late word takes a mark away */
    if (answer.refusal == 0)
        state[7 * listener + 1 + direction] = (uint8_t)word;
#elif WRONG == 12 /* talking: a word that is refused is heard all the same */
    if (answer.refusal == DK_NOT_HELD)
        state[7 * listener + 1 + direction] |= (uint8_t)word;
#endif
    return answer;
}

#else

enum { LOG = 3 }; /* the descriptor of the log in fuzz/log.c */

ssize_t __real_audit_read(int from, uint8_t *out, size_t out_len);
ssize_t __real_audit_write(int to, const uint8_t *text, size_t text_len);

ssize_t __wrap_audit_read(int from, uint8_t *out, size_t out_len) {
    ssize_t got = __real_audit_read(from, out, out_len), k;
    for (k = 0; from == LOG && k < got; k++) {
#if WRONG == 13 /* log: a carriage return is no blank */
        out[k] = out[k] == '\r' ? 'x' : out[k];
#elif WRONG == 14 /* log: a comment is read */
        out[k] = out[k] == '#' ? ' ' : out[k];
#elif WRONG == 15 /* log: a number may have a sign */
        out[k] = out[k] == '+' ? '0' : out[k];
#elif WRONG == 16 /* log: a zero byte ends the log */
        if (out[k] == 0)
            return k;
#endif
    }
#if WRONG == 17 /* log: the longest log is too long */
    if (from == LOG && got == 65536)
        out[got++] = '\n';
#elif WRONG == 18 /* log: a log that is a byte too long is read */
    if (from == LOG && got == 65537)
        got--;
#endif
    return got;
}

/* Changes a byte of a text, so many after some words, where they stand in it. */
static void change(char *text, const char *words, size_t after, char to) {
    char *found = strstr(text, words);
    if (found != NULL)
        found[after] = to;
}

ssize_t __wrap_audit_write(int to, const uint8_t *text, size_t text_len) {
    char *copy = malloc(text_len + 1);
    ssize_t put;
    memcpy(copy, text, text_len);
    copy[text_len] = 0;
#if WRONG == 19 /* log: what is not reached is drawn as reached */
    change(copy, ".   nodes", 0, 'o');
#elif WRONG == 20 /* log: the second layer has the first one's name */
    change(copy, "layer z 1\n", 8, '0');
#elif WRONG == 21 /* log: twelve hops are two */
    change(copy, "hops 12, ", 5, '0');
#elif WRONG == 22 /* log: ten refusals for want of a path are none */
    change(copy, "no path 10, ", 8, '0');
#endif
    put = __real_audit_write(to, (uint8_t *)copy, text_len);
    free(copy);
    return put;
}

#endif
