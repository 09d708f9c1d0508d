/* Does with the cards of standard input what the program `sheets` does, by way of the static library: the two print the same.
 *
 * A card is its length in two bytes, the low one first, and its bytes. After the sheet of a job comes a line with the 64 bits of its
 * smallest pivot. A list without room has to stay as it stood, and so do the bytes past a text. */
#include "solver_c.h"

#include <inttypes.h>
#include <stdio.h>
#include <string.h>

enum { LONGEST = 65535, MARK = 0xa5 };

static uint8_t card[LONGEST];

/* Whether all bytes of a list from a place on have the mark that was put there. */
static bool stay(const uint8_t *list, size_t from, size_t to) {
    for (size_t k = from; k < to; k++) {
        if (list[k] != MARK) {
            return false;
        }
    }
    return true;
}

static bool show_card(size_t length) {
    uint8_t text[SOLVER_C_ROOM + 8];
    memset(text, MARK, sizeof text);
    struct answer none = solver_c_solve_card(card, length, text, SOLVER_C_ROOM - 1);
    if (none.bytes != 0 || none.pivot != 0 || none.solved || !stay(text, 0, sizeof text)) {
        return false;
    }
    struct answer answer = solver_c_solve_card(card, length, text, SOLVER_C_ROOM);
    if (answer.bytes > SOLVER_C_ROOM || !stay(text, answer.bytes, sizeof text)) {
        return false;
    }
    fwrite(text, 1, answer.bytes, stdout);
    if (answer.solved) {
        printf("pivot %" PRIu64 "\n", answer.pivot);
    }
    return answer.solved || answer.pivot == 0;
}

int main(void) {
    uint8_t head[2];
    while (fread(head, 1, 2, stdin) == 2) {
        size_t length = head[0] + 256u * head[1];
        if (fread(card, 1, length, stdin) != length || !show_card(length)) {
            return 1;
        }
    }
    return 0;
}
