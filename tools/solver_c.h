/* The static library of the crate solver_c: from a card to the text of its sheet, or of its refusal. */
#ifndef SOLVER_C_H
#define SOLVER_C_H

#include <stdbool.h>
#include <stddef.h>
#include <stdint.h>

/* What became of a card. */
struct answer {
    size_t bytes;   /* how many bytes the text has; 0 where the list has no room */
    uint64_t pivot; /* the 64 bits of the smallest pivot, 0 if none was taken */
    bool solved;    /* the text is a sheet, and no refusal */
};

/* Every text wants a list of so many bytes. */
#define SOLVER_C_ROOM 320

/* The two lists lie apart, neither pointer is null, and nothing else reads or writes them during the call. */
struct answer solver_c_solve_card(const uint8_t *card, size_t length, uint8_t *out, size_t room);

#endif
