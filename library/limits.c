/*
 * Holds vulprow.h to the engine: its macros and enums to the limits, stages and kinds that crates/boundary_c exports,
 * and its structs to a layout without padding. tools/library compiles it, which checks the structs, and runs it. Each
 * number that is another is a line of its own, and the exit status is 1.
 */
#include <stdio.h>

#include "vulprow.h"

/* Does not compile where `holds` is 0. */
#define HOLDS(name, holds) typedef char name[(holds) ? 1 : -1]

/* The bytes of a field. */
#define FIELD(type, field) sizeof(((type *)0)->field)

HOLDS(game_is_full, sizeof(vulprow_game) == FIELD(vulprow_game, numbers) + FIELD(vulprow_game, edges)
      + FIELD(vulprow_game, terminals) + FIELD(vulprow_game, marks) + FIELD(vulprow_game, journal));
HOLDS(game_has_its_size, sizeof(vulprow_game) == 43752);

HOLDS(move_is_full, sizeof(vulprow_move) == FIELD(vulprow_move, kind) + FIELD(vulprow_move, mill)
      + FIELD(vulprow_move, channel) + FIELD(vulprow_move, length) + FIELD(vulprow_move, steps));

HOLDS(view_is_full, sizeof(vulprow_view) == FIELD(vulprow_view, stage) + FIELD(vulprow_view, pools)
      + FIELD(vulprow_view, channels) + FIELD(vulprow_view, mills) + FIELD(vulprow_view, spring)
      + FIELD(vulprow_view, moves) + FIELD(vulprow_view, tail) + FIELD(vulprow_view, head) + FIELD(vulprow_view, first)
      + FIELD(vulprow_view, flow) + FIELD(vulprow_view, marked) + FIELD(vulprow_view, home) + FIELD(vulprow_view, pool)
      + FIELD(vulprow_view, need));

HOLDS(entry_is_full, sizeof(vulprow_entry) == FIELD(vulprow_entry, kind) + FIELD(vulprow_entry, mill)
      + FIELD(vulprow_entry, channel) + FIELD(vulprow_entry, amount) + FIELD(vulprow_entry, length)
      + FIELD(vulprow_entry, marks) + FIELD(vulprow_entry, channels) + FIELD(vulprow_entry, ways)
      + FIELD(vulprow_entry, marked));

/* A name of the header and its number there, in the order of the engine's. */
#define NAMED(name) { #name, name }

static const struct {
    const char *name;
    uint32_t number;
} NUMBERS[] = {
    NAMED(VULPROW_VERSION),
    NAMED(VULPROW_MAX_POOLS),
    NAMED(VULPROW_MAX_CHANNELS),
    NAMED(VULPROW_MAX_MILLS),
    NAMED(VULPROW_MAX_STEPS),
    NAMED(VULPROW_MAX_MOVES),
    NAMED(VULPROW_TEXT_MAX),
    NAMED(VULPROW_SHEET_MAX),
    NAMED(VULPROW_CLOSED),
    NAMED(VULPROW_PLAY),
    NAMED(VULPROW_FINISHED),
    NAMED(VULPROW_NONE),
    NAMED(VULPROW_CARRY),
    NAMED(VULPROW_TURN),
    NAMED(VULPROW_STEP_UP),
};

#define COUNT (sizeof NUMBERS / sizeof *NUMBERS)

void vulprow_parts_limits(uint32_t (*out)[15]);

HOLDS(all_are_named, COUNT == 15);

int main(void) {
    uint32_t engine[15];
    int status = 0;

    vulprow_parts_limits(&engine);
    for (size_t i = 0; i < COUNT; i++) {
        if (NUMBERS[i].number != engine[i]) {
            printf("%s is %lu in vulprow.h, and %lu in the engine\n", NUMBERS[i].name,
                   (unsigned long)NUMBERS[i].number, (unsigned long)engine[i]);
            status = 1;
        }
    }
    return status;
}
