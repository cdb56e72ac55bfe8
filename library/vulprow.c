/*
 * The functions of vulprow.h, over those that crates/boundary_c exports. A game goes to the engine as its five parts; a
 * text, steps or a buffer of length 0 as an address that is not NULL; what a call gives goes from the engine's rows
 * into the fields of a struct, also after a refusal, when the rows are all zeros. Nothing else happens here.
 */
#include "vulprow.h"

/* What crates/boundary_c exports. A slice is two arguments: its address, never NULL, and its length. */
typedef uint32_t numbers_t[8];
typedef uint32_t edges_t[5][VULPROW_MAX_CHANNELS];
typedef uint32_t terminals_t[3][VULPROW_MAX_MILLS];
typedef uint64_t journal_t[VULPROW_MAX_MOVES][5];

uint32_t vulprow_parts_load(numbers_t *, edges_t *, terminals_t *, uint64_t *, journal_t *, const uint8_t *, size_t);
uint32_t vulprow_parts_carry(numbers_t *, edges_t *, terminals_t *, uint64_t *, journal_t *, uint32_t, uint32_t);
uint32_t vulprow_parts_turn(numbers_t *, edges_t *, terminals_t *, uint64_t *, journal_t *, const uint8_t *, size_t);
uint32_t vulprow_parts_undo(numbers_t *, edges_t *, terminals_t *, uint64_t *, journal_t *);
uint32_t vulprow_parts_hint(const numbers_t *, const edges_t *, const terminals_t *, const uint64_t *,
                            const journal_t *, uint32_t (*)[4], uint8_t (*)[VULPROW_MAX_STEPS]);
uint32_t vulprow_parts_finish(numbers_t *, edges_t *, terminals_t *, uint64_t *, journal_t *, uint32_t *);
uint32_t vulprow_parts_sheet(const numbers_t *, const edges_t *, const terminals_t *, const uint64_t *,
                             const journal_t *, uint8_t *, size_t, size_t *);
uint32_t vulprow_parts_write(const numbers_t *, const edges_t *, const terminals_t *, const uint64_t *,
                             const journal_t *, uint8_t *, size_t, size_t *);
uint32_t vulprow_parts_catalog(uint32_t, uint8_t *, size_t, size_t *);
uint32_t vulprow_parts_look(const numbers_t *, const edges_t *, const terminals_t *, const uint64_t *,
                            const journal_t *, uint32_t (*)[6], uint32_t (*)[5][VULPROW_MAX_CHANNELS],
                            uint32_t (*)[3][VULPROW_MAX_MILLS]);
uint32_t vulprow_parts_journal(const numbers_t *, const edges_t *, const terminals_t *, const uint64_t *,
                               const journal_t *, uint32_t, uint32_t (*)[6], uint32_t (*)[3][VULPROW_MAX_CHANNELS]);

/* The parts of a game, const where the game is. */
#define PARTS(game) &(game)->numbers, &(game)->edges, &(game)->terminals, &(game)->marks, &(game)->journal

/* A place for the address of nothing. */
static const uint8_t NOTHING = 0;

static const uint8_t *bytes(const uint8_t *from, size_t length) {
    return length == 0 ? &NOTHING : from;
}

uint32_t vulprow_load(vulprow_game *game, const uint8_t *text, size_t length) {
    return vulprow_parts_load(PARTS(game), bytes(text, length), length);
}

uint32_t vulprow_carry(vulprow_game *game, uint32_t mill, uint32_t channel) {
    return vulprow_parts_carry(PARTS(game), mill, channel);
}

uint32_t vulprow_turn(vulprow_game *game, const uint8_t *steps, size_t length) {
    return vulprow_parts_turn(PARTS(game), bytes(steps, length), length);
}

uint32_t vulprow_undo(vulprow_game *game) {
    return vulprow_parts_undo(PARTS(game));
}

uint32_t vulprow_finish(vulprow_game *game, uint32_t *moves) {
    return vulprow_parts_finish(PARTS(game), moves);
}

uint32_t vulprow_hint(const vulprow_game *game, vulprow_move *move) {
    uint32_t parts[4];
    uint32_t answer = vulprow_parts_hint(PARTS(game), &parts, &move->steps);
    move->kind = parts[0];
    move->mill = parts[1];
    move->channel = parts[2];
    move->length = parts[3];
    return answer;
}

uint32_t vulprow_sheet(const vulprow_game *game, uint8_t *buffer, size_t room, size_t *length) {
    uint8_t nothing;
    return vulprow_parts_sheet(PARTS(game), room == 0 ? &nothing : buffer, room, length);
}

uint32_t vulprow_write(const vulprow_game *game, uint8_t *buffer, size_t room, size_t *length) {
    uint8_t nothing;
    return vulprow_parts_write(PARTS(game), room == 0 ? &nothing : buffer, room, length);
}

uint32_t vulprow_catalog(uint32_t number, uint8_t *buffer, size_t room, size_t *length) {
    uint8_t nothing;
    return vulprow_parts_catalog(number, room == 0 ? &nothing : buffer, room, length);
}

uint32_t vulprow_look(const vulprow_game *game, vulprow_view *view) {
    uint32_t counts[6];
    uint32_t lines[5][VULPROW_MAX_CHANNELS];
    uint32_t posts[3][VULPROW_MAX_MILLS];
    uint32_t answer = vulprow_parts_look(PARTS(game), &counts, &lines, &posts);
    view->stage = counts[0];
    view->pools = counts[1];
    view->channels = counts[2];
    view->mills = counts[3];
    view->spring = counts[4];
    view->moves = counts[5];
    for (size_t i = 0; i < VULPROW_MAX_CHANNELS; i++) {
        view->tail[i] = lines[0][i];
        view->head[i] = lines[1][i];
        view->first[i] = lines[2][i];
        view->flow[i] = lines[3][i];
        view->marked[i] = lines[4][i];
    }
    for (size_t i = 0; i < VULPROW_MAX_MILLS; i++) {
        view->home[i] = posts[0][i];
        view->pool[i] = posts[1][i];
        view->need[i] = posts[2][i];
    }
    return answer;
}

uint32_t vulprow_journal(const vulprow_game *game, uint32_t place, vulprow_entry *entry) {
    uint32_t parts[6];
    uint32_t rows[3][VULPROW_MAX_CHANNELS];
    uint32_t answer = vulprow_parts_journal(PARTS(game), place, &parts, &rows);
    entry->kind = parts[0];
    entry->mill = parts[1];
    entry->channel = parts[2];
    entry->amount = parts[3];
    entry->length = parts[4];
    entry->marks = parts[5];
    for (size_t i = 0; i < VULPROW_MAX_CHANNELS; i++) {
        entry->channels[i] = rows[0][i];
        entry->ways[i] = rows[1][i];
        entry->marked[i] = rows[2][i];
    }
    return answer;
}
