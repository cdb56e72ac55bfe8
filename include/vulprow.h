/*
 * vulprow.h: the engine for water boards, as firmware calls it.
 *
 * A board is a network of channels with water in them, fed by one spring. Mills stand at pools, and each needs a whole
 * number of units. A player carries mills upstream and turns rings of channels, may take any move back, may ask for a
 * hint, and may let the engine finish: then every mill has one route from the spring, and no channel has as much more
 * than its drained first flow as its largest mill needs.
 *
 * A program keeps a game in memory of its own and makes one call at a time:
 *
 *     static vulprow_game game;
 *
 *     if (vulprow_load(&game, text, length) == VULPROW_OK) {
 *         vulprow_carry(&game, 0, 2);
 *         vulprow_undo(&game);
 *     }
 *
 * Every call answers 0 (VULPROW_OK), or the number that it is refused with. A refused call has changed nothing, but for
 * vulprow_load, which then leaves the closed board. Every call comes to an end, whatever it is given.
 *
 * What the caller keeps, in every call:
 *   - Every pointer is valid for what its type says, and aligned for it: a game, a move, a view, an entry, a number; a
 *     text, steps or a buffer for as many bytes as the length beside it says. NULL stands only beside a length of 0.
 *   - Nothing that a call writes overlaps with anything else that it is given.
 *   - Nobody else writes what a call was given, or reads what it writes, until it has returned.
 * Nothing else is asked for: texts, steps, numbers and the bytes of a game may be anything.
 *
 * The engine has no state of its own and keeps no pointer: calls on different games may run at once. It takes no memory
 * but the stack. Sizes, stack and times are in docs/LIBRARY.md.
 */
#ifndef VULPROW_H
#define VULPROW_H

#include <stddef.h>
#include <stdint.h>

#ifdef __cplusplus
extern "C" {
#endif

/* Rises when the memory of a game changes: see vulprow_game. */
#define VULPROW_VERSION 1

/* The most that a board has, and a turn. Pools, channels and mills are numbered from 0. */
#define VULPROW_MAX_POOLS 32
#define VULPROW_MAX_CHANNELS 64
#define VULPROW_MAX_MILLS 16
#define VULPROW_MAX_STEPS 64

/* The moves that a game has room for: no board takes more. */
#define VULPROW_MAX_MOVES 1056

/* The bytes of the longest board text and of the longest route sheet. A buffer of so many is never too short. */
#define VULPROW_TEXT_MAX 1246
#define VULPROW_SHEET_MAX 2948

/* What a call answers. */
enum vulprow_answer {
    VULPROW_OK = 0,             /* done */
    VULPROW_LAYOUT = 1,         /* load: the text breaks the layout */
    VULPROW_RANGE = 2,          /* load: a number outside its range; catalog: no such board; journal: no such move */
    VULPROW_LOOP = 3,           /* load: a channel ends where it begins */
    VULPROW_MILL_AT_SPRING = 4, /* load: a mill stands at the spring */
    VULPROW_UNBALANCED = 5,     /* load: at a pool, what comes in is not what goes out and is needed there */
    VULPROW_NO_SUCH = 6,        /* carry, turn: a mill or a channel that the board does not have */
    VULPROW_NO_RING = 7,        /* turn: the steps are no ring: empty, a channel twice, a step elsewhere, not closed */
    VULPROW_BUFFER = 8,         /* sheet, write, catalog: the buffer is too short for the text */
    VULPROW_NOT_IN_PLAY = 20,   /* play is over (undo takes the finish back), or no board was loaded */
    VULPROW_AT_SPRING = 21,     /* carry: the mill is at the spring */
    VULPROW_ELSEWHERE = 22,     /* carry: the channel does not enter the mill's pool */
    VULPROW_NOT_OPEN = 23,      /* carry: the flow is below the need, or on a marked channel another than the need */
    VULPROW_CARRY_OPEN = 24,    /* turn: a carry is open, which goes first */
    VULPROW_DRY = 25,           /* turn: a channel without flow */
    VULPROW_NOT_SINGLE = 26,    /* turn: a step up over a channel that is not single */
    VULPROW_NOTHING = 27,       /* undo: nothing to undo */
    VULPROW_UNFINISHED = 28,    /* sheet: the board is not finished */
    VULPROW_NOT_LOADED = 29     /* sheet, write, look, journal: no board was loaded */
};

/* The kinds of a move. */
enum vulprow_kind {
    VULPROW_NONE = 0,
    VULPROW_CARRY = 1,
    VULPROW_TURN = 2
};

/* The stages of a board. */
enum vulprow_stage {
    VULPROW_CLOSED = 0,        /* no board was loaded */
    VULPROW_PLAY = 1,
    VULPROW_FINISHED = 2
};

/* The ways of a step. */
enum vulprow_way {
    VULPROW_DOWN = 0,          /* with the water: the flow falls */
    VULPROW_UP = 1             /* against it: the flow rises */
};

/* Added to the number of a channel where a step goes up. */
#define VULPROW_STEP_UP 128

/*
 * A game: a board and its journal, the standing moves. 43,752 bytes, with no pointer and no padding.
 *
 * A game may be copied, moved and stored. A stored one is good for an engine of the same VULPROW_VERSION on a machine
 * of the same byte order. Games that calls have made are equal exactly where memcmp finds them equal. A game of zeros
 * is the closed board: so no game needs to be prepared, and memory that holds anything at all may be loaded into.
 *
 * The numbers are the engine's: read them with vulprow_look and vulprow_journal. A game that no call has made is met,
 * too, whatever its bytes are: a call that cannot be made on it is refused as on the closed board, and a refused call
 * writes nothing in the game. docs/LIBRARY.md says what each call asks of the bytes.
 */
typedef struct vulprow_game {
    uint32_t numbers[8];
    uint32_t edges[5][VULPROW_MAX_CHANNELS];
    uint32_t terminals[3][VULPROW_MAX_MILLS];
    uint64_t marks;
    uint64_t journal[VULPROW_MAX_MOVES][5];
} vulprow_game;

/*
 * A move, as a hint gives it. What a kind does not need is 0: `mill` and `channel` belong to a carry, `length` and
 * `steps` to a turn, just as vulprow_carry and vulprow_turn take them.
 */
typedef struct vulprow_move {
    uint32_t kind;             /* enum vulprow_kind */
    uint32_t mill;
    uint32_t channel;
    uint32_t length;           /* how many steps */
    uint8_t steps[VULPROW_MAX_STEPS];
} vulprow_move;

/* What a screen draws. Places past the counts hold 0. */
typedef struct vulprow_view {
    uint32_t stage;            /* enum vulprow_stage */
    uint32_t pools;
    uint32_t channels;
    uint32_t mills;
    uint32_t spring;           /* the spring's pool */
    uint32_t moves;            /* how many moves stand */
    uint32_t tail[VULPROW_MAX_CHANNELS];   /* the pool where a channel begins */
    uint32_t head[VULPROW_MAX_CHANNELS];   /* and the one where it ends */
    uint32_t first[VULPROW_MAX_CHANNELS];  /* its drained first flow */
    uint32_t flow[VULPROW_MAX_CHANNELS];   /* its flow now */
    uint32_t marked[VULPROW_MAX_CHANNELS]; /* 1 where it is marked */
    uint32_t home[VULPROW_MAX_MILLS];      /* the pool where a mill stood at first */
    uint32_t pool[VULPROW_MAX_MILLS];      /* the one where it is now */
    uint32_t need[VULPROW_MAX_MILLS];      /* how many units it needs */
} vulprow_view;

/*
 * A standing move, as the journal keeps it. What a kind does not need is 0: `mill` and `channel` belong to a carry, all
 * below to a turn. Places past `length` and `marks` hold 0.
 */
typedef struct vulprow_entry {
    uint32_t kind;             /* enum vulprow_kind */
    uint32_t mill;
    uint32_t channel;
    uint32_t amount;           /* by how much the flows fell and rose */
    uint32_t length;           /* how many channels the ring has */
    uint32_t marks;            /* how many channels it newly marked */
    uint32_t channels[VULPROW_MAX_CHANNELS]; /* the channels of the ring, by ascending number */
    uint32_t ways[VULPROW_MAX_CHANNELS];     /* and the way over each: enum vulprow_way */
    uint32_t marked[VULPROW_MAX_CHANNELS];   /* the channels newly marked, by ascending number */
} vulprow_entry;

/*
 * Reads a board text of `length` bytes, drains its flow, and opens it for play, with no move standing. What the game
 * held before is of no account, and nothing is left of it. A refused text leaves the closed board, all zeros.
 *
 * The text has these lines, each ended by a line feed, and nothing behind them. Commas alone part the fields; numbers
 * have one to seven digits, no sign and no leading zero. Channels and mills are numbered in the order of their lines.
 *
 *     B,pools,channels,mills,spring    one: 2 to 32 pools, 1 to 64 channels, 1 to 16 mills, the spring's pool
 *     C,tail,head,flow                 for each channel: two different pools, 0 to 1,000,000
 *     W,pool,need                      for each mill: a pool that is not the spring's, 1 to 1,000,000
 *
 * At every pool but the spring's, what flows in is what flows out and is needed there. Flow that only goes round is
 * good: to drain is to take it off.
 *
 * Answers 0; or 1 or 2, for the first such fault in the text; or, where there is none, the first that holds of 3, 4
 * and 5.
 */
uint32_t vulprow_load(vulprow_game *game, const uint8_t *text, size_t length);

/*
 * Carries a mill over a channel that enters its pool, to the pool where the channel begins. The channel's flow falls by
 * the mill's need. The carry is open, that is allowed, where the flow is at or above the need, and once the channel is
 * marked where it is equal to it.
 *
 * Answers 0, or the first that holds of 20, 6, 21, 22 and 23.
 */
uint32_t vulprow_carry(vulprow_game *game, uint32_t mill, uint32_t channel);

/*
 * Turns a ring of channels, where no carry is open. A step is a byte: the channel's number, plus VULPROW_STEP_UP where
 * it goes up, from head to tail. Each starts where the last one ended, the last ends where the first began, and no
 * channel comes twice. All channels have flow. Steps up go over single channels alone: from the head of such a one on,
 * at most one channel with flow leaves any pool.
 *
 * First, every single channel with flow is marked. Then the flow falls on each step down, and rises on each step up, by
 * one amount: the least of the flows on the steps down, and of what the flow on a step up lacks to the need of a mill
 * at its head, where the need is above the flow.
 *
 * Answers 0, or the first that holds of 20, 6, 7, 24, 25 and 26.
 */
uint32_t vulprow_turn(vulprow_game *game, const uint8_t *steps, size_t length);

/*
 * Takes the last standing move back; on a finished board, the whole finish. The game is then, byte for byte, what it
 * was before.
 *
 * Answers 0; 20 where no board was loaded; 27 where there is nothing to take back.
 */
uint32_t vulprow_undo(vulprow_game *game);

/*
 * Gives the move that a finish would make next, of kind VULPROW_NONE where every mill is at the spring. vulprow_carry
 * and vulprow_turn take it. After a refusal `*move` is all zeros.
 *
 * Answers 0, or 20.
 */
uint32_t vulprow_hint(const vulprow_game *game, vulprow_move *move);

/*
 * Plays to the end: every mill to the spring. The moves go into the journal, and `*moves` gets how many there were; 0
 * after a refusal. Carry, turn, hint and finish are then refused with 20, until undo takes the finish back.
 *
 * Answers 0, or 20.
 */
uint32_t vulprow_finish(vulprow_game *game, uint32_t *moves);

/*
 * Writes the route sheet of a finished board into a buffer of `room` bytes. `*length` gets its length; the bytes behind
 * it are kept, and there is no byte 0 at its end. After a refusal `*length` is 0, and the buffer is as it was.
 *
 *     R,mills,channels              one line
 *     M,mill,length,channel,..      for each mill: how many channels its route has, and these, from the spring on
 *     L,channel,first,load          for each channel: its drained first flow, and the sum of the needs routed over it
 *
 * Answers 0, or the first that holds of 29, 28 and 8.
 */
uint32_t vulprow_sheet(const vulprow_game *game, uint8_t *buffer, size_t room, size_t *length);

/*
 * Writes the text that was loaded, byte for byte, at any stage of play. Buffer and `*length` as with vulprow_sheet.
 *
 * Answers 0, or the first that holds of 29 and 8.
 */
uint32_t vulprow_write(const vulprow_game *game, uint8_t *buffer, size_t room, size_t *length);

/*
 * Writes the text of a board of the catalog, of 40 from number 0 on. Buffer and `*length` as with vulprow_sheet.
 *
 * Answers 0, or the first that holds of 2 (no such board) and 8.
 */
uint32_t vulprow_catalog(uint32_t number, uint8_t *buffer, size_t room, size_t *length);

/*
 * Gives all that a screen draws. After a refusal `*view` is all zeros, which is a view of the closed board.
 *
 * Answers 0, or 29.
 */
uint32_t vulprow_look(const vulprow_game *game, vulprow_view *view);

/*
 * Gives the standing move at a place, from 0, the first made, up to, and without, the `moves` of a view; those of a
 * finish among them. After a refusal `*entry` is all zeros.
 *
 * Answers 0, or the first that holds of 29 and 2 (no move stands there).
 */
uint32_t vulprow_journal(const vulprow_game *game, uint32_t place, vulprow_entry *entry);

#ifdef __cplusplus
}
#endif

#endif
