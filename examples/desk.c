/*
 * desk: the level tester's desk. It keeps one game. Standard input is a board and then lines, and each line makes one
 * call of vulprow.h: its answer is printed at once, a number on a line of its own, and behind a 0 what the call gives.
 *
 *     B,..               load: opens a board, this line and as many behind it as its counts say
 *     K,mill,channel     carry
 *     T,channel,way,..   turn; a way is D or U. T alone is the empty turn
 *     U                  undo
 *     H                  hint: behind the 0 the move, as a line that makes it, or N where every mill is at the spring
 *     F                  finish
 *     S                  sheet: behind the 0 the route sheet
 *     W                  write: behind the 0 the board text
 *
 * The first line always opens a board, and where that is accepted nothing is printed. A line of another form is
 * answered by 1. Where standard error is a terminal, refusals are explained there. Memory is fixed, for lines of any
 * length, and the exit status is 0 whatever is printed.
 */
#define _POSIX_C_SOURCE 200112L /* for isatty */

#include <inttypes.h>
#include <stdbool.h>
#include <stdio.h>
#include <unistd.h>

#include "vulprow.h"

/* The bytes of the longest line that is read as a call, without its line feed. */
#define LINE_MOST 4096

/* The steps that such a line has room for: each takes four bytes at least, as in `,0,D`. */
#define STEPS_MOST (LINE_MOST / 4)

/* A channel that no board has. It stands for all that are too large for a step, which no board has, either. */
#define NO_CHANNEL 127

/*
 * How much is kept of a board's text. Load refuses a text with 1 or 2 for its first fault, so all before that is
 * without fault. A text without fault has at most VULPROW_TEXT_MAX bytes, and the longest end in a number of seven
 * digits and its line feed: so a field at fault begins at least 8 bytes before that. 8 bytes settle what is wrong with
 * it, since 8 digits are no number, whatever comes. So the fault shows within VULPROW_TEXT_MAX bytes, or it is the
 * first byte behind the last line: a longer text is answered as its first VULPROW_TEXT_MAX + 1 bytes are.
 */
#define TEXT_KEPT (VULPROW_TEXT_MAX + 1)

/* A line as far as it is kept, with its line feed; and whether it has one, kept or not. */
struct line {
    uint8_t bytes[LINE_MOST + 1];
    size_t length;
    bool is_ended;
};

static vulprow_game game;
static struct line line;
static bool is_watched; /* standard error is a terminal */

static const char WELCOME[] =
    "The desk reads a board, as in boards/example.txt, and then one call a line:\n"
    "  K,mill,channel    carry             T,channel,way,..  turn, with ways D and U\n"
    "  U                 undo              H                 hint\n"
    "  F                 finish            S                 the route sheet\n"
    "  W                 the board text    B,..              another board";

static const char OTHER_FORM[] =
    "A line of another form: a board, K,mill,channel, T,channel,way,.., U, H, F, S and W are read, with no blanks, no "
    "leading zeros and at most seven digits.";

/* What a refusal means, by its number. */
static const char *const MEANINGS[] = {
    [VULPROW_LAYOUT] = "The text breaks the layout: look for the first line that is not of its form.",
    [VULPROW_RANGE] = "A number is outside its range: 2 to 32 pools, 1 to 64 channels, 1 to 16 mills, flows 0 to "
                      "1,000,000, needs 1 to 1,000,000, a pool below their count.",
    [VULPROW_LOOP] = "A channel ends where it begins: give it two ends, or take it out.",
    [VULPROW_MILL_AT_SPRING] = "A mill is at the spring: put it at another pool.",
    [VULPROW_UNBALANCED] = "A pool is out of balance: at every pool but the spring make what enters equal to what "
                           "leaves and the needs there.",
    [VULPROW_NO_SUCH] = "The board has no such mill or channel: count from 0.",
    [VULPROW_NO_RING] = "The steps are no ring: let each start where the last one ended, the last end where the first "
                        "began, and no channel come twice.",
    [VULPROW_NOT_IN_PLAY] = "Play is over, or no board was loaded: take the finish back with U, or load a board.",
    [VULPROW_AT_SPRING] = "The mill is at the spring: it is done, choose another.",
    [VULPROW_ELSEWHERE] = "The channel does not enter the mill's pool: choose one that ends there.",
    [VULPROW_NOT_OPEN] = "That carry is not open: the channel's flow must be at or above the need, and equal to it "
                         "once the channel is marked; H gives a move.",
    [VULPROW_CARRY_OPEN] = "A carry is open: make the open carries first; H gives one.",
    [VULPROW_DRY] = "A channel without flow: go round over channels with flow alone.",
    [VULPROW_NOT_SINGLE] = "An up-step over a channel that is not single: go up only where from its head on at most "
                           "one channel with flow leaves any pool.",
    [VULPROW_NOTHING] = "Nothing to undo: the board is as it was loaded.",
    [VULPROW_UNFINISHED] = "The board is not finished, or its finish was taken back: finish it first.",
    [VULPROW_NOT_LOADED] = "No board was loaded: load one.",
};

/* Explains something to whoever sits there. */
static void explain(const char *words) {
    if (is_watched && words != NULL) {
        fflush(stdout);
        fprintf(stderr, "%s\n", words);
    }
}

/* Prints what a call answered. */
static void tell(uint32_t answer) {
    printf("%" PRIu32 "\n", answer);
    explain(answer < sizeof MEANINGS / sizeof *MEANINGS ? MEANINGS[answer] : NULL);
}

static void tell_other_form(void) {
    printf("%d\n", VULPROW_LAYOUT);
    explain(OTHER_FORM);
}

/* Reads the next line, up to its line feed and no byte further; where the input ends, what there is. */
static void read_line(void) {
    int byte;

    line.length = 0;
    line.is_ended = false;
    while (!line.is_ended && (byte = getc(stdin)) != EOF) {
        if (line.length < sizeof line.bytes) {
            line.bytes[line.length++] = (uint8_t)byte;
        }
        line.is_ended = byte == '\n';
    }
}

/* Whether the line is kept up to its line feed. Then what is taken off it below stops there at the latest. */
static bool is_whole(void) {
    return line.length > 0 && line.bytes[line.length - 1] == '\n';
}

/* Whether a whole line is this letter alone. */
static bool is_letter(uint8_t letter) {
    return line.length == 2 && line.bytes[0] == letter;
}

/* Takes a byte off, and says whether it was there; so do those below with more. */
static bool take(const uint8_t **at, uint8_t byte) {
    if (**at != byte) {
        return false;
    }
    *at += 1;
    return true;
}

/* A comma and a number of one to seven digits, with a 0 in front only where it is alone. */
static bool take_number(const uint8_t **at, uint32_t *number) {
    const uint8_t *from;

    *number = 0;
    if (!take(at, ',')) {
        return false;
    }
    from = *at;
    while (**at >= '0' && **at <= '9' && *at - from < 8) {
        *number = 10 * *number + (uint32_t)(**at - '0');
        *at += 1;
    }
    return *at - from >= 1 && *at - from <= 7 && (*from != '0' || *at - from == 1);
}

/* `,channel,way` as a step. */
static bool take_step(const uint8_t **at, uint8_t *step) {
    uint32_t channel;

    if (!take_number(at, &channel) || !take(at, ',')) {
        return false;
    }
    *step = (uint8_t)(channel < NO_CHANNEL ? channel : NO_CHANNEL);
    if (take(at, 'D')) {
        return true;
    }
    *step += VULPROW_STEP_UP;
    return take(at, 'U');
}

/*
 * How many lines of a board are behind its opening line: as many as its counts say, and none where load refuses that
 * line itself, with 1 or 2, whatever follows. It does where the line is not `B,pools,channels,mills,spring` with its
 * line feed, or a number is outside its range. Which of both it is, load says.
 */
static uint32_t lines_behind(void) {
    const uint8_t *at = line.bytes;
    uint32_t pools, channels, mills, spring;

    if (!is_whole() || !take(&at, 'B') || !take_number(&at, &pools) || !take_number(&at, &channels)
        || !take_number(&at, &mills) || !take_number(&at, &spring) || !take(&at, '\n')) {
        return 0;
    }
    if (pools < 2 || pools > VULPROW_MAX_POOLS || channels < 1 || channels > VULPROW_MAX_CHANNELS || mills < 1
        || mills > VULPROW_MAX_MILLS || spring >= pools) {
        return 0;
    }
    return channels + mills;
}

/*
 * Reads the rest of the board that the line opens, as far as the input goes, and loads it. A line that is too long to
 * be kept whole fills the text.
 */
static uint32_t load_board(void) {
    static uint8_t text[TEXT_KEPT];
    size_t length = 0;
    uint32_t left = lines_behind();

    for (;;) {
        for (size_t i = 0; i < line.length && length < TEXT_KEPT; i++) {
            text[length++] = line.bytes[i];
        }
        if (left == 0 || !line.is_ended) {
            return vulprow_load(&game, text, length);
        }
        read_line();
        left--;
    }
}

/* `K,mill,channel`, from behind its letter on. */
static void carry(const uint8_t *at) {
    uint32_t mill, channel;

    if (take_number(&at, &mill) && take_number(&at, &channel) && take(&at, '\n')) {
        tell(vulprow_carry(&game, mill, channel));
    } else {
        tell_other_form();
    }
}

/* `T,channel,way,..`, from behind its letter on. All its steps go to the call, also where no ring has so many. */
static void turn(const uint8_t *at) {
    static uint8_t steps[STEPS_MOST];
    size_t length = 0;
    bool is_good = true;

    while (is_good && *at == ',') {
        is_good = take_step(&at, &steps[length++]);
    }
    if (is_good && take(&at, '\n')) {
        tell(vulprow_turn(&game, steps, length));
    } else {
        tell_other_form();
    }
}

/* A move as a line that makes it. */
static void print_move(const vulprow_move *move) {
    if (move->kind == VULPROW_NONE) {
        printf("N\n");
    } else if (move->kind == VULPROW_CARRY) {
        printf("K,%" PRIu32 ",%" PRIu32 "\n", move->mill, move->channel);
    } else {
        printf("T");
        for (uint32_t i = 0; i < move->length; i++) {
            bool is_up = move->steps[i] >= VULPROW_STEP_UP;
            printf(",%d,%c", move->steps[i] % VULPROW_STEP_UP, is_up ? 'U' : 'D');
        }
        printf("\n");
    }
}

static void hint(void) {
    vulprow_move move;
    uint32_t answer = vulprow_hint(&game, &move);

    tell(answer);
    if (answer == VULPROW_OK) {
        print_move(&move);
    }
}

static void finish(void) {
    uint32_t moves;

    tell(vulprow_finish(&game, &moves));
}

static void print_sheet(void) {
    static uint8_t sheet[VULPROW_SHEET_MAX];
    size_t length;

    tell(vulprow_sheet(&game, sheet, sizeof sheet, &length));
    fwrite(sheet, 1, length, stdout); /* nothing after a refusal: the length is 0 then */
}

static void print_text(void) {
    static uint8_t text[VULPROW_TEXT_MAX];
    size_t length;

    tell(vulprow_write(&game, text, sizeof text, &length));
    fwrite(text, 1, length, stdout);
}

/* Makes the call that a line asks for. */
static void call(void) {
    const uint8_t *at = line.bytes;

    if (line.length >= 2 && line.bytes[0] == 'B' && line.bytes[1] == ',') {
        tell(load_board());
    } else if (!is_whole()) {
        tell_other_form();
    } else if (take(&at, 'K')) {
        carry(at);
    } else if (take(&at, 'T')) {
        turn(at);
    } else if (is_letter('U')) {
        tell(vulprow_undo(&game));
    } else if (is_letter('H')) {
        hint();
    } else if (is_letter('F')) {
        finish();
    } else if (is_letter('S')) {
        print_sheet();
    } else if (is_letter('W')) {
        print_text();
    } else {
        tell_other_form();
    }
}

int main(void) {
    uint32_t first;

    is_watched = isatty(STDERR_FILENO);
    explain(WELCOME);
    read_line();
    first = load_board();
    if (first != VULPROW_OK) {
        tell(first);
    }
    fflush(stdout);
    while (line.is_ended) {
        read_line();
        if (line.length > 0) {
            call();
            fflush(stdout);
        }
    }
    return 0;
}
