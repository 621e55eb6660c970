/* The small games known by heart, G1 to G12: each by value, in place and as a replay. */
#include "check.h"

/* What a step does: 's' a stone, 'p' a pass, 'b' a resignation that names Black, 'r' a resumption, 'h' a handicap of this one spot, 'H' of this
 * spot and the one to its right. */
typedef struct Step {
    char what;
    uint8_t row, column, answer;
} Step;

enum {
    STEPS = 5
};

typedef struct Known {
    const char *name;
    uint8_t height, width, flags;
    size_t length;
    Step steps[STEPS + 1];
    const char *board;
    uint32_t whites, blacks;
    uint16_t ko;
    size_t records;
    uint8_t turn;
} Known;

#define FOUR "......... ......... ......... ......... "
#define BARE FOUR "......... " FOUR
#define ONE FOUR "....B.... " FOUR
#define NONE SAMTREKHU_NO_POINT

/* Name, height, width, flags, bytes of history; the steps with their numbers; at the end the board, White and Black stones held, the ko point,
 * the records and whose turn it is. */
static const Known games[] = {
    {"G1", 1, 1, 2, 1000, {{'s', 0, 0, 7}}, ".", 0, 0, NONE, 0, 1},
    {"G2", 1, 1, 0, 1000, {{'s', 0, 0, 0}}, ".", 0, 1, NONE, 1, 2},
    {"G3", 1, 1, 4, 1000, {{'s', 0, 0, 9}}, ".", 0, 0, NONE, 0, 1},
    {"G4", 1, 2, 1, 1000, {{'s', 0, 0, 0}, {'s', 0, 1, 0}, {'s', 0, 0, 8}}, ".W", 0, 1, 0, 2, 1},
    {"G5", 1, 2, 8, 1000, {{'s', 0, 0, 0}, {'s', 0, 1, 0}, {'s', 0, 0, 0}, {'s', 0, 1, 8}}, "B.", 1, 1, 1, 3, 2},
    {"G6", 1, 3, 2, 1000, {{'s', 0, 0, 0}, {'p', 0, 0, 0}, {'s', 0, 2, 0}, {'p', 0, 0, 0}, {'s', 0, 1, 7}}, "B.B", 0, 0, NONE, 2, 1},
    {"G7", 1, 3, 0, 1000, {{'s', 0, 0, 0}, {'p', 0, 0, 0}, {'s', 0, 2, 0}, {'p', 0, 0, 0}, {'s', 0, 1, 0}}, "...", 0, 3, NONE, 3, 2},
    {"G8", 1, 3, 1, 1000, {{'s', 0, 0, 0}, {'s', 0, 1, 0}, {'s', 0, 0, 8}}, ".W.", 0, 1, 0, 2, 1},
    {"G9", 1, 3, 3, 1000, {{'s', 0, 0, 0}, {'s', 0, 1, 0}, {'s', 0, 0, 7}}, ".W.", 0, 1, 0, 2, 1},
    {"G10", 1, 2, 0, 1000, {{'H', 0, 0, 13}, {'h', 0, 0, 0}}, "B.", 0, 0, NONE, 0, 2},
    {"G11", 9, 9, 0, 1000, {{'p', 0, 0, 0}, {'p', 0, 0, 0}, {'b', 0, 0, 4}, {'r', 0, 0, 0}, {'s', 4, 4, 0}}, ONE, 0, 0, NONE, 1, 2},
    {"G12", 9, 9, 0, 1000, {{'s', 0, 12, 5}}, BARE, 0, 0, NONE, 0, 1},
    {"G12 with 99 bytes", 9, 9, 0, 99, {{'s', 4, 4, 11}}, BARE, 0, 0, NONE, 0, 1},
    {"G12 with 100 bytes", 9, 9, 0, 100, {{'s', 4, 4, 0}, {'s', 4, 5, 11}}, ONE, 0, 0, NONE, 1, 2},
};

static size_t spots_of(Step step, uint16_t spots[2])
{
    spots[0] = samtrekhu_spot(step.row, step.column);
    spots[1] = samtrekhu_spot(step.row, (uint8_t)(step.column + 1));
    return step.what == 'H' ? 2 : 1;
}

static uint8_t by_value(SamtrekhuGame *game, uint8_t *history, size_t length, Step step)
{
    uint16_t spots[2];
    size_t count = spots_of(step, spots);
    switch (step.what) {
    case 's': return at_stone(game, history, length, step.row, step.column, game);
    case 'p': return at_pass(game, game);
    case 'b': return at_resign(game, SAMTREKHU_BLACK, game);
    case 'r': return at_resume(game, game);
    default: return at_handicap(game, spots, count, game);
    }
}

static uint8_t in_place(SamtrekhuGame *game, uint8_t *history, size_t length, Step step)
{
    uint16_t spots[2];
    size_t count = spots_of(step, spots);
    switch (step.what) {
    case 's': return samtrekhu_stone_in_place(game, history, length, step.row, step.column);
    case 'p': return samtrekhu_pass_in_place(game);
    case 'b': return samtrekhu_resign_in_place(game, SAMTREKHU_BLACK);
    case 'r': return samtrekhu_resume_in_place(game);
    default: return samtrekhu_handicap_in_place(game, spots, count);
    }
}

static SamtrekhuMove move_of(Step step)
{
    SamtrekhuMove move = {SAMTREKHU_KIND_STONE, step.row, step.column};
    switch (step.what) {
    case 'p': move.kind = SAMTREKHU_KIND_PASS; break;
    case 'b': move.kind = SAMTREKHU_KIND_RESIGN_BLACK; break;
    case 'r': move.kind = SAMTREKHU_KIND_RESUME; break;
    default: break;
    }
    return move;
}

/* One entry: its number, and 1 accepted exactly if that is 0. A handicap is no entry, and made by value. */
static uint8_t as_entry(SamtrekhuGame *game, uint8_t *history, size_t length, Step step)
{
    if (step.what == 'h' || step.what == 'H') {
        return by_value(game, history, length, step);
    }
    SamtrekhuMove move = move_of(step);
    SamtrekhuReplayedInPlace got = at_replay(game, history, length, &move, 1, game);
    CHECK(got.entries == (got.answer == 0));
    return got.answer;
}

static uint8_t as_entry_in_place(SamtrekhuGame *game, uint8_t *history, size_t length, Step step)
{
    if (step.what == 'h' || step.what == 'H') {
        return in_place(game, history, length, step);
    }
    SamtrekhuMove move = move_of(step);
    SamtrekhuReplayedInPlace got = samtrekhu_replay_in_place(game, history, length, &move, 1);
    CHECK(got.entries == (got.answer == 0));
    return got.answer;
}

static SamtrekhuGame game, before;

static void ends_as_known(const Known *known)
{
    SamtrekhuFacts facts = at_facts_of(&game);
    bool holds = shows(&game.board, known->board);
    holds = CHECK(facts.answer == 0) && holds;
    holds = CHECK(facts.prisoners.white == known->whites && facts.prisoners.black == known->blacks) && holds;
    holds = CHECK(facts.ko == known->ko && facts.records == known->records && facts.turn == known->turn) && holds;
    if (!CHECK(holds)) {
        printf("  that was %s\n", known->name);
    }
}

typedef uint8_t Way(SamtrekhuGame *game, uint8_t *history, size_t length, Step step);

static void play(const Known *known, Way *way)
{
    Lent history = lend(known->length);
    uint8_t *bytes = malloc(known->length);
    begin(&game, known->height, known->width, known->flags);
    for (const Step *step = known->steps; step->what != 0; step++) {
        before = game;
        memcpy(bytes, history.at, known->length);
        uint8_t number = way(&game, history.at, known->length, *step);
        if (!CHECK(number == step->answer)) {
            printf("  %s, step %d: %d\n", known->name, (int)(step - known->steps), number);
        }
        CHECK(number == 0 || (same_game(&game, &before) && memcmp(bytes, history.at, known->length) == 0));
    }
    ends_as_known(known);
    CHECK(kept_from(&history, game.records * SAMTREKHU_RECORD_BYTES));
    free(bytes);
    give_back(&history);
}

/* All steps as one replay: up to the first that is refused. */
static void replay(const Known *known)
{
    SamtrekhuMove moves[STEPS];
    size_t entries = 0, accepted = 0;
    for (const Step *step = known->steps; step->what != 0; step++) {
        accepted += entries == accepted && step->answer == 0;
        moves[entries++] = move_of(*step);
    }
    uint8_t answer = accepted < entries ? known->steps[accepted].answer : 0;
    Lent history = lend(known->length), again = lend(known->length);
    begin(&before, known->height, known->width, known->flags);
    SamtrekhuReplayedInPlace got = at_replay(&before, history.at, known->length, moves, entries, &game);
    CHECK(got.entries == accepted && got.answer == answer);
    got = samtrekhu_replay_in_place(&before, again.at, known->length, moves, entries);
    CHECK(got.entries == accepted && got.answer == answer);
    CHECK(alike(&before, &game) && memcmp(history.at, again.at, known->length) == 0);
    if (accepted + 1 >= entries) {
        ends_as_known(known);
    }
    give_back(&history);
    give_back(&again);
}

void small_games(void)
{
    for (size_t i = 0; i < sizeof games / sizeof games[0]; i++) {
        play(&games[i], by_value);
        play(&games[i], in_place);
        play(&games[i], as_entry);
        play(&games[i], as_entry_in_place);
        if (games[i].steps[0].what != 'H') {
            replay(&games[i]);
        }
    }
    /* the picture of 1 x 2 with Black at (0,0), whole */
    static SamtrekhuBoard board;
    static const uint8_t picture[] = {0xE2, 0x97, 0x8F, 0xE2, 0x94, 0x93, 0x0A};
    uint8_t got[7];
    lay(&board, 1, 2, "B.");
    SamtrekhuListed drawn = at_pretty_string(&board, got, sizeof got);
    CHECK(drawn.number == 0 && drawn.count == 7 && memcmp(got, picture, 7) == 0);
}
