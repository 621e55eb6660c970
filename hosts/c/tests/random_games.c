/* Games by chance: what is accepted is what the lists and the checks say, and by value, in place and by replay the same happens. */
#include "check.h"

enum {
    LENGTH = 700 * SAMTREKHU_RECORD_BYTES,
    MOVES = 900
};
static uint8_t history[LENGTH], other[LENGTH];
static SamtrekhuGame game, before, after;
static SamtrekhuMove moves[MOVES];
static size_t accepted;

/* Tries a move by value and in place. */
static void try_move(SamtrekhuMove move)
{
    uint8_t number;
    before = game;
    memcpy(other, history, LENGTH);
    switch (move.kind) {
    case SAMTREKHU_KIND_STONE:
        number = at_stone(&game, other, LENGTH, move.row, move.column, &after);
        CHECK(meet(samtrekhu_stone_in_place(&game, history, LENGTH, move.row, move.column)) == number);
        break;
    case SAMTREKHU_KIND_PASS:
        number = at_pass(&game, &after);
        CHECK(samtrekhu_pass_in_place(&game) == number);
        break;
    case SAMTREKHU_KIND_RESUME:
        number = at_resume(&game, &after);
        CHECK(samtrekhu_resume_in_place(&game) == number);
        break;
    default:
        number = at_resign(&game, (uint8_t)(move.kind - 1), &after);
        CHECK(samtrekhu_resign_in_place(&game, (uint8_t)(move.kind - 1)) == number);
        break;
    }
    CHECK(memcmp(other, history, LENGTH) == 0 && alike(&game, &after));
    CHECK(number == 0 || same_game(&game, &before));
    if (number == 0) {
        moves[accepted++] = move;
    }
}

/* What the check answers, by the tests one by one. */
static uint8_t by_tests(uint8_t flags, bool empty, bool suicide, bool ko, bool eye, bool superko)
{
    if (!empty) {
        return SAMTREKHU_POINT_NOT_EMPTY;
    }
    if (suicide && (flags & SAMTREKHU_FORBID_SUICIDE)) {
        return SAMTREKHU_SUICIDE;
    }
    if (ko && (flags & SAMTREKHU_FORBID_KO)) {
        return SAMTREKHU_KO;
    }
    if (eye && (flags & SAMTREKHU_FORBID_FILL_EYE)) {
        return SAMTREKHU_FILL_EYE;
    }
    if (superko && (flags & SAMTREKHU_FORBID_SUPER_KO)) {
        return SAMTREKHU_SUPER_KO;
    }
    return SAMTREKHU_ACCEPTED;
}

/* The legal points are those that the check accepts, and a stone is refused as the check says. */
static void look(uint8_t height, uint8_t width, uint8_t flags, uint32_t *seed)
{
    uint16_t points[SAMTREKHU_MAX_AREA];
    SamtrekhuListed legal = at_legals_by(&game, history, LENGTH, flags, points, SAMTREKHU_MAX_AREA);
    CHECK(legal.number == 0);
    size_t area = (size_t)height * width;
    for (unsigned i = 0; i < 6; i++) {
        uint16_t p = (uint16_t)chance(seed, (uint32_t)area);
        uint8_t row = (uint8_t)(p / width), column = (uint8_t)(p % width);
        uint8_t number = at_check_point_by(&game, history, LENGTH, flags, row, column);
        bool listed = false;
        for (size_t k = 0; k < legal.count; k++) {
            listed = listed || points[k] == p;
        }
        CHECK(listed == (number == 0));
        CHECK(at_check_point(&game, history, LENGTH, row, column) == at_check_point_by(&game, history, LENGTH, game.flags, row, column));
        bool empty = at_get_color(&game.board, row, column).colour == SAMTREKHU_EMPTY;
        CHECK(empty == (number != SAMTREKHU_POINT_NOT_EMPTY));
        bool suicide = at_is_suicide_at(&game, row, column).holds, ko = at_is_ko_at(&game, row, column).holds;
        bool eye = at_is_eye_at(&game, row, column).holds, superko = at_is_superko_at(&game, history, LENGTH, row, column).holds;
        CHECK(number == by_tests(flags, empty, suicide, ko, eye, superko));
        CHECK(!at_will_capture(&game, row, column).holds || !suicide);
    }
}

static void play(uint8_t height, uint8_t width, uint8_t flags, unsigned tries, uint32_t seed)
{
    begin(&game, height, width, flags);
    accepted = 0;
    for (unsigned i = 0; i < tries; i++) {
        uint32_t what = chance(&seed, 100);
        uint8_t row = (uint8_t)chance(&seed, height), column = (uint8_t)chance(&seed, width);
        SamtrekhuMove move = {SAMTREKHU_KIND_STONE, row, column};
        if (what == 0) {
            move.row = (uint8_t)chance(&seed, 256);
        } else if (what <= 4) {
            move.kind = (uint8_t)what;
        }
        if (game.passes == 2) {
            move.kind = SAMTREKHU_KIND_RESUME;
        }
        try_move(move);
        CHECK(at_is_true_game_with(&game, LENGTH));
        if (i % 16 == 0) {
            look(height, width, (uint8_t)chance(&seed, 16), &seed);
        }
    }
    /* all that was accepted, once more from the start */
    begin(&before, height, width, flags);
    memset(other, 0, LENGTH);
    SamtrekhuReplayedInPlace got = at_replay(&before, other, LENGTH, moves, accepted, &after);
    CHECK(got.entries == accepted && got.answer == 0 && alike(&after, &game));
    CHECK(memcmp(other, history, game.records * SAMTREKHU_RECORD_BYTES) == 0);
    memset(other, 0, LENGTH);
    got = samtrekhu_replay_in_place(&before, other, LENGTH, moves, accepted);
    CHECK(got.entries == accepted && got.answer == 0 && alike(&before, &game));
    CHECK(memcmp(other, history, game.records * SAMTREKHU_RECORD_BYTES) == 0);
}

void random_games(void)
{
    for (uint8_t flags = 0; flags < 16; flags++) {
        play(5, 5, flags, 160, 7u + flags);
        play(1, 7, flags, 90, 77u + flags);
    }
    play(9, 9, 11, 400, 1234);
    play(13, 6, 15, 300, 4321);
    play(19, 19, 0, 500, 99);
    play(19, 19, 11, 700, 5);
    play(19, 19, 15, MOVES, 6);
}
