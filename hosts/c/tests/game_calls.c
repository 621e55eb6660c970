/* Every call on a game: what it answers, in which order its refusals come, and what it leaves. */
#include "check.h"

static SamtrekhuGame game, before, after, fresh;
enum {
    LENGTH = 10 * SAMTREKHU_RECORD_BYTES
};
static uint8_t history[LENGTH], kept[LENGTH];

/* Remembers the state and the bytes, for `untouched`. */
static void remember(void)
{
    before = game;
    memcpy(kept, history, LENGTH);
}

static bool untouched(void) { return same_game(&game, &before) && memcmp(kept, history, LENGTH) == 0; }

static uint8_t play(uint8_t row, uint8_t column) { return meet(samtrekhu_stone_in_place(&game, history, LENGTH, row, column)); }

static void new_games(void)
{
    static const uint8_t numbers[] = {0, 1, 2, 15, 16, 19, 20, 255};
    begin(&fresh, 1, 1, 0);
    for (size_t i = 0; i < 8; i++) {
        for (size_t j = 0; j < 8; j++) {
            for (size_t k = 0; k < 8; k++) {
                uint8_t height = numbers[i], width = numbers[j], flags = numbers[k];
                bool size = 1 <= height && height <= 19 && 1 <= width && width <= 19;
                uint8_t answer = !size ? SAMTREKHU_BAD_SIZE : flags > 15 ? SAMTREKHU_BAD_FLAGS : SAMTREKHU_ACCEPTED;
                CHECK(at_new_game(&game, height, width, flags) == answer);
                CHECK(at_is_true_game(&game) && at_is_true_game_with(&game, 0));
                SamtrekhuFacts facts = at_facts_of(&game);
                CHECK(answer != 0 ? alike(&game, &fresh) : facts.height == height && facts.width == width && facts.flags == flags);
                CHECK(facts.turn == SAMTREKHU_BLACK && facts.passes == 0 && facts.outcome == 0 && !facts.over && facts.records == 0);
                CHECK(facts.ko == SAMTREKHU_NO_POINT && facts.handicap == 0 && facts.accepted == 0);
                CHECK(facts.prisoners.black == 0 && facts.prisoners.white == 0);
            }
        }
    }
}

/* A handicap that is refused, by value and in place. */
static void handicap_refused(const uint16_t *spots, size_t count, uint8_t answer)
{
    remember();
    CHECK(at_handicap(&game, spots, count, &after) == answer && same_game(&after, &before));
    CHECK(samtrekhu_handicap_in_place(&game, spots, count) == answer && untouched());
}

static void handicaps(void)
{
    const uint16_t off_then_twice[] = {samtrekhu_spot(0, 0), samtrekhu_spot(3, 0), samtrekhu_spot(0, 0)};
    const uint16_t twice_then_off[] = {samtrekhu_spot(0, 0), samtrekhu_spot(0, 0), samtrekhu_spot(0, 3)};
    const uint16_t far[] = {0xFFFF}, two[] = {samtrekhu_spot(2, 1), samtrekhu_spot(0, 2)};
    begin(&game, 3, 3, 15);
    handicap_refused(off_then_twice, 3, SAMTREKHU_OFF_BOARD);
    handicap_refused(twice_then_off, 3, SAMTREKHU_POINT_NOT_EMPTY);
    handicap_refused(twice_then_off, 2, SAMTREKHU_POINT_NOT_EMPTY);
    handicap_refused(far, 1, SAMTREKHU_OFF_BOARD);
    uint16_t all[9];
    for (uint8_t p = 0; p < 9; p++) {
        all[p] = samtrekhu_spot(p / 3, p % 3);
    }
    handicap_refused(all, 9, SAMTREKHU_NO_LIBERTY);
    /* a resumption does not begin a game; a handicap does, also an empty one */
    CHECK(samtrekhu_resume_in_place(&game) == SAMTREKHU_ACCEPTED);
    CHECK(at_handicap(&game, two, 2, &after) == SAMTREKHU_ACCEPTED);
    CHECK(samtrekhu_handicap_in_place(&game, two, 2) == SAMTREKHU_ACCEPTED && alike(&game, &after));
    SamtrekhuFacts facts = at_facts_of(&game);
    CHECK(facts.turn == SAMTREKHU_WHITE && facts.handicap == 2 && facts.accepted == 0 && shows(&game.board, "..B ... .B."));
    handicap_refused(two, 2, SAMTREKHU_NOT_AT_START);
    handicap_refused(off_then_twice, 3, SAMTREKHU_NOT_AT_START);
    begin(&game, 3, 3, 0);
    CHECK(at_handicap(&game, all, 8, &after) == SAMTREKHU_ACCEPTED && shows(&after.board, "BBB BBB BB."));
    CHECK(at_handicap(&game, NULL, 0, &after) == SAMTREKHU_ACCEPTED && at_facts_of(&after).turn == SAMTREKHU_WHITE);
    CHECK(samtrekhu_handicap_in_place(&game, NULL, 0) == SAMTREKHU_ACCEPTED && alike(&game, &after));
    handicap_refused(NULL, 0, SAMTREKHU_NOT_AT_START);
    /* what else begins a game */
    begin(&game, 3, 3, 0);
    CHECK(play(1, 1) == SAMTREKHU_ACCEPTED);
    handicap_refused(two, 2, SAMTREKHU_NOT_AT_START);
    begin(&game, 3, 3, 0);
    CHECK(samtrekhu_pass_in_place(&game) == SAMTREKHU_ACCEPTED);
    handicap_refused(two, 2, SAMTREKHU_NOT_AT_START);
    begin(&game, 3, 3, 0);
    CHECK(samtrekhu_resign_in_place(&game, SAMTREKHU_BLACK) == SAMTREKHU_ACCEPTED);
    handicap_refused(two, 2, SAMTREKHU_NOT_AT_START);
}

/* A stone that is refused, by value, in place, and as an entry of both replays. */
static void stone_refused(size_t length, uint8_t row, uint8_t column, uint8_t answer)
{
    SamtrekhuMove move = {SAMTREKHU_KIND_STONE, row, column};
    remember();
    CHECK(at_stone(&game, history, length, row, column, &after) == answer && same_game(&after, &before) && untouched());
    CHECK(samtrekhu_stone_in_place(&game, history, length, row, column) == answer && untouched());
    SamtrekhuReplayedInPlace got = at_replay(&game, history, length, &move, 1, &after);
    CHECK(got.entries == 0 && got.answer == answer && same_game(&after, &before) && untouched());
    got = samtrekhu_replay_in_place(&game, history, length, &move, 1);
    CHECK(got.entries == 0 && got.answer == answer && untouched());
}

static void stones(void)
{
    begin(&game, 3, 3, 0);
    stone_refused(LENGTH, 3, 0, SAMTREKHU_OFF_BOARD);
    stone_refused(LENGTH, 0, 3, SAMTREKHU_OFF_BOARD);
    stone_refused(LENGTH, 255, 255, SAMTREKHU_OFF_BOARD);
    stone_refused(0, 3, 0, SAMTREKHU_OFF_BOARD);
    stone_refused(0, 0, 0, SAMTREKHU_HISTORY_FULL);
    remember();
    CHECK(meet(samtrekhu_stone_in_place(&game, NULL, 0, 0, 0)) == SAMTREKHU_HISTORY_FULL && untouched());
    CHECK(at_stone(&game, NULL, 0, 0, 0, &after) == SAMTREKHU_HISTORY_FULL && same_game(&after, &game));
    CHECK(at_stone(&game, history, LENGTH, 1, 1, &after) == SAMTREKHU_ACCEPTED);
    CHECK(play(1, 1) == SAMTREKHU_ACCEPTED && alike(&game, &after) && shows(&game.board, "... .B. ..."));
    CHECK(at_facts_of(&game).turn == SAMTREKHU_WHITE && at_facts_of(&game).accepted == 1 && at_facts_of(&game).records == 1);
    stone_refused(LENGTH, 1, 1, SAMTREKHU_POINT_NOT_EMPTY);
    /* one record is counted, and 99 bytes have no room for it */
    stone_refused(99, 0, 0, SAMTREKHU_DAMAGED);
    stone_refused(100, 1, 1, SAMTREKHU_POINT_NOT_EMPTY);
    stone_refused(100, 0, 0, SAMTREKHU_HISTORY_FULL);
    CHECK(samtrekhu_pass_in_place(&game) == 0 && samtrekhu_pass_in_place(&game) == 0);
    stone_refused(99, 3, 3, SAMTREKHU_DAMAGED);
    stone_refused(LENGTH, 3, 3, SAMTREKHU_GAME_PAUSED);
    stone_refused(LENGTH, 1, 1, SAMTREKHU_GAME_PAUSED);
    /* the check of a point asks for no pause, nor for room */
    CHECK(at_check_point(&game, history, 100, 0, 0) == SAMTREKHU_ACCEPTED);
    CHECK(at_check_point(&game, history, 99, 0, 0) == SAMTREKHU_DAMAGED);
    CHECK(at_check_point(&game, history, LENGTH, 1, 1) == SAMTREKHU_POINT_NOT_EMPTY);
    CHECK(at_check_point(&game, history, LENGTH, 3, 1) == SAMTREKHU_OFF_BOARD);
    CHECK(at_check_point_by(&game, history, LENGTH, 16, 3, 1) == SAMTREKHU_BAD_FLAGS);
    CHECK(at_check_point_by(&game, history, 99, 16, 3, 1) == SAMTREKHU_DAMAGED);
    CHECK(at_check_point_by(&game, history, LENGTH, 15, 3, 1) == SAMTREKHU_OFF_BOARD);
}

static void passes(void)
{
    begin(&game, 1, 2, SAMTREKHU_FORBID_KO);
    CHECK(play(0, 0) == 0 && play(0, 1) == 0 && at_facts_of(&game).ko == 0);
    stone_refused(LENGTH, 0, 0, SAMTREKHU_KO);
    CHECK(at_pass(&game, &after) == SAMTREKHU_ACCEPTED);
    CHECK(samtrekhu_pass_in_place(&game) == SAMTREKHU_ACCEPTED && alike(&game, &after));
    SamtrekhuFacts facts = at_facts_of(&game);
    CHECK(facts.ko == SAMTREKHU_NO_POINT && facts.turn == SAMTREKHU_WHITE && facts.passes == 1 && facts.records == 2 && !facts.over);
    CHECK(at_resign(&game, SAMTREKHU_WHITE, &after) == 0 && at_facts_of(&after).over && at_facts_of(&after).passes == 1);
    CHECK(at_pass(&game, &game) == 0 && at_facts_of(&game).over && at_facts_of(&game).outcome == 0);
    remember();
    CHECK(at_pass(&game, &after) == SAMTREKHU_GAME_PAUSED && same_game(&after, &before));
    CHECK(meet(samtrekhu_pass_in_place(&game)) == SAMTREKHU_GAME_PAUSED && untouched());
    CHECK(at_resign(&game, SAMTREKHU_WHITE, &after) == SAMTREKHU_GAME_PAUSED && same_game(&after, &before));
    CHECK(meet(samtrekhu_resign_in_place(&game, SAMTREKHU_WHITE)) == SAMTREKHU_GAME_PAUSED && untouched());
    CHECK(at_resume(&game, &after) == 0 && at_facts_of(&after).passes == 0 && !at_facts_of(&after).over);
    CHECK(samtrekhu_resume_in_place(&game) == 0 && alike(&game, &after));
    /* a stone sets the passes to 0 */
    CHECK(samtrekhu_pass_in_place(&game) == 0 && play(0, 0) == 0 && at_facts_of(&game).passes == 0);
}

/* Every byte names a player, or none. */
static void every_byte(void)
{
    for (unsigned byte = 0; byte < 256; byte++) {
        uint8_t named = byte == 2 ? SAMTREKHU_WHITE : SAMTREKHU_BLACK;
        begin(&game, 2, 2, 0);
        CHECK(at_resign(&game, (uint8_t)byte, &after) == 0 && at_facts_of(&after).outcome == named);
        CHECK(samtrekhu_resign_in_place(&game, (uint8_t)byte) == 0 && alike(&game, &after));
        CHECK(at_facts_of(&game).turn == SAMTREKHU_BLACK && at_facts_of(&game).over);
        game.outcome = (uint8_t)byte;
        CHECK(at_facts_of(&game).outcome == (byte == 1 || byte == 2 ? byte : 0));
        begin(&game, 2, 2, 0);
        game.turn = (uint8_t)byte;
        CHECK(at_facts_of(&game).turn == named && play(0, 0) == 0 && shows(&game.board, byte == 2 ? "W. .." : "B. .."));
        begin(&game, 2, 2, 0);
        game.begun = (uint8_t)byte;
        CHECK(at_handicap(&game, NULL, 0, &after) == (byte == 0 ? SAMTREKHU_ACCEPTED : SAMTREKHU_NOT_AT_START));
    }
}

static bool says(SamtrekhuTestAnswer got, bool holds) { return got.answer == SAMTREKHU_ACCEPTED && got.holds == holds; }

static bool refuses(SamtrekhuTestAnswer got, uint8_t answer) { return got.answer == answer && !got.holds; }

static void tests(void)
{
    begin(&game, 1, 1, 0);
    CHECK(says(at_is_suicide_at(&game, 0, 0), true) && says(at_is_eye_at(&game, 0, 0), true));
    CHECK(says(at_is_ko_at(&game, 0, 0), false) && says(at_will_capture(&game, 0, 0), false));
    CHECK(says(at_is_superko_at(&game, NULL, 0, 0, 0), false));
    CHECK(at_check_point_by(&game, NULL, 0, 2, 0, 0) == SAMTREKHU_SUICIDE
          && at_check_point_by(&game, NULL, 0, 4, 0, 0) == SAMTREKHU_FILL_EYE);
    CHECK(at_check_point_by(&game, NULL, 0, 15, 0, 0) == SAMTREKHU_SUICIDE && at_check_point(&game, NULL, 0, 0, 0) == SAMTREKHU_ACCEPTED);
    begin(&game, 1, 2, 0);
    CHECK(play(0, 0) == 0 && play(0, 1) == 0);
    CHECK(says(at_is_ko_at(&game, 0, 0), true) && says(at_will_capture(&game, 0, 0), true) && says(at_is_suicide_at(&game, 0, 0), false));
    /* where a stone stands, no; and two records are too few for superko */
    CHECK(says(at_is_ko_at(&game, 0, 1), false) && says(at_will_capture(&game, 0, 1), false));
    CHECK(says(at_is_superko_at(&game, history, LENGTH, 0, 0), false));
    CHECK(at_check_point_by(&game, history, LENGTH, 1, 0, 0) == SAMTREKHU_KO && at_check_point_by(&game, history, LENGTH, 8, 0, 0) == 0);
    CHECK(play(0, 0) == 0);
    CHECK(says(at_is_superko_at(&game, history, LENGTH, 0, 1), true)
          && at_check_point_by(&game, history, LENGTH, 8, 0, 1) == SAMTREKHU_SUPER_KO);
    CHECK(says(at_is_superko_at(&game, history, LENGTH, 0, 0), false) && says(at_is_eye_at(&game, 0, 1), false));
    CHECK(refuses(at_is_superko_at(&game, history, 299, 0, 1), SAMTREKHU_DAMAGED));
    static TestAt *const asked[] = {at_will_capture, at_is_suicide_at, at_is_ko_at, at_is_eye_at};
    for (size_t i = 0; i < 4; i++) {
        CHECK(refuses(asked[i](&game, 1, 0), SAMTREKHU_OFF_BOARD) && refuses(asked[i](&game, 0, 2), SAMTREKHU_OFF_BOARD));
        CHECK(refuses(asked[i](&game, 255, 255), SAMTREKHU_OFF_BOARD));
    }
    CHECK(refuses(at_is_superko_at(&game, history, LENGTH, 0, 2), SAMTREKHU_OFF_BOARD));
}

static void lists(void)
{
    uint16_t points[3];
    begin(&game, 1, 3, SAMTREKHU_FORBID_SUICIDE);
    CHECK(play(0, 0) == 0 && samtrekhu_pass_in_place(&game) == 0 && play(0, 2) == 0);
    SamtrekhuListed got = at_empty_points(&game, points, 3);
    CHECK(got.number == 0 && got.count == 1 && points[0] == 1);
    got = at_legals(&game, history, LENGTH, points, 3); /* White takes both */
    CHECK(got.number == 0 && got.count == 1 && points[0] == 1);
    CHECK(samtrekhu_pass_in_place(&game) == 0);
    CHECK(at_legals(&game, history, LENGTH, points, 3).count == 0); /* Black would fill its last liberty */
    got = at_legals_by(&game, history, LENGTH, 0, points, 3);
    CHECK(got.number == 0 && got.count == 1 && points[0] == 1);
    static SamtrekhuBoard board;
    CHECK(at_board_of(&game, &board) == 0 && same_board(&board, &game.board));
}

static void replays(void)
{
    const SamtrekhuMove moves[] = {
        {SAMTREKHU_KIND_STONE, 1, 1},    {SAMTREKHU_KIND_RESIGN_BLACK, 99, 99}, {SAMTREKHU_KIND_PASS, 99, 99}, {SAMTREKHU_KIND_PASS, 0, 0},
        {SAMTREKHU_KIND_RESUME, 99, 99}, {SAMTREKHU_KIND_RESIGN_WHITE, 0, 0},   {SAMTREKHU_KIND_STONE, 0, 0},  {5, 0, 0},
    };
    begin(&game, 3, 3, 0);
    remember();
    SamtrekhuReplayedInPlace got = at_replay(&game, history, LENGTH, NULL, 0, &after);
    CHECK(got.entries == 0 && got.answer == 0 && same_game(&after, &before) && untouched());
    got = samtrekhu_replay_in_place(&game, NULL, 0, NULL, 0);
    CHECK(got.entries == 0 && got.answer == 0 && untouched());
    got = at_replay(&game, history, LENGTH, moves, 8, &after);
    CHECK(got.entries == 7 && got.answer == SAMTREKHU_BAD_KIND && shows(&after.board, "W.. .B. ..."));
    memcpy(kept, history, LENGTH);
    got = samtrekhu_replay_in_place(&game, history, LENGTH, moves, 8);
    CHECK(got.entries == 7 && got.answer == SAMTREKHU_BAD_KIND && alike(&game, &after) && memcmp(kept, history, LENGTH) == 0);
    CHECK(at_facts_of(&game).outcome == SAMTREKHU_WHITE && at_facts_of(&game).records == 2);
    /* the kind comes before the pause */
    CHECK(samtrekhu_pass_in_place(&game) == 0 && samtrekhu_pass_in_place(&game) == 0);
    for (unsigned kind = 5; kind < 256; kind += 50) {
        SamtrekhuMove unknown = {(uint8_t)kind, 0, 0};
        remember();
        got = samtrekhu_replay_in_place(&game, history, LENGTH, &unknown, 1);
        CHECK(got.entries == 0 && got.answer == SAMTREKHU_BAD_KIND && untouched());
    }
    got = samtrekhu_replay_in_place(&game, history, 199, moves, 8);
    CHECK(got.entries == 0 && got.answer == SAMTREKHU_DAMAGED && untouched());
    got = samtrekhu_replay_in_place(&game, history, LENGTH, moves, 8);
    CHECK(got.entries == 0 && got.answer == SAMTREKHU_GAME_PAUSED && untouched());
}

/* A game of 65,535 stones takes no other: on 1 x 2 each takes the one before. */
static void limit(void)
{
    enum {
        STONES = SAMTREKHU_MAX_STONES + 1
    };
    SamtrekhuMove *moves = malloc(STONES * sizeof *moves);
    for (size_t i = 0; i < STONES; i++) {
        SamtrekhuMove move = {SAMTREKHU_KIND_STONE, 0, (uint8_t)(i % 2)};
        moves[i] = move;
    }
    begin(&game, 1, 2, 0);
    SamtrekhuReplayedInPlace got = samtrekhu_replay_in_place(&game, history, LENGTH, moves, STONES);
    CHECK(got.entries == SAMTREKHU_MAX_STONES && meet(got.answer) == SAMTREKHU_MOVE_LIMIT);
    free(moves);
    SamtrekhuFacts facts = at_facts_of(&game);
    CHECK(facts.accepted == SAMTREKHU_MAX_STONES && facts.records == 3 && shows(&game.board, "B."));
    CHECK(facts.prisoners.black == 32767 && facts.prisoners.white == 32767);
    stone_refused(LENGTH, 0, 1, SAMTREKHU_MOVE_LIMIT);
    stone_refused(LENGTH, 0, 0, SAMTREKHU_POINT_NOT_EMPTY);
    CHECK(at_check_point(&game, history, LENGTH, 0, 1) == SAMTREKHU_ACCEPTED);
    /* the limit comes before the room */
    begin(&game, 1, 2, 0);
    game.begun = 1;
    game.accepted = SAMTREKHU_MAX_STONES;
    game.put.black = game.held.black = SAMTREKHU_MAX_STONES;
    CHECK(at_is_true_game(&game));
    stone_refused(0, 0, 0, SAMTREKHU_MOVE_LIMIT);
}

static void words(void)
{
    CHECK(strcmp(samtrekhu_name(SAMTREKHU_SUICIDE), "Suicide") == 0 && strcmp(samtrekhu_name(16), "Unknown") == 0);
    for (unsigned number = 0; number < 256; number++) {
        bool known = number <= 15 || number == 18;
        CHECK((strcmp(samtrekhu_name((uint8_t)number), "Unknown") != 0) == known);
        CHECK((strcmp(samtrekhu_sentence((uint8_t)number), samtrekhu_sentence(255)) != 0) == known);
    }
    CHECK(samtrekhu_spot(18, 7) == 18 * 256 + 7);
}

void game_calls(void)
{
    new_games();
    handicaps();
    stones();
    passes();
    every_byte();
    tests();
    lists();
    replays();
    limit();
    words();
}
