/* States that are not true: every call answers 3, exactly if the judge says no, and changes nothing. */
#include "check.h"

enum {
    LENGTH = 20 * SAMTREKHU_RECORD_BYTES
};
static uint8_t history[LENGTH];
static SamtrekhuGame played, game, before, after;
static SamtrekhuBoard board, single;

static uint8_t numbers[64];
static size_t asked;

static void note(uint8_t number) { numbers[asked++] = number; }

/* Every question on the board: its number is 3 exactly if the board is not true, and then it tells nothing. */
static void ask_board(bool is_true)
{
    Lent lent = lend(2 * SAMTREKHU_MAX_AREA), drawn = lend(SAMTREKHU_PICTURE_BYTES);
    uint16_t *buffer = (uint16_t *)(void *)lent.at;
    asked = 0;
    SamtrekhuSizeAnswer size = at_size(&board);
    note(size.answer);
    SamtrekhuHashAnswer hash = at_zobrist_hash(&board);
    note(hash.answer);
    SamtrekhuStonesAnswer stones = at_number_of_stones(&board);
    note(stones.answer);
    SamtrekhuChainsAnswer chains = at_number_of_chains(&board);
    note(chains.answer);
    SamtrekhuColourAnswer colour = at_get_color(&board, 0, 0);
    note(colour.answer);
    SamtrekhuTestAnswer breathes = at_has_liberties(&board, 0, 0);
    note(breathes.answer);
    SamtrekhuChainAnswer chain = at_chain_at(&board, 0, 0);
    note(chain.answer);
    SamtrekhuTestAnswer liberty = at_contains_liberty(&board, 0, 0, 0, 0);
    note(liberty.answer);
    if (!is_true) {
        CHECK(size.height == 0 && size.width == 0 && hash.hash == 0 && stones.black == 0 && stones.white == 0 && chains.chains == 0);
        CHECK(colour.colour == 0 && !breathes.holds && !liberty.holds);
        CHECK(!chain.present && chain.colour == 0 && chain.stones == 0 && chain.liberties == 0 && !chain.atari && chain.origin == 0);
    }
    static ListAt *const calls[] = {at_chain_stones,         at_chain_liberties, at_get_connected_points,
                                    at_get_connected_stones, at_get_liberties,   at_get_connected_groups};
    size_t count = 0;
    for (size_t i = 0; i < sizeof calls / sizeof calls[0]; i++) {
        SamtrekhuListed got = calls[i](&board, 0, 0, buffer, SAMTREKHU_MAX_AREA);
        note(got.number);
        count += got.count;
    }
    SamtrekhuListed lists[] = {
        at_get_stones(&board, buffer, SAMTREKHU_MAX_AREA),           at_get_coords_by_color(&board, 1, buffer, SAMTREKHU_MAX_AREA),
        at_get_empty_coords(&board, buffer, SAMTREKHU_MAX_AREA),     at_to_vec(&board, drawn.at, SAMTREKHU_PICTURE_BYTES),
        at_pretty_string(&board, drawn.at, SAMTREKHU_PICTURE_BYTES),
    };
    for (size_t i = 0; i < sizeof lists / sizeof lists[0]; i++) {
        note(lists[i].number);
        count += lists[i].count;
    }
    CHECK(is_true || (count == 0 && kept_from(&lent, 0) && kept_from(&drawn, 0)));
    for (size_t i = 0; i < asked; i++) {
        CHECK(numbers[i] == (is_true ? SAMTREKHU_ACCEPTED : SAMTREKHU_DAMAGED));
    }
    give_back(&lent);
    give_back(&drawn);
}

static bool same_after(uint8_t number)
{
    note(number);
    return same_game(&after, &before);
}

static bool same_in_place(uint8_t number)
{
    note(number);
    return same_game(&game, &before);
}

/* Every call on a game that is not true, or has no room for its records in a history of this length: 3, and all as it was. */
static void refuse_all(size_t length)
{
    static const SamtrekhuMove moves[] = {{SAMTREKHU_KIND_PASS, 0, 0}, {9, 9, 9}};
    static const uint16_t spots[] = {0};
    static uint8_t kept[LENGTH];
    bool alone = at_is_true_game(&game);
    memcpy(kept, history, LENGTH);
    before = game;
    asked = 0;
    CHECK(same_after(at_stone(&game, history, length, 0, 0, &after)));
    CHECK(same_in_place(samtrekhu_stone_in_place(&game, history, length, 0, 0)));
    CHECK(same_after(at_replay(&game, history, length, moves, 2, &after).answer));
    CHECK(same_in_place(samtrekhu_replay_in_place(&game, history, length, moves, 2).answer));
    CHECK(at_replay(&game, history, length, moves, 0, &after).answer == SAMTREKHU_DAMAGED);
    note(at_check_point(&game, history, length, 0, 0));
    note(at_check_point_by(&game, history, length, 255, 0, 0));
    SamtrekhuTestAnswer superko = at_is_superko_at(&game, history, length, 0, 0);
    note(superko.answer);
    CHECK(!superko.holds);
    Lent lent = lend(2 * SAMTREKHU_MAX_AREA);
    uint16_t *buffer = (uint16_t *)(void *)lent.at;
    SamtrekhuListed legal = at_legals(&game, history, length, buffer, SAMTREKHU_MAX_AREA);
    note(legal.number);
    SamtrekhuListed legal_by = at_legals_by(&game, history, length, 255, buffer, SAMTREKHU_MAX_AREA);
    note(legal_by.number);
    CHECK(legal.count == 0 && legal_by.count == 0);
    if (!alone) {
        CHECK(same_after(at_pass(&game, &after)) && same_in_place(samtrekhu_pass_in_place(&game)));
        CHECK(same_after(at_resign(&game, 1, &after)) && same_in_place(samtrekhu_resign_in_place(&game, 1)));
        CHECK(same_after(at_resume(&game, &after)) && same_in_place(samtrekhu_resume_in_place(&game)));
        CHECK(same_after(at_handicap(&game, spots, 1, &after)) && same_in_place(samtrekhu_handicap_in_place(&game, spots, 1)));
        static TestAt *const tests[] = {at_will_capture, at_is_suicide_at, at_is_ko_at, at_is_eye_at};
        for (size_t i = 0; i < 4; i++) {
            SamtrekhuTestAnswer test = tests[i](&game, 0, 0);
            note(test.answer);
            CHECK(!test.holds);
        }
        SamtrekhuListed empty = at_empty_points(&game, buffer, SAMTREKHU_MAX_AREA);
        note(empty.number);
        CHECK(empty.count == 0);
        SamtrekhuFacts facts = at_facts_of(&game);
        note(facts.answer);
        CHECK(facts.height == 0 && facts.width == 0 && facts.flags == 0 && facts.turn == 0 && facts.passes == 0 && facts.outcome == 0);
        CHECK(!facts.over && facts.ko == SAMTREKHU_NO_POINT && facts.handicap == 0 && facts.accepted == 0 && facts.records == 0);
        CHECK(facts.prisoners.black == 0 && facts.prisoners.white == 0);
        note(at_board_of(&game, &board));
        CHECK(same_board(&board, &single));
    }
    for (size_t i = 0; i < asked; i++) {
        CHECK(numbers[i] == SAMTREKHU_DAMAGED);
    }
    CHECK(kept_from(&lent, 0) && memcmp(kept, history, LENGTH) == 0);
    give_back(&lent);
}

/* A state of whatever bytes: refused everywhere if it is not true, and otherwise taken as one. */
static void judge(void)
{
    board = game.board;
    bool true_board = at_is_true_board(&board), true_game = at_is_true_game(&game);
    CHECK(true_board || !true_game);
    ask_board(true_board);
    bool with = at_is_true_game_with(&game, LENGTH);
    CHECK(with == (true_game && game.records <= LENGTH / SAMTREKHU_RECORD_BYTES));
    if (!with) {
        refuse_all(LENGTH);
    }
    if (true_game) {
        CHECK(at_facts_of(&game).answer == 0 && at_resume(&game, &after) == 0);
    }
}

/* One number changed in a true state: no longer true. */
#define CHANGED(field, value)           \
    do {                                \
        game = played;                  \
        game.field = (value);           \
        CHECK(!at_is_true_game(&game)); \
        judge();                        \
    } while (0)

static void one_number(void)
{
    const SamtrekhuChain *chain = &played.board.chains[0];
    CHECK(chain->count != 0);
    CHANGED(board.height, 0);
    CHANGED(board.height, 20);
    CHANGED(board.width, 0);
    CHANGED(board.width, 255);
    CHANGED(board.hash, played.board.hash ^ 1);
    CHANGED(board.owners[chain->origin], SAMTREKHU_NO_CHAIN);
    CHANGED(board.owners[chain->origin], 65535);
    CHANGED(board.owners[360], 0); /* beyond the board */
    CHANGED(board.next[chain->last], (uint16_t)(chain->origin + 1));
    CHANGED(board.chains[0].liberties[45], 0x80);
    CHANGED(board.chains[0].colour, 3);
    CHANGED(board.chains[0].origin, 65535);
    CHANGED(board.chains[0].last, 65535);
    CHANGED(board.chains[0].count, (uint16_t)(chain->count + 1));
    CHANGED(board.chains[0].count, 0);
    CHANGED(flags, 16);
    CHANGED(passes, 3);
    CHANGED(begun, 0);
    CHANGED(ko, 81);
    CHANGED(handicap, 362);
    CHANGED(accepted, (uint16_t)(played.accepted + 1));
    CHANGED(held.black, played.held.black + 1);
    CHANGED(held.white, played.held.white + 1);
    CHANGED(put.black, played.put.black + 1);
    CHANGED(put.white, 0xFFFFFFFFu);
    game = played;
    game.records = LENGTH / SAMTREKHU_RECORD_BYTES + 1;
    CHECK(at_is_true_game(&game) && !at_is_true_game_with(&game, LENGTH));
    judge();
    game.records = SIZE_MAX;
    CHECK(at_is_true_game(&game) && !at_is_true_game_with(&game, SIZE_MAX));
    judge();
}

void damage(void)
{
    uint32_t seed = 20261115;
    CHECK(at_new_board(&single, 1, 1) == 0);
    begin(&played, 9, 9, SAMTREKHU_FORBID_SUICIDE);
    for (unsigned i = 0; i < 18; i++) {
        uint8_t row = (uint8_t)chance(&seed, 4), column = (uint8_t)chance(&seed, 9);
        uint8_t number = samtrekhu_stone_in_place(&played, history, LENGTH, row, column);
        CHECK(number == SAMTREKHU_ACCEPTED || number == SAMTREKHU_POINT_NOT_EMPTY || number == SAMTREKHU_SUICIDE);
    }
    game = played;
    CHECK(at_is_true_game_with(&game, LENGTH));
    judge();
    one_number();
    /* whole states of one byte or of chance */
    for (unsigned i = 0; i < 60; i++) {
        uint8_t *bytes = (uint8_t *)&game;
        for (size_t at = 0; at < sizeof game; at++) {
            bytes[at] = (uint8_t)(i < 20 ? i * 51 : chance(&seed, i < 40 ? 256 : 20));
        }
        CHECK(!at_is_true_game(&game));
        judge();
    }
    /* single bits of a true one */
    unsigned wrong = 0;
    for (unsigned i = 0; i < 400; i++) {
        game = played;
        /* anywhere; before the chains; in the first ten chains; behind the board */
        static const size_t from[] = {0, 0, offsetof(SamtrekhuBoard, chains), sizeof(SamtrekhuBoard)};
        static const uint32_t many[] = {sizeof game, offsetof(SamtrekhuBoard, chains), 10 * sizeof(SamtrekhuChain),
                                        sizeof game - sizeof(SamtrekhuBoard)};
        size_t at = from[i % 4] + chance(&seed, many[i % 4]);
        ((uint8_t *)&game)[at] ^= (uint8_t)(1u << chance(&seed, 8));
        wrong += !at_is_true_game(&game);
        judge();
    }
    CHECK(0 < wrong && wrong < 400);
}
