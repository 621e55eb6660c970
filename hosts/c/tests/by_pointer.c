#include "by_pointer.h"

unsigned met[256];

uint8_t meet(uint8_t number)
{
    met[number]++;
    return number;
}

/* A state that was made or changed, and its number. */
#define STORED(type, field, place, call) \
    type got = call;                     \
    *(place) = got.field;                \
    return meet(got.answer)

uint8_t at_new_board(SamtrekhuBoard *made, uint8_t height, uint8_t width)
{
    STORED(SamtrekhuPlaced, board, made, samtrekhu_new_board(height, width));
}

uint8_t at_from_colours(SamtrekhuBoard *made, uint8_t height, uint8_t width, const uint8_t *colours, size_t length)
{
    STORED(SamtrekhuPlaced, board, made, samtrekhu_from_colours(height, width, colours, length));
}

uint8_t at_new_game(SamtrekhuGame *made, uint8_t height, uint8_t width, uint8_t flags)
{
    STORED(SamtrekhuAnswered, game, made, samtrekhu_new_game(height, width, flags));
}

uint8_t at_board_of(const SamtrekhuGame *game, SamtrekhuBoard *board)
{
    STORED(SamtrekhuBoardAnswer, board, board, samtrekhu_board_of(*game));
}

uint8_t at_handicap(const SamtrekhuGame *game, const uint16_t *spots, size_t count, SamtrekhuGame *after)
{
    STORED(SamtrekhuAnswered, game, after, samtrekhu_handicap(*game, spots, count));
}

uint8_t at_stone(const SamtrekhuGame *game, uint8_t *history, size_t length, uint8_t row, uint8_t column, SamtrekhuGame *after)
{
    STORED(SamtrekhuAnswered, game, after, samtrekhu_stone(*game, history, length, row, column));
}

uint8_t at_pass(const SamtrekhuGame *game, SamtrekhuGame *after) { STORED(SamtrekhuAnswered, game, after, samtrekhu_pass(*game)); }

uint8_t at_resign(const SamtrekhuGame *game, uint8_t player, SamtrekhuGame *after)
{
    STORED(SamtrekhuAnswered, game, after, samtrekhu_resign(*game, player));
}

uint8_t at_resume(const SamtrekhuGame *game, SamtrekhuGame *after) { STORED(SamtrekhuAnswered, game, after, samtrekhu_resume(*game)); }

SamtrekhuReplayedInPlace at_replay(const SamtrekhuGame *game, uint8_t *history, size_t length, const SamtrekhuMove *moves, size_t entries,
                                   SamtrekhuGame *after)
{
    SamtrekhuReplayed got = samtrekhu_replay(*game, history, length, moves, entries);
    *after = got.game;
    SamtrekhuReplayedInPlace replayed = {got.entries, meet(got.answer)};
    return replayed;
}

/* What is asked, with its number in this field. */
#define ASKED(type, field, call) \
    type got = call;             \
    meet(got.field);             \
    return got

bool at_is_true_board(const SamtrekhuBoard *board) { return samtrekhu_is_true_board(*board); }

SamtrekhuSizeAnswer at_size(const SamtrekhuBoard *board) { ASKED(SamtrekhuSizeAnswer, answer, samtrekhu_size(*board)); }

SamtrekhuHashAnswer at_zobrist_hash(const SamtrekhuBoard *board) { ASKED(SamtrekhuHashAnswer, answer, samtrekhu_zobrist_hash(*board)); }

SamtrekhuStonesAnswer at_number_of_stones(const SamtrekhuBoard *board)
{
    ASKED(SamtrekhuStonesAnswer, answer, samtrekhu_number_of_stones(*board));
}

SamtrekhuChainsAnswer at_number_of_chains(const SamtrekhuBoard *board)
{
    ASKED(SamtrekhuChainsAnswer, answer, samtrekhu_number_of_chains(*board));
}

SamtrekhuColourAnswer at_get_color(const SamtrekhuBoard *board, uint8_t row, uint8_t column)
{
    ASKED(SamtrekhuColourAnswer, answer, samtrekhu_get_color(*board, row, column));
}

SamtrekhuTestAnswer at_has_liberties(const SamtrekhuBoard *board, uint8_t row, uint8_t column)
{
    ASKED(SamtrekhuTestAnswer, answer, samtrekhu_has_liberties(*board, row, column));
}

SamtrekhuChainAnswer at_chain_at(const SamtrekhuBoard *board, uint8_t row, uint8_t column)
{
    ASKED(SamtrekhuChainAnswer, answer, samtrekhu_chain_at(*board, row, column));
}

SamtrekhuTestAnswer at_contains_liberty(const SamtrekhuBoard *board, uint8_t row, uint8_t column, uint8_t other_row, uint8_t other_column)
{
    ASKED(SamtrekhuTestAnswer, answer, samtrekhu_contains_liberty(*board, row, column, other_row, other_column));
}

SamtrekhuListed at_get_stones(const SamtrekhuBoard *board, uint16_t *buffer, size_t places)
{
    ASKED(SamtrekhuListed, number, samtrekhu_get_stones(*board, buffer, places));
}

SamtrekhuListed at_get_coords_by_color(const SamtrekhuBoard *board, uint8_t colour, uint16_t *buffer, size_t places)
{
    ASKED(SamtrekhuListed, number, samtrekhu_get_coords_by_color(*board, colour, buffer, places));
}

SamtrekhuListed at_get_empty_coords(const SamtrekhuBoard *board, uint16_t *buffer, size_t places)
{
    ASKED(SamtrekhuListed, number, samtrekhu_get_empty_coords(*board, buffer, places));
}

#define LIST_AT(name)                                                                                                    \
    SamtrekhuListed at_##name(const SamtrekhuBoard *board, uint8_t row, uint8_t column, uint16_t *buffer, size_t places) \
    {                                                                                                                    \
        ASKED(SamtrekhuListed, number, samtrekhu_##name(*board, row, column, buffer, places));                           \
    }

LIST_AT(chain_stones)
LIST_AT(chain_liberties)
LIST_AT(get_connected_points)
LIST_AT(get_connected_stones)
LIST_AT(get_liberties)
LIST_AT(get_connected_groups)

SamtrekhuListed at_to_vec(const SamtrekhuBoard *board, uint8_t *buffer, size_t length)
{
    ASKED(SamtrekhuListed, number, samtrekhu_to_vec(*board, buffer, length));
}

SamtrekhuListed at_pretty_string(const SamtrekhuBoard *board, uint8_t *buffer, size_t length)
{
    ASKED(SamtrekhuListed, number, samtrekhu_pretty_string(*board, buffer, length));
}

bool at_is_true_game(const SamtrekhuGame *game) { return samtrekhu_is_true_game(*game); }

bool at_is_true_game_with(const SamtrekhuGame *game, size_t length) { return samtrekhu_is_true_game_with(*game, length); }

SamtrekhuFacts at_facts_of(const SamtrekhuGame *game) { ASKED(SamtrekhuFacts, answer, samtrekhu_facts_of(*game)); }

uint8_t at_check_point_by(const SamtrekhuGame *game, const uint8_t *history, size_t length, uint8_t flags, uint8_t row, uint8_t column)
{
    return meet(samtrekhu_check_point_by(*game, history, length, flags, row, column));
}

uint8_t at_check_point(const SamtrekhuGame *game, const uint8_t *history, size_t length, uint8_t row, uint8_t column)
{
    return meet(samtrekhu_check_point(*game, history, length, row, column));
}

SamtrekhuListed at_legals_by(const SamtrekhuGame *game, const uint8_t *history, size_t length, uint8_t flags, uint16_t *buffer,
                             size_t places)
{
    ASKED(SamtrekhuListed, number, samtrekhu_legals_by(*game, history, length, flags, buffer, places));
}

SamtrekhuListed at_legals(const SamtrekhuGame *game, const uint8_t *history, size_t length, uint16_t *buffer, size_t places)
{
    ASKED(SamtrekhuListed, number, samtrekhu_legals(*game, history, length, buffer, places));
}

SamtrekhuListed at_empty_points(const SamtrekhuGame *game, uint16_t *buffer, size_t places)
{
    ASKED(SamtrekhuListed, number, samtrekhu_empty_points(*game, buffer, places));
}

#define TEST_AT(name)                                                                     \
    SamtrekhuTestAnswer at_##name(const SamtrekhuGame *game, uint8_t row, uint8_t column) \
    {                                                                                     \
        ASKED(SamtrekhuTestAnswer, answer, samtrekhu_##name(*game, row, column));         \
    }

TEST_AT(will_capture)
TEST_AT(is_suicide_at)
TEST_AT(is_ko_at)
TEST_AT(is_eye_at)

SamtrekhuTestAnswer at_is_superko_at(const SamtrekhuGame *game, const uint8_t *history, size_t length, uint8_t row, uint8_t column)
{
    ASKED(SamtrekhuTestAnswer, answer, samtrekhu_is_superko_at(*game, history, length, row, column));
}
