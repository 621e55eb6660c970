/* The calls that take a state by value, each behind a function that takes a pointer: the copies on the stack are then those of one call, also
 * where a test makes many. Each marks the number that it met. */
#ifndef BY_POINTER_H
#define BY_POINTER_H

#include "samtrekhu.h"

/* How often each number was answered. */
extern unsigned met[256];
uint8_t meet(uint8_t number);

/* A call that makes a state stores it also where it is refused. */
uint8_t at_new_board(SamtrekhuBoard *made, uint8_t height, uint8_t width);
uint8_t at_from_colours(SamtrekhuBoard *made, uint8_t height, uint8_t width, const uint8_t *colours, size_t length);
uint8_t at_new_game(SamtrekhuGame *made, uint8_t height, uint8_t width, uint8_t flags);
uint8_t at_board_of(const SamtrekhuGame *game, SamtrekhuBoard *board);
uint8_t at_handicap(const SamtrekhuGame *game, const uint16_t *spots, size_t count, SamtrekhuGame *after);
uint8_t at_stone(const SamtrekhuGame *game, uint8_t *history, size_t length, uint8_t row, uint8_t column, SamtrekhuGame *after);
uint8_t at_pass(const SamtrekhuGame *game, SamtrekhuGame *after);
uint8_t at_resign(const SamtrekhuGame *game, uint8_t player, SamtrekhuGame *after);
uint8_t at_resume(const SamtrekhuGame *game, SamtrekhuGame *after);
SamtrekhuReplayedInPlace at_replay(const SamtrekhuGame *game, uint8_t *history, size_t length, const SamtrekhuMove *moves, size_t entries,
                                   SamtrekhuGame *after);

bool at_is_true_board(const SamtrekhuBoard *board);
SamtrekhuSizeAnswer at_size(const SamtrekhuBoard *board);
SamtrekhuHashAnswer at_zobrist_hash(const SamtrekhuBoard *board);
SamtrekhuStonesAnswer at_number_of_stones(const SamtrekhuBoard *board);
SamtrekhuChainsAnswer at_number_of_chains(const SamtrekhuBoard *board);
SamtrekhuColourAnswer at_get_color(const SamtrekhuBoard *board, uint8_t row, uint8_t column);
SamtrekhuTestAnswer at_has_liberties(const SamtrekhuBoard *board, uint8_t row, uint8_t column);
SamtrekhuChainAnswer at_chain_at(const SamtrekhuBoard *board, uint8_t row, uint8_t column);
SamtrekhuTestAnswer at_contains_liberty(const SamtrekhuBoard *board, uint8_t row, uint8_t column, uint8_t other_row, uint8_t other_column);

SamtrekhuListed at_get_stones(const SamtrekhuBoard *board, uint16_t *buffer, size_t places);
SamtrekhuListed at_get_coords_by_color(const SamtrekhuBoard *board, uint8_t colour, uint16_t *buffer, size_t places);
SamtrekhuListed at_get_empty_coords(const SamtrekhuBoard *board, uint16_t *buffer, size_t places);
typedef SamtrekhuListed ListAt(const SamtrekhuBoard *board, uint8_t row, uint8_t column, uint16_t *buffer, size_t places);
ListAt at_chain_stones, at_chain_liberties, at_get_connected_points, at_get_connected_stones, at_get_liberties, at_get_connected_groups;
SamtrekhuListed at_to_vec(const SamtrekhuBoard *board, uint8_t *buffer, size_t length);
SamtrekhuListed at_pretty_string(const SamtrekhuBoard *board, uint8_t *buffer, size_t length);

bool at_is_true_game(const SamtrekhuGame *game);
bool at_is_true_game_with(const SamtrekhuGame *game, size_t length);
SamtrekhuFacts at_facts_of(const SamtrekhuGame *game);
uint8_t at_check_point_by(const SamtrekhuGame *game, const uint8_t *history, size_t length, uint8_t flags, uint8_t row, uint8_t column);
uint8_t at_check_point(const SamtrekhuGame *game, const uint8_t *history, size_t length, uint8_t row, uint8_t column);
SamtrekhuListed at_legals_by(const SamtrekhuGame *game, const uint8_t *history, size_t length, uint8_t flags, uint16_t *buffer,
                             size_t places);
SamtrekhuListed at_legals(const SamtrekhuGame *game, const uint8_t *history, size_t length, uint16_t *buffer, size_t places);
SamtrekhuListed at_empty_points(const SamtrekhuGame *game, uint16_t *buffer, size_t places);
typedef SamtrekhuTestAnswer TestAt(const SamtrekhuGame *game, uint8_t row, uint8_t column);
TestAt at_will_capture, at_is_suicide_at, at_is_ko_at, at_is_eye_at;
SamtrekhuTestAnswer at_is_superko_at(const SamtrekhuGame *game, const uint8_t *history, size_t length, uint8_t row, uint8_t column);

#endif
