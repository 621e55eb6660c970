/* What the tests share: counting, comparing states, and the parts that main runs. */
#ifndef CHECK_H
#define CHECK_H

#include "by_pointer.h"

#include <stdio.h>
#include <stdlib.h>
#include <string.h>

/* Counts a check; one that fails is printed with its place. */
#define CHECK(condition) check((condition), #condition, __FILE__, __LINE__)
bool check(bool holds, const char *what, const char *file, int line);
extern size_t checks, failures;

/* Equal field by field, padding left out. */
bool same_board(const SamtrekhuBoard *a, const SamtrekhuBoard *b);
bool same_game(const SamtrekhuGame *a, const SamtrekhuGame *b);

/* Both true, and nothing that can be asked of them differs: facts and colours. */
bool alike(const SamtrekhuGame *a, const SamtrekhuGame *b);

/* Colours from signs, 'B', 'W' and '.', row by row; spaces between rows are skipped. */
size_t colours_of(const char *signs, uint8_t *colours);

/* The board shows these signs. */
bool shows(const SamtrekhuBoard *board, const char *signs);

/* A board of this size with these signs, which is accepted. */
void lay(SamtrekhuBoard *board, uint8_t height, uint8_t width, const char *signs);

/* A new game, which is accepted. */
void begin(SamtrekhuGame *game, uint8_t height, uint8_t width, uint8_t flags);

/* Bytes with a guard before and behind: `at` has the length that was asked for. Every byte is 0xA5, which makes no point's index. */
typedef struct Lent {
    uint8_t *all;
    uint8_t *at;
    size_t length;
} Lent;
Lent lend(size_t length);
/* The guards are whole, and the bytes from `from` on are as lent. */
bool kept_from(const Lent *lent, size_t from);
void give_back(Lent *lent);

/* Numbers by chance, the same on every run. */
uint32_t chance(uint32_t *seed, uint32_t below);

/* The parts. */
void small_games(void);
void boards(void);
void game_calls(void);
void damage(void);
void histories(void);
void lengths(void);
void random_games(void);
void threads(void);

#endif
