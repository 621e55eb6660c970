/* Different games on different threads at once: each ends as the same game does alone. */
#define _POSIX_C_SOURCE 200809L
#include "check.h"
#include "on_stack.h"

enum {
    GAMES = 4,
    STONES = 250,
    LENGTH = STONES * SAMTREKHU_RECORD_BYTES
};

typedef struct Desk {
    SamtrekhuGame game;
    uint8_t history[LENGTH];
    uint8_t numbers[STONES];
    uint8_t index;
} Desk;

static Desk together[GAMES], alone[GAMES];

/* No check and no count here: they are shared. */
static void play(void *at)
{
    Desk *desk = at;
    uint32_t seed = 31u + desk->index;
    for (size_t i = 0; i < STONES; i++) {
        uint8_t row = (uint8_t)chance(&seed, 7), column = (uint8_t)chance(&seed, 7);
        desk->numbers[i] = samtrekhu_stone_in_place(&desk->game, desk->history, LENGTH, row, column);
    }
}

static void prepare(Desk *desk, uint8_t index)
{
    memset(desk, 0, sizeof *desk);
    desk->index = index;
    begin(&desk->game, 7, 7, (uint8_t)(4 * index + 3));
}

void threads(void)
{
    void *handles[GAMES];
    for (uint8_t i = 0; i < GAMES; i++) {
        prepare(&alone[i], i);
        prepare(&together[i], i);
    }
    for (size_t i = 0; i < GAMES; i++) {
        handles[i] = start_on_stack(play, &together[i]);
    }
    for (size_t i = 0; i < GAMES; i++) {
        end_on_stack(handles[i]);
    }
    for (size_t i = 0; i < GAMES; i++) {
        play(&alone[i]);
        CHECK(alike(&alone[i].game, &together[i].game) && at_facts_of(&alone[i].game).accepted > 20);
        CHECK(memcmp(alone[i].history, together[i].history, LENGTH) == 0);
        CHECK(memcmp(alone[i].numbers, together[i].numbers, STONES) == 0);
    }
}
