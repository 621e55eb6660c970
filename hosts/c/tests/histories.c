/* The history: which bytes a stone writes, by their own rule, and with how much room it is accepted. */
#include "check.h"

enum {
    STONES = 4
};
static SamtrekhuGame game, before, after;
static const uint8_t columns[STONES] = {0, 2, 4, 6};

/* The record of a 1 x 7 board with the first stones, Black and White in turn: hash, colours, a zero byte. */
static void record(size_t stones, uint8_t *bytes)
{
    uint8_t colours[SAMTREKHU_MAX_AREA] = {0};
    for (size_t i = 0; i < stones; i++) {
        colours[columns[i]] = (uint8_t)(1 + i % 2);
    }
    uint64_t hash = 0, entry = 1442695040888963407u;
    memset(bytes, 0, SAMTREKHU_RECORD_BYTES);
    for (size_t i = 0; i < 2 * SAMTREKHU_MAX_AREA; i++) {
        hash ^= colours[i / 2] == 1 + i % 2 ? entry : 0;
        entry = entry * 6364136223846793005u + 1442695040888963407u;
    }
    for (size_t i = 0; i < SAMTREKHU_HASH_BYTES; i++) {
        bytes[i] = (uint8_t)(hash >> 8 * i);
    }
    for (size_t p = 0; p < SAMTREKHU_MAX_AREA; p++) {
        bytes[SAMTREKHU_HASH_BYTES + p / 4] |= (uint8_t)(colours[p] << 2 * (p % 4));
    }
}

/* The records so far stand in the bytes, and all the others are as lent. */
static bool holds(const Lent *lent, size_t records)
{
    uint8_t wanted[SAMTREKHU_RECORD_BYTES];
    for (size_t i = 0; i < records; i++) {
        record(i, wanted);
        if (memcmp(lent->at + i * SAMTREKHU_RECORD_BYTES, wanted, sizeof wanted) != 0) {
            return false;
        }
    }
    return kept_from(lent, records * SAMTREKHU_RECORD_BYTES);
}

static void with_room(size_t length)
{
    size_t room = length / SAMTREKHU_RECORD_BYTES;
    Lent lent = lend(length), other = lend(length);
    begin(&game, 1, 7, 0);
    for (size_t i = 0; i < STONES; i++) {
        uint8_t answer = i < room ? SAMTREKHU_ACCEPTED : SAMTREKHU_HISTORY_FULL;
        before = game;
        memcpy(other.at, lent.at, length);
        CHECK(at_stone(&game, other.at, length, 0, columns[i], &after) == answer);
        CHECK(meet(samtrekhu_stone_in_place(&game, lent.at, length, 0, columns[i])) == answer);
        CHECK(memcmp(other.at, lent.at, length) == 0 && (answer == 0 ? alike(&game, &after) : same_game(&game, &before)));
        size_t records = i < room ? i + 1 : room;
        CHECK(at_facts_of(&game).records == records && holds(&lent, records));
    }
    CHECK(at_is_true_game_with(&game, length));
    size_t least = game.records * SAMTREKHU_RECORD_BYTES;
    CHECK(at_is_true_game_with(&game, least) && (least == 0 || !at_is_true_game_with(&game, least - 1)));
    give_back(&lent);
    give_back(&other);
}

/* A board that is among the records is not recorded again, and needs no room. */
static void again(void)
{
    Lent lent = lend(350);
    begin(&game, 1, 2, 0);
    for (uint8_t i = 0; i < 9; i++) {
        CHECK(samtrekhu_stone_in_place(&game, lent.at, 350, 0, i % 2) == SAMTREKHU_ACCEPTED);
    }
    CHECK(at_facts_of(&game).records == 3 && at_facts_of(&game).accepted == 9 && kept_from(&lent, 300));
    give_back(&lent);
}

void histories(void)
{
    for (size_t length = 0; length <= 420; length += length % 100 > 3 && length % 100 < 96 ? 23 : 1) {
        with_room(length);
    }
    again();
}
