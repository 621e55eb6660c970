/* Buffers of every length around what is needed, with guards before and behind: if too short, nothing is written; if not, the rest stays. */
#include "check.h"

static SamtrekhuBoard board;
static SamtrekhuGame game;
static uint8_t history[SAMTREKHU_RECORD_BYTES];

/* Every call that fills places, on the board or the game above. */
static SamtrekhuListed stones(uint16_t *b, size_t n) { return at_get_stones(&board, b, n); }
static SamtrekhuListed whites(uint16_t *b, size_t n) { return at_get_coords_by_color(&board, SAMTREKHU_WHITE, b, n); }
static SamtrekhuListed empties(uint16_t *b, size_t n) { return at_get_empty_coords(&board, b, n); }
static SamtrekhuListed chain(uint16_t *b, size_t n) { return at_chain_stones(&board, 0, 0, b, n); }
static SamtrekhuListed liberties(uint16_t *b, size_t n) { return at_chain_liberties(&board, 0, 0, b, n); }
static SamtrekhuListed beside(uint16_t *b, size_t n) { return at_get_connected_points(&board, 0, 0, b, n); }
static SamtrekhuListed stones_beside(uint16_t *b, size_t n) { return at_get_connected_stones(&board, 0, 0, b, n); }
static SamtrekhuListed empty_beside(uint16_t *b, size_t n) { return at_get_liberties(&board, 0, 0, b, n); }
static SamtrekhuListed groups(uint16_t *b, size_t n) { return at_get_connected_groups(&board, 0, 0, b, n); }
static SamtrekhuListed legal(uint16_t *b, size_t n) { return at_legals(&game, history, sizeof history, b, n); }
static SamtrekhuListed legal_by(uint16_t *b, size_t n) { return at_legals_by(&game, history, sizeof history, 15, b, n); }
static SamtrekhuListed empty_points(uint16_t *b, size_t n) { return at_empty_points(&game, b, n); }

typedef SamtrekhuListed Fill(uint16_t *buffer, size_t places);
static Fill *const fills[] = {stones,        whites,       empties, chain, liberties, beside,
                              stones_beside, empty_beside, groups,  legal, legal_by,  empty_points};

static SamtrekhuListed colours(uint8_t *b, size_t n) { return at_to_vec(&board, b, n); }
static SamtrekhuListed picture(uint8_t *b, size_t n) { return at_pretty_string(&board, b, n); }

static void fill(Fill *call, size_t places, size_t needed, size_t count)
{
    Lent lent = lend(2 * places);
    SamtrekhuListed got = call((uint16_t *)(void *)lent.at, places);
    bool fits = needed <= places;
    CHECK(got.number == (fits ? SAMTREKHU_ACCEPTED : SAMTREKHU_BAD_LENGTH) && got.count == (fits ? count : 0));
    CHECK(kept_from(&lent, 2 * got.count));
    const uint16_t *points = (const uint16_t *)(const void *)lent.at;
    for (size_t i = 0; i < got.count; i++) {
        CHECK(points[i] < needed && (i == 0 || points[i - 1] < points[i]));
    }
    give_back(&lent);
}

static void write(SamtrekhuListed (*call)(uint8_t *, size_t), size_t length, size_t needed)
{
    Lent lent = lend(length);
    SamtrekhuListed got = call(lent.at, length);
    bool fits = needed <= length;
    CHECK(got.number == (fits ? SAMTREKHU_ACCEPTED : SAMTREKHU_BAD_LENGTH) && got.count == (fits ? needed : 0));
    CHECK(kept_from(&lent, got.count));
    give_back(&lent);
}

/* From nothing on, or from a little less than is needed on a large board. */
static size_t least(size_t needed) { return needed < 50 ? 0 : needed - 4; }

static void every_length(uint8_t height, uint8_t width)
{
    size_t area = (size_t)height * width, drawn = (size_t)height * (3u * width + 1);
    begin(&game, height, width, 0);
    CHECK(samtrekhu_stone_in_place(&game, history, sizeof history, 0, 0) == SAMTREKHU_ACCEPTED);
    CHECK(at_board_of(&game, &board) == SAMTREKHU_ACCEPTED);
    size_t others = area - 1, near = (size_t)(height > 1) + (size_t)(width > 1);
    const size_t counts[] = {1, 0, others, 1, near, near, 0, near, 0, others, others, others};
    for (size_t i = 0; i < sizeof fills / sizeof fills[0]; i++) {
        for (size_t places = least(area); places < area + 4; places++) {
            fill(fills[i], places, area, counts[i]);
        }
        SamtrekhuListed none = fills[i](NULL, 0);
        CHECK(none.number == SAMTREKHU_BAD_LENGTH && none.count == 0);
    }
    for (size_t length = least(area); length < area + 4; length++) {
        write(colours, length, area);
    }
    for (size_t length = least(drawn); length < drawn + 4; length++) {
        write(picture, length, drawn);
    }
    CHECK(colours(NULL, 0).number == SAMTREKHU_BAD_LENGTH && picture(NULL, 0).number == SAMTREKHU_BAD_LENGTH);
}

/* Lists that fill a buffer of just the length that is needed: every point of an empty board. */
static void whole_board(uint8_t height, uint8_t width)
{
    static Fill *const wholes[] = {empties, legal, legal_by, empty_points};
    size_t area = (size_t)height * width;
    begin(&game, height, width, 0);
    CHECK(at_board_of(&game, &board) == SAMTREKHU_ACCEPTED);
    for (size_t i = 0; i < sizeof wholes / sizeof wholes[0]; i++) {
        fill(wholes[i], area, area, area);
    }
}

/* Which refusal comes first where a buffer is too short as well. */
static void order(void)
{
    uint16_t short_buffer[1];
    CHECK(at_get_coords_by_color(&board, 3, short_buffer, 1).number == SAMTREKHU_BAD_LENGTH);
    uint16_t buffer[SAMTREKHU_MAX_AREA];
    SamtrekhuListed unknown = at_get_coords_by_color(&board, 3, buffer, SAMTREKHU_MAX_AREA);
    CHECK(unknown.number == SAMTREKHU_BAD_COLOUR && unknown.count == 0);
    CHECK(at_get_coords_by_color(&board, 255, buffer, SAMTREKHU_MAX_AREA).number == SAMTREKHU_BAD_COLOUR);
    static ListAt *const calls[] = {at_chain_stones,         at_chain_liberties, at_get_connected_points,
                                    at_get_connected_stones, at_get_liberties,   at_get_connected_groups};
    for (size_t i = 0; i < sizeof calls / sizeof calls[0]; i++) {
        CHECK(calls[i](&board, 19, 0, NULL, 0).number == SAMTREKHU_OFF_BOARD);
        CHECK(calls[i](&board, 0, 255, buffer, SAMTREKHU_MAX_AREA).number == SAMTREKHU_OFF_BOARD);
    }
    CHECK(at_legals_by(&game, history, sizeof history, 16, NULL, 0).number == SAMTREKHU_BAD_FLAGS);
    CHECK(at_legals_by(&game, history, sizeof history - 1, 16, NULL, 0).number == SAMTREKHU_DAMAGED);
    CHECK(at_legals(&game, NULL, 0, NULL, 0).number == SAMTREKHU_DAMAGED);
}

void lengths(void)
{
    every_length(3, 4);
    every_length(1, 2);
    every_length(2, 1);
    every_length(19, 19);
    order();
    whole_board(3, 4);
    whole_board(19, 19);
}
