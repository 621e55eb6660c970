/* Boards made, and every question on one whose answers are known. */
#include "check.h"

static SamtrekhuBoard board, other;

/* Three white and black chains more or less in each other's way:
 *     . B W . .        0  1  2  3  4
 *     B B W W .        5  6  7  8  9
 *     W W . B .       10 11 12 13 14
 *     . . . . .       15 16 17 18 19 */
static const char signs[] = ".BW.. BBWW. WW.B. .....";
static const uint16_t blacks[] = {1, 5, 6, 13}, whites[] = {2, 7, 8, 10, 11}, stones[] = {1, 2, 5, 6, 7, 8, 10, 11, 13};
static const uint16_t empties[] = {0, 3, 4, 9, 12, 14, 15, 16, 17, 18, 19};

static void made(void)
{
    static const uint8_t sides[] = {0, 1, 2, 18, 19, 20, 255};
    for (size_t i = 0; i < sizeof sides; i++) {
        for (size_t j = 0; j < sizeof sides; j++) {
            bool good = 1 <= sides[i] && sides[i] <= 19 && 1 <= sides[j] && sides[j] <= 19;
            CHECK(at_new_board(&board, sides[i], sides[j]) == (good ? SAMTREKHU_ACCEPTED : SAMTREKHU_BAD_SIZE));
            SamtrekhuSizeAnswer size = at_size(&board);
            CHECK(size.answer == 0 && size.height == (good ? sides[i] : 1) && size.width == (good ? sides[j] : 1));
            CHECK(at_number_of_chains(&board).chains == 0 && at_zobrist_hash(&board).hash == 0);
        }
    }
    CHECK(at_new_board(&other, 1, 1) == SAMTREKHU_ACCEPTED);
    uint8_t colours[SAMTREKHU_MAX_AREA + 1] = {0};
    struct {
        uint8_t height, width, first;
        size_t length;
        uint8_t answer;
    } const wrong[] = {
        {0, 2, 3, 9, 1},  {2, 20, 3, 9, 1},                                                                 /* the size before all else */
        {2, 2, 3, 3, 14}, {2, 2, 3, 5, 14},   {2, 2, 0, 0, 14}, {19, 19, 0, 362, 14}, {19, 19, 0, 360, 14}, /* then the length */
        {2, 2, 3, 4, 15}, {2, 2, 255, 4, 15}, {1, 1, 3, 1, 15},                                             /* then the colours */
        {1, 1, 1, 1, 13}, {1, 1, 2, 1, 13},
    };
    for (size_t i = 0; i < sizeof wrong / sizeof wrong[0]; i++) {
        colours[0] = wrong[i].first;
        CHECK(at_from_colours(&board, wrong[i].height, wrong[i].width, colours, wrong[i].length) == wrong[i].answer);
        CHECK(same_board(&board, &other));
    }
    CHECK(at_from_colours(&board, 1, 1, NULL, 0) == SAMTREKHU_BAD_LENGTH && same_board(&board, &other));
    size_t count = colours_of("BB WB", colours);
    CHECK(at_from_colours(&board, 2, 2, colours, count) == SAMTREKHU_NO_LIBERTY && same_board(&board, &other));
    colours[2] = SAMTREKHU_EMPTY;
    CHECK(at_from_colours(&board, 2, 2, colours, count) == SAMTREKHU_ACCEPTED && shows(&board, "BB .B"));
    /* the largest board, every second point Black */
    for (size_t p = 0; p < SAMTREKHU_MAX_AREA; p++) {
        colours[p] = p % 2 == 0;
    }
    CHECK(at_from_colours(&board, 19, 19, colours, SAMTREKHU_MAX_AREA) == SAMTREKHU_ACCEPTED);
    CHECK(at_number_of_chains(&board).chains == 181 && at_number_of_stones(&board).black == 181);
}

/* The hash by its rule: the exclusive or of entry 2p for Black and 2p + 1 for White. */
static uint64_t hash_of(const uint8_t *colours, size_t area)
{
    uint64_t hash = 0, entry = 1442695040888963407u;
    for (size_t p = 0; p < area; p++) {
        hash ^= colours[p] == SAMTREKHU_BLACK ? entry : 0;
        entry = entry * 6364136223846793005u + 1442695040888963407u;
        hash ^= colours[p] == SAMTREKHU_WHITE ? entry : 0;
        entry = entry * 6364136223846793005u + 1442695040888963407u;
    }
    return hash;
}

static void numbers(void)
{
    uint8_t colours[SAMTREKHU_MAX_AREA];
    size_t area = colours_of(signs, colours);
    lay(&board, 4, 5, signs);
    CHECK(at_is_true_board(&board));
    SamtrekhuSizeAnswer size = at_size(&board);
    CHECK(size.answer == 0 && size.height == 4 && size.width == 5);
    SamtrekhuHashAnswer hash = at_zobrist_hash(&board);
    CHECK(hash.answer == 0 && hash.hash == hash_of(colours, area));
    SamtrekhuStonesAnswer both = at_number_of_stones(&board);
    CHECK(both.answer == 0 && both.black == 4 && both.white == 5);
    SamtrekhuChainsAnswer chains = at_number_of_chains(&board);
    CHECK(chains.answer == 0 && chains.chains == 4);
    for (unsigned row = 0; row < 256; row += row < 6 ? 1 : 83) {
        for (unsigned column = 0; column < 256; column += column < 7 ? 1 : 31) {
            bool on = row < 4 && column < 5;
            uint8_t number = on ? SAMTREKHU_ACCEPTED : SAMTREKHU_OFF_BOARD;
            SamtrekhuColourAnswer colour = at_get_color(&board, (uint8_t)row, (uint8_t)column);
            CHECK(colour.answer == number && colour.colour == (on ? colours[row * 5 + column] : 0));
            SamtrekhuTestAnswer breathes = at_has_liberties(&board, (uint8_t)row, (uint8_t)column);
            bool choked = row == column && row < 2; /* (0,0) and (1,1) have stones on every side */
            CHECK(breathes.answer == number && breathes.holds == (on && !choked));
            SamtrekhuChainAnswer chain = at_chain_at(&board, (uint8_t)row, (uint8_t)column);
            CHECK(chain.answer == number && chain.present == (colour.colour != 0) && chain.colour == colour.colour);
            CHECK(chain.present || (chain.stones == 0 && chain.liberties == 0 && !chain.atari && chain.origin == 0));
            CHECK(at_contains_liberty(&board, 1, 1, (uint8_t)row, (uint8_t)column).answer == number);
            CHECK(at_contains_liberty(&board, (uint8_t)row, (uint8_t)column, 0, 0).answer == number);
            CHECK(at_contains_liberty(&board, 1, 1, (uint8_t)row, (uint8_t)column).holds == (row == 0 && column == 0));
        }
    }
    SamtrekhuChainAnswer chain = at_chain_at(&board, 1, 1);
    CHECK(chain.colour == 1 && chain.stones == 3 && chain.liberties == 1 && chain.atari && chain.origin == 1);
    chain = at_chain_at(&board, 1, 3);
    CHECK(chain.colour == 2 && chain.stones == 3 && chain.liberties == 3 && !chain.atari && chain.origin == 2);
    CHECK(!at_contains_liberty(&board, 0, 0, 0, 3).holds && at_contains_liberty(&board, 0, 2, 2, 2).holds);
}

static bool lists(SamtrekhuListed got, const uint16_t *buffer, const uint16_t *wanted, size_t count)
{
    return got.number == 0 && got.count == count && (count == 0 || memcmp(buffer, wanted, count * sizeof *wanted) == 0);
}

#define LISTS(call, wanted) CHECK(lists(call, buffer, wanted, sizeof(wanted) / sizeof((wanted)[0])))

static void points(void)
{
    uint16_t buffer[20];
    lay(&board, 4, 5, signs);
    LISTS(at_get_stones(&board, buffer, 20), stones);
    LISTS(at_get_coords_by_color(&board, 0, buffer, 20), empties);
    LISTS(at_get_coords_by_color(&board, 1, buffer, 20), blacks);
    LISTS(at_get_coords_by_color(&board, 2, buffer, 20), whites);
    LISTS(at_get_empty_coords(&board, buffer, 20), empties);
    static const uint16_t chain[] = {1, 5, 6}, breath[] = {3, 9, 12}, corner[] = {1, 5}, around[] = {1, 5, 7, 11}, beside[] = {7, 11, 13};
    static const uint16_t below[] = {17}, groups[] = {2, 10, 13}, own[] = {1, 2, 10};
    LISTS(at_chain_stones(&board, 1, 0, buffer, 20), chain);
    LISTS(at_chain_liberties(&board, 1, 2, buffer, 20), breath);
    LISTS(at_get_connected_points(&board, 0, 0, buffer, 20), corner);
    LISTS(at_get_connected_points(&board, 1, 1, buffer, 20), around);
    LISTS(at_get_connected_stones(&board, 2, 2, buffer, 20), beside);
    LISTS(at_get_liberties(&board, 2, 2, buffer, 20), below);
    LISTS(at_get_connected_groups(&board, 2, 2, buffer, 20), groups);
    LISTS(at_get_connected_groups(&board, 1, 1, buffer, 20), own);
    CHECK(lists(at_chain_stones(&board, 0, 0, buffer, 20), buffer, NULL, 0));
    CHECK(lists(at_chain_liberties(&board, 3, 3, buffer, 20), buffer, NULL, 0));
}

static void bytes(void)
{
    static const char picture[] = "┏●○┯┓\n●●○○┨\n○○┼●┨\n┗┷┷┷┛\n";
    uint8_t buffer[SAMTREKHU_PICTURE_BYTES];
    lay(&board, 4, 5, signs);
    CHECK(shows(&board, signs));
    SamtrekhuListed drawn = at_pretty_string(&board, buffer, sizeof buffer);
    CHECK(drawn.number == 0 && drawn.count == 64 && memcmp(buffer, picture, 64) == 0 && strlen(picture) == 64);
    CHECK(at_new_board(&board, 19, 19) == 0 && at_pretty_string(&board, buffer, sizeof buffer).count == SAMTREKHU_PICTURE_BYTES);
}

void boards(void)
{
    made();
    numbers();
    points();
    bytes();
}
