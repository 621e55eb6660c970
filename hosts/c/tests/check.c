#include "check.h"

size_t checks, failures;

bool check(bool holds, const char *what, const char *file, int line)
{
    checks++;
    if (!holds) {
        failures++;
        printf("%s:%d: does not hold: %s\n", file, line, what);
    }
    return holds;
}

static bool same_chain(const SamtrekhuChain *a, const SamtrekhuChain *b)
{
    return memcmp(a->liberties, b->liberties, sizeof a->liberties) == 0 && a->colour == b->colour && a->origin == b->origin
           && a->last == b->last && a->count == b->count;
}

bool same_board(const SamtrekhuBoard *a, const SamtrekhuBoard *b)
{
    for (size_t slot = 0; slot < SAMTREKHU_SLOTS; slot++) {
        if (!same_chain(&a->chains[slot], &b->chains[slot])) {
            return false;
        }
    }
    return a->height == b->height && a->width == b->width && a->hash == b->hash && memcmp(a->owners, b->owners, sizeof a->owners) == 0
           && memcmp(a->next, b->next, sizeof a->next) == 0;
}

static bool same_tally(SamtrekhuTally a, SamtrekhuTally b) { return a.black == b.black && a.white == b.white; }

bool same_game(const SamtrekhuGame *a, const SamtrekhuGame *b)
{
    return same_board(&a->board, &b->board) && a->flags == b->flags && a->turn == b->turn && a->passes == b->passes
           && a->outcome == b->outcome && a->begun == b->begun && a->ko == b->ko && a->handicap == b->handicap && a->accepted == b->accepted
           && same_tally(a->held, b->held) && same_tally(a->put, b->put) && a->records == b->records;
}

bool alike(const SamtrekhuGame *a, const SamtrekhuGame *b)
{
    SamtrekhuFacts x = at_facts_of(a), y = at_facts_of(b);
    uint8_t of_a[SAMTREKHU_MAX_AREA], of_b[SAMTREKHU_MAX_AREA];
    SamtrekhuListed colours = at_to_vec(&a->board, of_a, sizeof of_a);
    at_to_vec(&b->board, of_b, sizeof of_b);
    return x.answer == 0 && y.answer == 0 && x.height == y.height && x.width == y.width && x.flags == y.flags && x.turn == y.turn
           && x.passes == y.passes && x.outcome == y.outcome && x.over == y.over && x.ko == y.ko && x.handicap == y.handicap
           && x.accepted == y.accepted && same_tally(x.prisoners, y.prisoners) && x.records == y.records
           && memcmp(of_a, of_b, colours.count) == 0 && at_zobrist_hash(&a->board).hash == at_zobrist_hash(&b->board).hash;
}

size_t colours_of(const char *signs, uint8_t *colours)
{
    size_t count = 0;
    for (; *signs != 0; signs++) {
        if (*signs != ' ') {
            colours[count++] = *signs == 'B' ? SAMTREKHU_BLACK : *signs == 'W' ? SAMTREKHU_WHITE : SAMTREKHU_EMPTY;
        }
    }
    return count;
}

bool shows(const SamtrekhuBoard *board, const char *signs)
{
    uint8_t wanted[SAMTREKHU_MAX_AREA], got[SAMTREKHU_MAX_AREA];
    size_t count = colours_of(signs, wanted);
    SamtrekhuListed told = at_to_vec(board, got, sizeof got);
    return told.number == 0 && told.count == count && memcmp(wanted, got, count) == 0;
}

void lay(SamtrekhuBoard *board, uint8_t height, uint8_t width, const char *signs)
{
    uint8_t colours[SAMTREKHU_MAX_AREA];
    size_t count = colours_of(signs, colours);
    CHECK(at_from_colours(board, height, width, colours, count) == SAMTREKHU_ACCEPTED);
}

void begin(SamtrekhuGame *game, uint8_t height, uint8_t width, uint8_t flags)
{
    CHECK(at_new_game(game, height, width, flags) == SAMTREKHU_ACCEPTED);
}

enum {
    GUARD = 64,
    FILL = 0xA5
};

Lent lend(size_t length)
{
    Lent lent;
    lent.length = length;
    lent.all = malloc(length + 2 * GUARD);
    if (lent.all == NULL) {
        printf("no memory\n");
        exit(2);
    }
    lent.at = lent.all + GUARD;
    memset(lent.all, FILL, length + 2 * GUARD);
    return lent;
}

bool kept_from(const Lent *lent, size_t from)
{
    for (size_t i = 0; i < GUARD; i++) {
        if (lent->all[i] != FILL) {
            return false;
        }
    }
    for (size_t i = GUARD + from; i < lent->length + 2 * GUARD; i++) {
        if (lent->all[i] != FILL) {
            return false;
        }
    }
    return true;
}

void give_back(Lent *lent)
{
    free(lent->all);
    lent->all = lent->at = NULL;
}

uint32_t chance(uint32_t *seed, uint32_t below)
{
    *seed ^= *seed << 13;
    *seed ^= *seed >> 17;
    *seed ^= *seed << 5;
    return *seed % below;
}
