/* Samtrekhu, a Go referee: the calls of the proved static library crates/border/out/libborder.a, which `rt lib` writes there.
 * C99, also for C++. Link the archive and nothing else: it asks the C library for memcpy and memset alone.
 *
 * STATES. A game and a board are structs of integers, and hold no pointer: they can be copied, kept and thrown away as any number can. Any
 * bytes at all may stand in one. A call judges the state that it gets before all else, and answers 3 (Damaged) exactly if it is not a true
 * state. Bytes of padding mean nothing, and a call may change them. Of three bytes of a game every value means something: `turn` (2 is
 * White, all else Black), `outcome` (1 is Black, 2 White, all else none) and `begun` (0 is a game that has not begun, all else one that
 * has). Which of the values that mean the same a call writes is left free, and so is which slot a chain stands in and what unused slots
 * hold. Two games that are alike may therefore differ as bytes: read a game by samtrekhu_facts_of and the queries, not by its fields.
 *
 * NUMBERS. Every call answers a number of enum SamtrekhuNumber, but for the three that say whether a state is true. A contract below
 * lists, after "Answers", the numbers that the call can answer in the order in which they are tested: the first that applies is
 * answered, 0 (Accepted) if none does.
 *
 * REFUSALS. A call that answers anything but 0 gives back the state that it got, field by field, and leaves the bytes and places that it was
 * lent as they were. Replay alone keeps what its accepted entries did. Other values that come with a refusal are stated at each call.
 *
 * POINTS. Row 0 is at the top, column 0 at the left. The index of a point is row * width + column. Rows, columns, heights, widths, flags,
 * colours and players are bytes: C cuts a larger number to its low byte without a word (a row of 256 would arrive as 0), so a host compares
 * a stranger's number with 255 before it calls, and takes anything above as 255, which is no row, column, side, flag byte or colour.
 *
 * LENT RANGES. A range is a pointer and a length in elements. With length 0 the pointer may be NULL. Otherwise it is aligned for its elements
 * and leads to that many of them, which no one else writes while the call runs; those that the call may write (a pointer to what is not
 * const) no one else reads either. The ranges of one call must not overlap each other, nor the game of a call in place. A call keeps no
 * pointer.
 *
 * HISTORY. A history is bytes that the host lends, with room for length / SAMTREKHU_RECORD_BYTES records (whole ones; the bytes behind
 * them never change). The game counts its records and the bytes hold them: lend the same bytes to each call of one game, and
 * give each game its own. Any bytes may stand in it when a game begins. A state that counts more records than the history has room for is
 * damaged in the calls that are lent a history. One record for each stone is always enough: at most 65,535.
 *
 * THREADS. The library has no variable of its own, so different games may be used on different threads at once. Calls that are lent
 * the same game in place or the same history must come one after the other, as with any memory.
 *
 * STACK. A call needs less than 262,144 bytes of stack, with the structs that are passed and given back by value (measured, not proved:
 * docs/BENCHMARKS.md). A thread that calls needs that much beside what it uses itself. No call allocates, traps, recurses or waits, and
 * every call ends. */
#ifndef SAMTREKHU_H
#define SAMTREKHU_H

#include <stdbool.h>
#include <stddef.h>
#include <stdint.h>

#ifdef __cplusplus
extern "C" {
#endif

/* ---- Numbers */

/* What a call answers. */
enum SamtrekhuNumber {
    SAMTREKHU_ACCEPTED = 0,        /* none below applies */
    SAMTREKHU_BAD_SIZE = 1,        /* height or width outside 1 to 19 */
    SAMTREKHU_BAD_FLAGS = 2,       /* flag byte above 15 */
    SAMTREKHU_DAMAGED = 3,         /* the state given is not a true state */
    SAMTREKHU_GAME_PAUSED = 4,     /* two passes stand */
    SAMTREKHU_OFF_BOARD = 5,       /* the row or the column is not on the board */
    SAMTREKHU_POINT_NOT_EMPTY = 6, /* a stone is there */
    SAMTREKHU_SUICIDE = 7,         /* suicide is forbidden, and this is one */
    SAMTREKHU_KO = 8,              /* ko is forbidden and the ko test holds */
    SAMTREKHU_SUPER_KO = 8,        /* superko is forbidden and the superko test holds: the same number */
    SAMTREKHU_FILL_EYE = 9,        /* filling an eye is forbidden, and this is one */
    SAMTREKHU_MOVE_LIMIT = 10,     /* 65,535 stones are accepted already */
    SAMTREKHU_HISTORY_FULL = 11,   /* the present board has no equal record and no room is left */
    SAMTREKHU_NOT_AT_START = 12,   /* a handicap after an accepted handicap, stone, pass or resignation */
    SAMTREKHU_NO_LIBERTY = 13,     /* the finished placement has a chain without liberty */
    SAMTREKHU_BAD_LENGTH = 14,     /* colour bytes that are not as many as the points, or a buffer that is too short */
    SAMTREKHU_BAD_COLOUR = 15,     /* a colour byte above 2 */
    SAMTREKHU_BAD_KIND = 18        /* a replay entry's kind above 4 */
};

/* Flags: the sum of what a game forbids. */
enum SamtrekhuFlag {
    SAMTREKHU_FORBID_KO = 1,
    SAMTREKHU_FORBID_SUICIDE = 2,
    SAMTREKHU_FORBID_FILL_EYE = 4,
    SAMTREKHU_FORBID_SUPER_KO = 8
};

/* The colour of a point; a player has the number of the stones' colour. */
enum SamtrekhuColour {
    SAMTREKHU_EMPTY = 0,
    SAMTREKHU_BLACK = 1,
    SAMTREKHU_WHITE = 2
};

/* The kinds of a replay's entries. */
enum SamtrekhuKind {
    SAMTREKHU_KIND_STONE = 0,
    SAMTREKHU_KIND_PASS = 1,
    SAMTREKHU_KIND_RESIGN_BLACK = 2, /* a resignation that names Black */
    SAMTREKHU_KIND_RESIGN_WHITE = 3, /* a resignation that names White */
    SAMTREKHU_KIND_RESUME = 4
};

/* ---- Sizes */

enum SamtrekhuSize {
    SAMTREKHU_MAX_SIDE = 19,       /* height and width reach from 1 to this */
    SAMTREKHU_MAX_AREA = 361,      /* the points of the largest board: places that are enough for every list */
    SAMTREKHU_LIBERTY_BYTES = 46,  /* a liberty set: point p is bit p % 8 of byte p / 8 */
    SAMTREKHU_MAX_CHAINS = 288,    /* the most chains that can stand at rest */
    SAMTREKHU_SLOTS = 289,         /* the slots of the chain table */
    SAMTREKHU_HASH_BYTES = 8,      /* a record begins with the hash, low byte first, */
    SAMTREKHU_COLOUR_BYTES = 91,   /* goes on with the colours, point p in the bits from 2 * (p % 4) of byte p / 4, */
    SAMTREKHU_RECORD_BYTES = 100,  /* and ends with a zero byte */
    SAMTREKHU_MAX_STONES = 65535,  /* the most stones that a game accepts, handicap not counted */
    SAMTREKHU_MAX_FLAGS = 15,      /* the largest flag byte */
    SAMTREKHU_PICTURE_BYTES = 1102 /* the largest picture; one of a smaller board has height * (3 * width + 1) bytes */
};

enum SamtrekhuNone {
    SAMTREKHU_NO_CHAIN = 289,  /* what owns an empty point, and a place beyond the board */
    SAMTREKHU_NO_POINT = 65535 /* the ko point where none stands */
};

/* ---- The state */

/* A number for each player. */
typedef struct SamtrekhuTally {
    uint32_t black;
    uint32_t white;
} SamtrekhuTally;

/* One chain: its stones go round from origin, the least point, to last and back by the board's links. A slot is free if its count is 0. */
typedef struct SamtrekhuChain {
    uint8_t liberties[SAMTREKHU_LIBERTY_BYTES];
    uint8_t colour;
    uint16_t origin;
    uint16_t last;
    uint16_t count;
} SamtrekhuChain;

typedef struct SamtrekhuBoard {
    uint8_t height;
    uint8_t width;
    uint64_t hash;
    uint16_t owners[SAMTREKHU_MAX_AREA]; /* the slot of the chain that stands on each point, or SAMTREKHU_NO_CHAIN */
    uint16_t next[SAMTREKHU_MAX_AREA];   /* the links from stone to stone of a chain */
    SamtrekhuChain chains[SAMTREKHU_SLOTS];
} SamtrekhuBoard;

typedef struct SamtrekhuGame {
    SamtrekhuBoard board;
    uint8_t flags;
    uint8_t turn;    /* 2 is White; anything else is Black */
    uint8_t passes;  /* 0 to 2 */
    uint8_t outcome; /* the player that a resignation named, 1 Black or 2 White; anything else is none */
    uint8_t begun;   /* 0 is a game that has not begun */
    uint16_t ko;     /* the ko point's index, or SAMTREKHU_NO_POINT */
    uint16_t handicap;
    uint16_t accepted;   /* stones accepted, handicap not counted */
    SamtrekhuTally held; /* stones of each colour that are held prisoner */
    SamtrekhuTally put;  /* stones of each colour that were put down, handicap counted */
    size_t records;      /* how many records the history holds */
} SamtrekhuGame;

/* One entry of a replay. A row and a column count only where the kind is a stone. */
typedef struct SamtrekhuMove {
    uint8_t kind;
    uint8_t row;
    uint8_t column;
} SamtrekhuMove;

/* ---- What the calls give back */

typedef struct SamtrekhuAnswered {
    uint8_t answer;
    SamtrekhuGame game;
} SamtrekhuAnswered;

typedef struct SamtrekhuReplayed {
    size_t entries; /* how many entries were accepted */
    uint8_t answer; /* the number of the first that was refused, 0 if none was */
    SamtrekhuGame game;
} SamtrekhuReplayed;

typedef struct SamtrekhuReplayedInPlace {
    size_t entries;
    uint8_t answer;
} SamtrekhuReplayedInPlace;

typedef struct SamtrekhuPlaced {
    uint8_t answer;
    SamtrekhuBoard board;
} SamtrekhuPlaced;

typedef struct SamtrekhuBoardAnswer {
    uint8_t answer;
    SamtrekhuBoard board;
} SamtrekhuBoardAnswer;

/* The answer's number, and how many places from the front of the buffer were filled: 0 where the call is refused. */
typedef struct SamtrekhuListed {
    uint8_t number;
    size_t count;
} SamtrekhuListed;

typedef struct SamtrekhuSizeAnswer {
    uint8_t answer;
    uint8_t height;
    uint8_t width;
} SamtrekhuSizeAnswer;

typedef struct SamtrekhuHashAnswer {
    uint8_t answer;
    uint64_t hash;
} SamtrekhuHashAnswer;

typedef struct SamtrekhuStonesAnswer {
    uint8_t answer;
    size_t black;
    size_t white;
} SamtrekhuStonesAnswer;

typedef struct SamtrekhuChainsAnswer {
    uint8_t answer;
    size_t chains;
} SamtrekhuChainsAnswer;

typedef struct SamtrekhuColourAnswer {
    uint8_t answer;
    uint8_t colour;
} SamtrekhuColourAnswer;

typedef struct SamtrekhuTestAnswer {
    uint8_t answer;
    bool holds;
} SamtrekhuTestAnswer;

typedef struct SamtrekhuChainAnswer {
    uint8_t answer;
    bool present;
    uint8_t colour;
    size_t stones;
    size_t liberties;
    bool atari;    /* exactly one liberty */
    size_t origin; /* the least point of the chain */
} SamtrekhuChainAnswer;

/* All that is known of a game beside its board. */
typedef struct SamtrekhuFacts {
    uint8_t answer;
    uint8_t height;
    uint8_t width;
    uint8_t flags;
    uint8_t turn; /* 1 Black, 2 White */
    uint8_t passes;
    uint8_t outcome;   /* the player that a resignation named: 0 none, 1 Black, 2 White */
    bool over;         /* an outcome stands, or two passes */
    uint16_t ko;       /* the ko point's index, or SAMTREKHU_NO_POINT */
    uint16_t handicap; /* stones of the handicap */
    uint16_t accepted; /* stones accepted, handicap not counted */
    SamtrekhuTally prisoners;
    size_t records;
} SamtrekhuFacts;

/* The layout is the library's: sizes and offsets, with size_t of 8 bytes. A line that does not hold does not compile. */
#define SAMTREKHU_LAYOUT(name, condition) typedef char samtrekhu_layout_##name[(condition) ? 1 : -1]
SAMTREKHU_LAYOUT(word, sizeof(size_t) == 8 && sizeof(bool) == 1);
SAMTREKHU_LAYOUT(tally, sizeof(SamtrekhuTally) == 8);
SAMTREKHU_LAYOUT(chain, sizeof(SamtrekhuChain) == 54);
SAMTREKHU_LAYOUT(chain_colour, offsetof(SamtrekhuChain, colour) == 46);
SAMTREKHU_LAYOUT(chain_origin, offsetof(SamtrekhuChain, origin) == 48);
SAMTREKHU_LAYOUT(chain_last, offsetof(SamtrekhuChain, last) == 50);
SAMTREKHU_LAYOUT(chain_count, offsetof(SamtrekhuChain, count) == 52);
SAMTREKHU_LAYOUT(board, sizeof(SamtrekhuBoard) == 0x42b0);
SAMTREKHU_LAYOUT(board_hash, offsetof(SamtrekhuBoard, hash) == 8);
SAMTREKHU_LAYOUT(board_owners, offsetof(SamtrekhuBoard, owners) == 16);
SAMTREKHU_LAYOUT(board_next, offsetof(SamtrekhuBoard, next) == 738);
SAMTREKHU_LAYOUT(board_chains, offsetof(SamtrekhuBoard, chains) == 1460);
SAMTREKHU_LAYOUT(game, sizeof(SamtrekhuGame) == 0x42d8);
SAMTREKHU_LAYOUT(game_flags, offsetof(SamtrekhuGame, flags) == 0x42b0);
SAMTREKHU_LAYOUT(game_begun, offsetof(SamtrekhuGame, begun) == 0x42b4);
SAMTREKHU_LAYOUT(game_ko, offsetof(SamtrekhuGame, ko) == 0x42b6);
SAMTREKHU_LAYOUT(game_accepted, offsetof(SamtrekhuGame, accepted) == 0x42ba);
SAMTREKHU_LAYOUT(game_held, offsetof(SamtrekhuGame, held) == 0x42bc);
SAMTREKHU_LAYOUT(game_put, offsetof(SamtrekhuGame, put) == 0x42c4);
SAMTREKHU_LAYOUT(game_records, offsetof(SamtrekhuGame, records) == 0x42d0);
SAMTREKHU_LAYOUT(move, sizeof(SamtrekhuMove) == 3);
SAMTREKHU_LAYOUT(answered, sizeof(SamtrekhuAnswered) == 0x42e0);
SAMTREKHU_LAYOUT(answered_game, offsetof(SamtrekhuAnswered, game) == 8);
SAMTREKHU_LAYOUT(replayed, sizeof(SamtrekhuReplayed) == 0x42e8);
SAMTREKHU_LAYOUT(replayed_game, offsetof(SamtrekhuReplayed, game) == 16);
SAMTREKHU_LAYOUT(replayed_in_place, sizeof(SamtrekhuReplayedInPlace) == 16);
SAMTREKHU_LAYOUT(placed, sizeof(SamtrekhuPlaced) == 0x42b8);
SAMTREKHU_LAYOUT(placed_board, offsetof(SamtrekhuPlaced, board) == 8);
SAMTREKHU_LAYOUT(board_answer, sizeof(SamtrekhuBoardAnswer) == 0x42b8);
SAMTREKHU_LAYOUT(listed, sizeof(SamtrekhuListed) == 16);
SAMTREKHU_LAYOUT(size_answer, sizeof(SamtrekhuSizeAnswer) == 3);
SAMTREKHU_LAYOUT(hash_answer, sizeof(SamtrekhuHashAnswer) == 16);
SAMTREKHU_LAYOUT(stones_answer, sizeof(SamtrekhuStonesAnswer) == 24);
SAMTREKHU_LAYOUT(chains_answer, sizeof(SamtrekhuChainsAnswer) == 16);
SAMTREKHU_LAYOUT(colour_answer, sizeof(SamtrekhuColourAnswer) == 2);
SAMTREKHU_LAYOUT(test_answer, sizeof(SamtrekhuTestAnswer) == 2);
SAMTREKHU_LAYOUT(chain_answer, sizeof(SamtrekhuChainAnswer) == 40);
SAMTREKHU_LAYOUT(chain_answer_stones, offsetof(SamtrekhuChainAnswer, stones) == 8);
SAMTREKHU_LAYOUT(chain_answer_atari, offsetof(SamtrekhuChainAnswer, atari) == 24);
SAMTREKHU_LAYOUT(facts, sizeof(SamtrekhuFacts) == 32);
SAMTREKHU_LAYOUT(facts_ko, offsetof(SamtrekhuFacts, ko) == 8);
SAMTREKHU_LAYOUT(facts_prisoners, offsetof(SamtrekhuFacts, prisoners) == 16);
SAMTREKHU_LAYOUT(facts_records, offsetof(SamtrekhuFacts, records) == 24);
#undef SAMTREKHU_LAYOUT

/* ---- Numbers in words, for a host's messages */

/* The name of a number, "Suicide" for 7. The library answers no number that is "Unknown". */
static inline const char *samtrekhu_name(uint8_t number)
{
    switch (number) {
    case SAMTREKHU_ACCEPTED: return "Accepted";
    case SAMTREKHU_BAD_SIZE: return "BadSize";
    case SAMTREKHU_BAD_FLAGS: return "BadFlags";
    case SAMTREKHU_DAMAGED: return "Damaged";
    case SAMTREKHU_GAME_PAUSED: return "GamePaused";
    case SAMTREKHU_OFF_BOARD: return "OffBoard";
    case SAMTREKHU_POINT_NOT_EMPTY: return "PointNotEmpty";
    case SAMTREKHU_SUICIDE: return "Suicide";
    case SAMTREKHU_KO: return "Ko";
    case SAMTREKHU_FILL_EYE: return "FillEye";
    case SAMTREKHU_MOVE_LIMIT: return "MoveLimit";
    case SAMTREKHU_HISTORY_FULL: return "HistoryFull";
    case SAMTREKHU_NOT_AT_START: return "NotAtStart";
    case SAMTREKHU_NO_LIBERTY: return "NoLiberty";
    case SAMTREKHU_BAD_LENGTH: return "BadLength";
    case SAMTREKHU_BAD_COLOUR: return "BadColour";
    case SAMTREKHU_BAD_KIND: return "BadKind";
    default: return "Unknown";
    }
}

/* A sentence that tells a player why. */
static inline const char *samtrekhu_sentence(uint8_t number)
{
    switch (number) {
    case SAMTREKHU_ACCEPTED: return "Accepted.";
    case SAMTREKHU_BAD_SIZE: return "A board has 1 to 19 rows and 1 to 19 columns.";
    case SAMTREKHU_BAD_FLAGS: return "Flags are a sum of 1, 2, 4 and 8.";
    case SAMTREKHU_DAMAGED: return "The state of the game is damaged.";
    case SAMTREKHU_GAME_PAUSED: return "Both players have passed: resume the game to play on.";
    case SAMTREKHU_OFF_BOARD: return "This point is not on the board.";
    case SAMTREKHU_POINT_NOT_EMPTY: return "A stone is there already.";
    case SAMTREKHU_SUICIDE: return "The stone would have no liberty, and suicide is forbidden.";
    case SAMTREKHU_KO: return "Ko forbids a stone there now.";
    case SAMTREKHU_FILL_EYE: return "The stone would fill an eye of its own, which is forbidden.";
    case SAMTREKHU_MOVE_LIMIT: return "The game has as many stones as a game can have.";
    case SAMTREKHU_HISTORY_FULL: return "There is no room left to record the position.";
    case SAMTREKHU_NOT_AT_START: return "A handicap is given before all else.";
    case SAMTREKHU_NO_LIBERTY: return "A chain would stand without a liberty.";
    case SAMTREKHU_BAD_LENGTH: return "What was lent has not the length that the board needs.";
    case SAMTREKHU_BAD_COLOUR: return "A colour is 0 for empty, 1 for Black or 2 for White.";
    case SAMTREKHU_BAD_KIND: return "An entry of a replay is a stone, a pass, a resignation or a resumption.";
    default: return "No call answers this number.";
    }
}

/* A spot of a handicap. */
static inline uint16_t samtrekhu_spot(uint8_t row, uint8_t column) { return (uint16_t)(row * 256 + column); }

/* ---- A board: made */

/* An empty board. Answers: 1. Refused: an empty 1 x 1 board. */
SamtrekhuPlaced samtrekhu_new_board(uint8_t height, uint8_t width);

/* A board with the given colours, a byte for each point by its index: 0 empty, 1 Black, 2 White.
 * Answers: 1, 14 (length is not height * width), 15 (some byte is above 2), 13. Refused: an empty 1 x 1 board. */
SamtrekhuPlaced samtrekhu_from_colours(uint8_t height, uint8_t width, const uint8_t *colours, size_t length);

/* ---- A board: asked. Each judges the board first, and only that: 3 where it is not a true board. */

/* Whether it is a true board: no number, no refusal. */
bool samtrekhu_is_true_board(SamtrekhuBoard board);

/* Answers: 3. Refused: 0 and 0. */
SamtrekhuSizeAnswer samtrekhu_size(SamtrekhuBoard board);

/* The hash of the position. Answers: 3. Refused: 0. An empty board's hash is 0 as well. */
SamtrekhuHashAnswer samtrekhu_zobrist_hash(SamtrekhuBoard board);

/* The stones of each colour. Answers: 3. Refused: 0 and 0. */
SamtrekhuStonesAnswer samtrekhu_number_of_stones(SamtrekhuBoard board);

/* How many chains stand. Answers: 3. Refused: 0. */
SamtrekhuChainsAnswer samtrekhu_number_of_chains(SamtrekhuBoard board);

/* The colour of a point. Answers: 3, 5. Refused: 0. */
SamtrekhuColourAnswer samtrekhu_get_color(SamtrekhuBoard board, uint8_t row, uint8_t column);

/* Whether a point, empty or not, has an empty neighbour. Answers: 3, 5. Refused: false. */
SamtrekhuTestAnswer samtrekhu_has_liberties(SamtrekhuBoard board, uint8_t row, uint8_t column);

/* The chain at a point. Answers: 3, 5. At an empty point 0 is answered and none is present. Refused, or none: false and 0 everywhere. */
SamtrekhuChainAnswer samtrekhu_chain_at(SamtrekhuBoard board, uint8_t row, uint8_t column);

/* Whether the second point is a liberty of the chain at the first; false where the first is empty.
 * Answers: 3, 5 (of either point). Refused: false. */
SamtrekhuTestAnswer samtrekhu_contains_liberty(SamtrekhuBoard board, uint8_t row, uint8_t column, uint8_t other_row, uint8_t other_column);

/* ---- A board: lists of points. Accepted: the points as ascending indexes from the front of the buffer on; the places behind them stay as
 * they were. Refused: count 0, and every place stays. The buffer needs height * width places, also where fewer would do. */

/* The points that are not empty. Answers: 3, 14. */
SamtrekhuListed samtrekhu_get_stones(SamtrekhuBoard board, uint16_t *buffer, size_t places);

/* The points of a colour; the empty ones for 0. Answers: 3, 14, 15 (the colour is above 2). */
SamtrekhuListed samtrekhu_get_coords_by_color(SamtrekhuBoard board, uint8_t colour, uint16_t *buffer, size_t places);

/* The empty points. Answers: 3, 14. */
SamtrekhuListed samtrekhu_get_empty_coords(SamtrekhuBoard board, uint16_t *buffer, size_t places);

/* The stones of the chain at a point; none at an empty point. Answers: 3, 5, 14. */
SamtrekhuListed samtrekhu_chain_stones(SamtrekhuBoard board, uint8_t row, uint8_t column, uint16_t *buffer, size_t places);

/* The liberties of the chain at a point; none at an empty point. Answers: 3, 5, 14. */
SamtrekhuListed samtrekhu_chain_liberties(SamtrekhuBoard board, uint8_t row, uint8_t column, uint16_t *buffer, size_t places);

/* The points beside a point. Answers: 3, 5, 14. */
SamtrekhuListed samtrekhu_get_connected_points(SamtrekhuBoard board, uint8_t row, uint8_t column, uint16_t *buffer, size_t places);

/* The stones beside a point. Answers: 3, 5, 14. */
SamtrekhuListed samtrekhu_get_connected_stones(SamtrekhuBoard board, uint8_t row, uint8_t column, uint16_t *buffer, size_t places);

/* The empty points beside a point. Answers: 3, 5, 14. */
SamtrekhuListed samtrekhu_get_liberties(SamtrekhuBoard board, uint8_t row, uint8_t column, uint16_t *buffer, size_t places);

/* The chains that own a point beside this one, each by its least point; a stone's own chain too, if it goes on beside it.
 * Answers: 3, 5, 14. The buffer needs height * width places here as well. */
SamtrekhuListed samtrekhu_get_connected_groups(SamtrekhuBoard board, uint8_t row, uint8_t column, uint16_t *buffer, size_t places);

/* ---- A board: bytes. Accepted: `count` bytes from the front of the buffer on; those behind them stay as they were. Refused: count 0, and
 * every byte stays. */

/* The colours of the points by index: height * width bytes. Answers: 3, 14. */
SamtrekhuListed samtrekhu_to_vec(SamtrekhuBoard board, uint8_t *buffer, size_t length);

/* The picture in UTF-8: a three-byte sign for each point and a newline behind each row, height * (3 * width + 1) bytes. No zero byte is
 * written behind it. Answers: 3, 14. */
SamtrekhuListed samtrekhu_pretty_string(SamtrekhuBoard board, uint8_t *buffer, size_t length);

/* ---- A game: made and changed. The state comes by value and goes back in the answer. Refused: the game that was passed. */

/* A game in which nothing has happened yet: Black to move, no ko point, no records. Answers: 1, 2. Refused: a new 1 x 1 game with flags 0. */
SamtrekhuAnswered samtrekhu_new_game(uint8_t height, uint8_t width, uint8_t flags);

/* Black stones on the spots, each row * 256 + column (samtrekhu_spot); the handicap is their count and White is to move, also for no spots.
 * Answers: 3, 12, then at each spot in order 5 before 6 (a spot given twice is 6), then 13. */
SamtrekhuAnswered samtrekhu_handicap(SamtrekhuGame game, const uint16_t *spots, size_t count);

/* A stone of the player to move. The board before it becomes the next record of the history, unless it is among the records. Then the
 * point is coloured, enemy chains without liberty are taken, then own ones where suicide is not forbidden. Passes become 0, the turn changes,
 * and the ko point is the one stone that was taken, if it was one chain of one stone, else none.
 * Answers: 3 (also if the records exceed length / 100), 4, 5, 6, 7, 8 (ko), 9, 8 (superko), 10, 11. Refused: the history is as it was. */
SamtrekhuAnswered samtrekhu_stone(SamtrekhuGame game, uint8_t *history, size_t length, uint8_t row, uint8_t column);

/* A pass: changes the turn, clears the ko point, adds one to the passes, records nothing. Answers: 3, 4. */
SamtrekhuAnswered samtrekhu_pass(SamtrekhuGame game);

/* A resignation: the outcome names the player, and nothing else changes but that the game has begun; later moves are accepted.
 * 2 names White, any other byte Black. Answers: 3, 4. */
SamtrekhuAnswered samtrekhu_resign(SamtrekhuGame game, uint8_t player);

/* Sets the passes to 0 and changes nothing else. Answers: 3. */
SamtrekhuAnswered samtrekhu_resume(SamtrekhuGame game);

/* The entries in order, up to the first that is refused. The state is judged once, before them. Game and history are as the accepted
 * entries left them; where none was accepted, as they were.
 * Answers: 3 with 0 entries (also if the records exceed length / 100); else 0, or the refused entry's number: 18, then its call's order. */
SamtrekhuReplayed samtrekhu_replay(SamtrekhuGame game, uint8_t *history, size_t length, const SamtrekhuMove *moves, size_t entries);

/* ---- A game: changed where it stands. As the call of the same name by value; the game must not be NULL. */

/* Answers: 3, 4, 5, 6, 7, 8 (ko), 9, 8 (superko), 10, 11. Refused: game and history are as they were. */
uint8_t samtrekhu_stone_in_place(SamtrekhuGame *game, uint8_t *history, size_t length, uint8_t row, uint8_t column);

/* Answers: 3, 4. Refused: the game is as it was. */
uint8_t samtrekhu_pass_in_place(SamtrekhuGame *game);

/* 2 names White, any other byte Black. Answers: 3, 4. Refused: the game is as it was. */
uint8_t samtrekhu_resign_in_place(SamtrekhuGame *game, uint8_t player);

/* Answers: 3. Refused: the game is as it was. */
uint8_t samtrekhu_resume_in_place(SamtrekhuGame *game);

/* Answers: 3, 12, then at each spot in order 5 before 6, then 13. Refused: the game is as it was. */
uint8_t samtrekhu_handicap_in_place(SamtrekhuGame *game, const uint16_t *spots, size_t count);

/* Answers: 3 with 0 entries; else 0, or what the refused entry answers. Game and history are as the accepted entries left them. */
SamtrekhuReplayedInPlace samtrekhu_replay_in_place(SamtrekhuGame *game, uint8_t *history, size_t length, const SamtrekhuMove *moves,
                                                   size_t entries);

/* ---- A game: asked. What is lent as const is read alone. */

/* Whether it is a true state, no history being lent. */
bool samtrekhu_is_true_game(SamtrekhuGame game);

/* The same for calls that are lent a history of this many bytes: its records have room there too. */
bool samtrekhu_is_true_game_with(SamtrekhuGame game, size_t length);

/* Answers: 3. Refused: false and 0 everywhere, and SAMTREKHU_NO_POINT for the ko point. */
SamtrekhuFacts samtrekhu_facts_of(SamtrekhuGame game);

/* The board. Answers: 3. Refused: an empty 1 x 1 board. */
SamtrekhuBoardAnswer samtrekhu_board_of(SamtrekhuGame game);

/* What a stone of the player to move would be answered by these flags, but for a pause, the limit of stones and the room for a record.
 * Answers: 3 (also if the records exceed length / 100), 2, 5, 6, 7, 8 (ko), 9, 8 (superko). */
uint8_t samtrekhu_check_point_by(SamtrekhuGame game, const uint8_t *history, size_t length, uint8_t flags, uint8_t row, uint8_t column);

/* The same by the game's own flags. Answers: 3, 5, 6, 7, 8 (ko), 9, 8 (superko). */
uint8_t samtrekhu_check_point(SamtrekhuGame game, const uint8_t *history, size_t length, uint8_t row, uint8_t column);

/* The points that the check by these flags accepts, listed as those of a board are (see there), in height * width places.
 * Answers: 3 (also if the records exceed length / 100), 2, 14. */
SamtrekhuListed samtrekhu_legals_by(SamtrekhuGame game, const uint8_t *history, size_t length, uint8_t flags, uint16_t *buffer,
                                    size_t places);

/* The same by the game's own flags. Answers: 3, 14. */
SamtrekhuListed samtrekhu_legals(SamtrekhuGame game, const uint8_t *history, size_t length, uint16_t *buffer, size_t places);

/* The empty points, listed in the same way. Answers: 3, 14. */
SamtrekhuListed samtrekhu_empty_points(SamtrekhuGame game, uint16_t *buffer, size_t places);

/* The tests, of a stone of the player to move and whatever the flags are. Where a stone stands none holds. Answers: 3, 5. Refused: false. */

/* Takes the last liberty of an enemy chain. */
SamtrekhuTestAnswer samtrekhu_will_capture(SamtrekhuGame game, uint8_t row, uint8_t column);

/* No empty neighbour, no neighbouring own chain with a liberty count other than 1, no neighbouring enemy chain with count 1. */
SamtrekhuTestAnswer samtrekhu_is_suicide_at(SamtrekhuGame game, uint8_t row, uint8_t column);

/* The ko point, and no neighbouring chain of either colour has one liberty and more than one stone. */
SamtrekhuTestAnswer samtrekhu_is_ko_at(SamtrekhuGame game, uint8_t row, uint8_t column);

/* An eye of the player to move. */
SamtrekhuTestAnswer samtrekhu_is_eye_at(SamtrekhuGame game, uint8_t row, uint8_t column);

/* More than two records, a neighbouring enemy chain with one liberty, and either the ko test holds or the board that the stone would leave is
 * among the records. Answers: 3 (also if the records exceed length / 100), 5. */
SamtrekhuTestAnswer samtrekhu_is_superko_at(SamtrekhuGame game, const uint8_t *history, size_t length, uint8_t row, uint8_t column);

#ifdef __cplusplus
}
#endif

#endif
