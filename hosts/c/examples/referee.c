/* Referees a short game on a 5 x 5 board: each move goes to the library, which changes the game where it stands or refuses. */
#include "samtrekhu.h"

#include <stdio.h>

static const SamtrekhuMove moves[] = {
    {SAMTREKHU_KIND_STONE, 0, 1},        {SAMTREKHU_KIND_STONE, 0, 2},        {SAMTREKHU_KIND_STONE, 1, 0},
    {SAMTREKHU_KIND_STONE, 1, 3},        {SAMTREKHU_KIND_STONE, 2, 1},        {SAMTREKHU_KIND_STONE, 2, 2},
    {SAMTREKHU_KIND_STONE, 2, 1},                                      /* a stone is there */
    {SAMTREKHU_KIND_STONE, 4, 4},        {SAMTREKHU_KIND_STONE, 0, 0}, /* no liberty */
    {SAMTREKHU_KIND_STONE, 1, 1},        {SAMTREKHU_KIND_STONE, 1, 2}, /* takes one stone, */
    {SAMTREKHU_KIND_STONE, 1, 1},                                      /* which is not taken back at once */
    {SAMTREKHU_KIND_STONE, 5, 0},                                      /* no such row */
    {SAMTREKHU_KIND_STONE, 3, 3},        {SAMTREKHU_KIND_PASS, 0, 0},         {SAMTREKHU_KIND_PASS, 0, 0},
    {SAMTREKHU_KIND_RESIGN_WHITE, 0, 0}, /* two passes stand */
    {SAMTREKHU_KIND_RESUME, 0, 0},       {SAMTREKHU_KIND_RESIGN_WHITE, 0, 0},
};

static SamtrekhuGame game;
static uint8_t history[100 * SAMTREKHU_RECORD_BYTES];

static uint8_t make(SamtrekhuMove move)
{
    switch (move.kind) {
    case SAMTREKHU_KIND_STONE: return samtrekhu_stone_in_place(&game, history, sizeof history, move.row, move.column);
    case SAMTREKHU_KIND_PASS: return samtrekhu_pass_in_place(&game);
    case SAMTREKHU_KIND_RESIGN_BLACK: return samtrekhu_resign_in_place(&game, SAMTREKHU_BLACK);
    case SAMTREKHU_KIND_RESIGN_WHITE: return samtrekhu_resign_in_place(&game, SAMTREKHU_WHITE);
    default: return samtrekhu_resume_in_place(&game);
    }
}

static void print_move(SamtrekhuMove move, uint8_t turn)
{
    const char *player = turn == SAMTREKHU_WHITE ? "White" : "Black";
    switch (move.kind) {
    case SAMTREKHU_KIND_STONE: printf("%s at row %d, column %d", player, move.row, move.column); break;
    case SAMTREKHU_KIND_PASS: printf("%s passes", player); break;
    case SAMTREKHU_KIND_RESIGN_BLACK: printf("Black is named by a resignation"); break;
    case SAMTREKHU_KIND_RESIGN_WHITE: printf("White is named by a resignation"); break;
    default: printf("The game is resumed"); break;
    }
}

int main(void)
{
    SamtrekhuAnswered made = samtrekhu_new_game(5, 5, SAMTREKHU_FORBID_KO | SAMTREKHU_FORBID_SUICIDE);
    if (made.answer != SAMTREKHU_ACCEPTED) {
        printf("%s\n", samtrekhu_sentence(made.answer));
        return 1;
    }
    game = made.game;
    for (size_t i = 0; i < sizeof moves / sizeof moves[0]; i++) {
        print_move(moves[i], samtrekhu_facts_of(game).turn);
        uint8_t number = make(moves[i]);
        if (number == SAMTREKHU_ACCEPTED) {
            printf("\n");
        } else {
            printf(": refused, %d %s. %s\n", number, samtrekhu_name(number), samtrekhu_sentence(number));
        }
    }
    uint8_t picture[SAMTREKHU_PICTURE_BYTES];
    SamtrekhuListed drawn = samtrekhu_pretty_string(game.board, picture, sizeof picture);
    fwrite(picture, 1, drawn.count, stdout);
    SamtrekhuFacts facts = samtrekhu_facts_of(game);
    printf("stones accepted: %d; taken: %u White, %u Black; records: %zu; named: %d\n", facts.accepted, (unsigned)facts.prisoners.white,
           (unsigned)facts.prisoners.black, facts.records, facts.outcome);
    return 0;
}
