/* Checks of the 3-puzzle, with the table that docs/FORMATS.md has in full: a solution, a bound, a shortest solution, and what is false.
   Each line is compared with what it must be, and the status is 1 where one isn't. */
#include "pdb.h"
#include <stdio.h>
#include <string.h>

static int wrong;

static void expect(const char *what, int told, int wanted, const char *text, const char *wanted_text) {
    int is_right = told == wanted && strcmp(text, wanted_text) == 0;
    printf("%s: %d %s%s", is_right ? "right" : "WRONG", told, what, *text ? ": " : "\n");
    if (*text) printf("%s%s", text, text[strlen(text) - 1] == '\n' ? "" : "\n");
    wrong |= !is_right;
}

#define TEXT(text) text, sizeof text - 1

int main(void) {
    /* The tiles 1 and 2 on side 2: a header, and an entry for each placement and region. */
    static uint8_t file[45] = "PDBT\1\2\2\0\0\0\0\6\0\0\0\0\0\0\0\30"
        "\377\376\1\376\377\2\1\376\0\377\377\376\377\376\377\4\3\376\2\377\3\376\377\376";
    static pdb_answer answer, answers[3];
    pdb_table table, none;
    pdb_over over;
    const uint8_t *board = (const uint8_t *)"3 2 1 0", *moves = (const uint8_t *)"ULDRUL";
    uint8_t status = pdb_replay(TEXT("3 2 1 0 ; ULDRUL"), &answer);
    expect("replay", status, PDB_YES, answer.line, "solution 6\n");
    status = pdb_replay(TEXT("3 2 1 0 ; ULDRU"), &answer);
    expect("replay of too few moves", status, PDB_REFUSED, answer.line, "refused M4\n");

    status = pdb_check_table(file, 44, &table, &answer);
    expect("the table", status, PDB_YES, answer.line, "exact side 2 mask 6 entries 24 unreachable 8 deepest 4\n");
    over.tables = &table;
    over.count = 1;
    over.sets = (const uint8_t *)"set 0\n";
    over.sets_length = 6;
    over.budget = 1000000;
    status = pdb_sets(&over, &answer);
    expect("the sets", status, PDB_YES, answer.line, "");
    status = pdb_bound(TEXT("3 2 1 0"), 6, &over, &answer);
    expect("no solution has fewer than 6 moves", status, PDB_YES, answer.line, "bound 6\n");
    status = pdb_bound(TEXT("3 2 1 0"), 8, &over, &answer);
    expect("a false bound", status, PDB_SHORTER, answer.moves, "ULDRUL");
    status = pdb_optimal(TEXT("3 2 1 0"), TEXT("LURDLU"), &over, &answer);
    expect("moves that are a shortest solution", status, PDB_YES, answer.line, "optimal 6\n");
    status = pdb_shortest(TEXT("3 2 1 0"), &over, &answer);
    expect("a shortest solution", status, PDB_YES, answer.moves, "ULDRUL");
    status = pdb_shortest(TEXT("0 2 1 3"), &over, &answer);
    expect("a board without one", status, PDB_REFUSED, answer.line, "refused K2\n");

    {
        pdb_claim claims[3] = {{board, 7, board, 0, 6, PDB_BOUND}, {board, 7, moves, 6, 0, PDB_MOVES}, {board, 7, board, 0, 0, 9}};
        expect("three claims", pdb_claims(&over, claims, 3, answers), PDB_YES, answers[0].line, "bound 6\n");
        expect("the second", answers[1].status, PDB_YES, answers[1].line, "optimal 6\n");
        expect("one that asks for nothing", answers[2].status, PDB_MISUSED, answers[2].line, "");
    }

    file[42] = 1;
    expect("a table with a wrong byte", pdb_check_table(file, 44, &none, &answer), PDB_REFUSED, answer.line, "refused T7 at entry 9\n");
    over.tables = &none;
    expect("sets over it", pdb_bound(TEXT("3 2 1 0"), 6, &over, &answer), PDB_MISUSED, "", "");
    expect("no text", pdb_replay(NULL, 0, &answer), PDB_MISUSED, "", "");
    return wrong;
}
