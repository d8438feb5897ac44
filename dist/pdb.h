/* The proved checks of pdb_cli as a library, for C and C++.

   What a call answers with PDB_YES holds: its sentence below is a clause of the function that the library exports, and proved. These
   functions are the ones named pdb_checker_..; the calls without that word, in this header, look first whether a pointer is null or a
   length too great, which are told by PDB_MISUSED, and nothing is read.

   The caller keeps, as nothing can check it:
   - what is read lies where the pointers say, with these lengths, and doesn't change while a call runs;
   - an answer overlaps nothing that is read;
   - a pdb_table was filled by pdb_check_table, and the bytes of its file have not changed since;
   - malloc, realloc and free are those of one allocator; and no call comes from a signal handler, or from the child of a fork of a
     process with threads.

   A call uses the caller's thread alone, and keeps nothing when it returns. Calls of several threads may run at once, each with
   answers of its own. */
#ifndef PDB_H
#define PDB_H
#include <stddef.h>
#include <stdint.h>
#ifdef __cplusplus
extern "C" {
#endif

/* What a call returns. */
enum {
    PDB_YES = 0,
    PDB_SHORTER = 1,   /* the claim is false: the answer has the moves of a shorter solution */
    PDB_REFUSED = 2,   /* the answer's line says why, as docs/FORMATS.md has it: `refused B1 at byte 6` */
    PDB_NO_MEMORY = 3,
    PDB_MISUSED = 4    /* a pointer is null, a length too great, a table not checked, or a claim asks for nothing */
};

/* What a call tells besides. The two texts end with a zero. */
typedef struct pdb_answer {
    uint16_t count;    /* how many moves the solution has, or the bound; how many sets */
    uint16_t letters;  /* the length of `moves` */
    uint16_t length;   /* the length of `line` */
    uint8_t status;    /* what the call returned */
    char moves[256];   /* the letters of a solution, `U`, `D`, `L`, `R` */
    char line[321];    /* the line that the program answers, with its LF */
} pdb_answer;

/* A handle of a table file that was checked: where its bytes lie. */
typedef struct pdb_table {
    const uint8_t *file;
    size_t length;
} pdb_table;

/* Over what claims are answered: checked tables, of which the first has the number 0; a set text over them; and how many boards a
   search may expand for each claim. */
typedef struct pdb_over {
    const pdb_table *tables;
    size_t count;
    const uint8_t *sets;
    size_t sets_length;
    uint64_t budget;
} pdb_over;

/* What a claim asks. */
enum { PDB_BOUND = 0, PDB_MOVES = 1, PDB_SHORTEST = 2 };

/* A claim: no solution of the board has fewer moves than `bound`; or these moves are a shortest solution; or a shortest solution is
   wanted. The texts that it doesn't need are empty, and their pointers not null. */
typedef struct pdb_claim {
    const uint8_t *board;
    size_t board_length;
    const uint8_t *moves;
    size_t moves_length;
    uint8_t bound;
    uint8_t asks;
} pdb_claim;

/* The functions of the library. */
uint8_t pdb_checker_replay(const uint8_t *puzzle, size_t length, pdb_answer *answer);
uint8_t pdb_checker_table(const uint8_t *file, size_t length, pdb_table *table, pdb_answer *answer);
uint8_t pdb_checker_sets(const pdb_over *over, pdb_answer *answer);
uint8_t pdb_checker_bound(const uint8_t *board, size_t length, uint8_t bound, const pdb_over *over, pdb_answer *answer);
uint8_t pdb_checker_optimal(const uint8_t *board, size_t length, const uint8_t *moves, size_t moves_length, const pdb_over *over,
    pdb_answer *answer);
uint8_t pdb_checker_shortest(const uint8_t *board, size_t length, const pdb_over *over, pdb_answer *answer);
uint8_t pdb_checker_claims(const pdb_over *over, const pdb_claim *claims, size_t count, pdb_answer *answers, size_t answers_count);

/* Whether so many elements of this size can lie there. */
static inline int pdb_fits(const void *at, size_t count, size_t size) { return at != NULL && count <= PTRDIFF_MAX / size; }

static inline int pdb_fits_over(const pdb_over *over) {
    size_t i;
    if (over == NULL || !pdb_fits(over->sets, over->sets_length, 1) || !pdb_fits(over->tables, over->count, sizeof *over->tables)) return 0;
    for (i = 0; i < over->count; i++)
        if (!pdb_fits(over->tables[i].file, over->tables[i].length, 1)) return 0;
    return 1;
}

static inline int pdb_fits_claims(const pdb_claim *claims, size_t count) {
    size_t i;
    if (!pdb_fits(claims, count, sizeof *claims)) return 0;
    for (i = 0; i < count; i++)
        if (!pdb_fits(claims[i].board, claims[i].board_length, 1) || !pdb_fits(claims[i].moves, claims[i].moves_length, 1)) return 0;
    return 1;
}

/* PDB_YES: the puzzle text is a board text, `;` and a moves text, and these moves, answer->count of them, solve the board. */
static inline uint8_t pdb_replay(const void *puzzle, size_t length, pdb_answer *answer) {
    if (answer == NULL || !pdb_fits(puzzle, length, 1)) return PDB_MISUSED;
    return pdb_checker_replay((const uint8_t *)puzzle, length, answer);
}

/* PDB_YES: the bytes are the file of a table in which each entry is the least number of moves that its tiles need. Then the table is
   the handle of these bytes, and lasts as long as they do. Otherwise it is one that all calls tell to be misused. */
static inline uint8_t pdb_check_table(const void *file, size_t length, pdb_table *table, pdb_answer *answer) {
    static const uint8_t nothing = 0;
    uint8_t status = PDB_MISUSED;
    if (table == NULL) return status;
    table->file = &nothing;
    table->length = 0;
    if (answer != NULL && pdb_fits(file, length, 1)) status = pdb_checker_table((const uint8_t *)file, length, table, answer);
    if (status != PDB_YES) table->file = NULL;
    return status;
}

/* PDB_YES: the set text makes sets, answer->count of them, of the tables: of one side, and no two of a set share a tile. */
static inline uint8_t pdb_sets(const pdb_over *over, pdb_answer *answer) {
    if (answer == NULL || !pdb_fits_over(over)) return PDB_MISUSED;
    return pdb_checker_sets(over, answer);
}

/* PDB_YES: no solution of the board that the text spells has fewer moves than the bound. PDB_SHORTER: the answer's moves are one. */
static inline uint8_t pdb_bound(const void *board, size_t length, uint8_t bound, const pdb_over *over, pdb_answer *answer) {
    if (answer == NULL || !pdb_fits(board, length, 1) || !pdb_fits_over(over)) return PDB_MISUSED;
    return pdb_checker_bound((const uint8_t *)board, length, bound, over, answer);
}

/* PDB_YES: the moves, answer->count of them, solve the board, and no solution has fewer. PDB_SHORTER: the answer's moves are one. */
static inline uint8_t pdb_optimal(const void *board, size_t length, const void *moves, size_t moves_length, const pdb_over *over,
    pdb_answer *answer) {
    if (answer == NULL || !pdb_fits(board, length, 1) || !pdb_fits(moves, moves_length, 1) || !pdb_fits_over(over)) return PDB_MISUSED;
    return pdb_checker_optimal((const uint8_t *)board, length, (const uint8_t *)moves, moves_length, over, answer);
}

/* PDB_YES: the answer's moves, answer->count of them, solve the board, and no solution has fewer. */
static inline uint8_t pdb_shortest(const void *board, size_t length, const pdb_over *over, pdb_answer *answer) {
    if (answer == NULL || !pdb_fits(board, length, 1) || !pdb_fits_over(over)) return PDB_MISUSED;
    return pdb_checker_shortest((const uint8_t *)board, length, over, answer);
}

/* Answers many claims: what helps with hard ones is made once for all. PDB_YES: each answer has a status of its own, and by that it
   says what the three calls above say. Otherwise the tables and sets are refused, as each answer tells. */
static inline uint8_t pdb_claims(const pdb_over *over, const pdb_claim *claims, size_t count, pdb_answer *answers) {
    if (!pdb_fits_over(over) || !pdb_fits_claims(claims, count) || !pdb_fits(answers, count, sizeof *answers)) return PDB_MISUSED;
    return pdb_checker_claims(over, claims, count, answers, count);
}

#ifdef __cplusplus
}
#endif
#endif
