/* Answers a text of claims over the library, all at once: answer_claims BUDGET SETS CLAIMS TABLES.. writes a line a claim, its status and
   the line and the moves of its answer. Each input lies in memory of exactly its size, and all memory is given back. */
#include "pdb.h"
#include <stdio.h>
#include <stdlib.h>
#include <string.h>

typedef struct {
    uint8_t *bytes;
    size_t length;
} text;

static text read_text(const char *name) {
    FILE *file = fopen(name, "rb");
    text read = {NULL, 0};
    if (file == NULL || fseek(file, 0, SEEK_END) != 0) exit(2);
    read.length = (size_t)ftell(file);
    read.bytes = malloc(read.length + (read.length == 0));
    rewind(file);
    if (read.bytes == NULL || fread(read.bytes, 1, read.length, file) != read.length) exit(2);
    fclose(file);
    return read;
}

/* The claim of a line, which has `BOARD`, `BOARD : N` or `BOARD ; MOVES`. */
static pdb_claim claim_of(const uint8_t *line, size_t length) {
    const uint8_t *moves = memchr(line, ';', length), *bound = memchr(line, ':', length);
    const uint8_t *mark = moves ? moves : bound;
    pdb_claim claim = {line, length, line, 0, 0, PDB_SHORTEST};
    if (mark != NULL) claim.board_length = (size_t)(mark - line);
    if (moves != NULL) {
        claim.moves = moves + 1;
        claim.moves_length = length - claim.board_length - 1;
        claim.asks = PDB_MOVES;
    } else if (bound != NULL) {
        claim.bound = (uint8_t)atoi((const char *)bound + 1);
        claim.asks = PDB_BOUND;
    }
    return claim;
}

int main(int count, char **words) {
    text sets, lines, files[16];
    pdb_table tables[16];
    pdb_over over;
    pdb_claim *claims;
    pdb_answer *answers;
    size_t table, at, number = 0, begin = 0;
    if (count < 5 || count > 20) return 2;
    sets = read_text(words[2]);
    lines = read_text(words[3]);
    claims = malloc((lines.length + 1) * sizeof *claims);
    answers = malloc((lines.length + 1) * sizeof *answers);
    if (claims == NULL || answers == NULL) return 2;
    over.tables = tables;
    over.count = (size_t)count - 4;
    over.sets = sets.bytes;
    over.sets_length = sets.length;
    over.budget = strtoull(words[1], NULL, 10);
    for (table = 0; table < over.count; table++) {
        files[table] = read_text(words[4 + table]);
        if (pdb_check_table(files[table].bytes, files[table].length, &tables[table], answers) != PDB_YES) return 3;
    }
    for (at = 0; at < lines.length; at++)
        if (lines.bytes[at] == '\n') {
            claims[number++] = claim_of(lines.bytes + begin, at - begin);
            begin = at + 1;
        }
    if (pdb_claims(&over, claims, number, answers) != PDB_YES) return 4;
    for (at = 0; at < number; at++) {
        answers[at].line[strcspn(answers[at].line, "\n")] = 0;
        printf("%d %s ; %s\n", answers[at].status, answers[at].line, answers[at].moves);
    }
    for (table = 0; table < over.count; table++) free(files[table].bytes);
    free(sets.bytes);
    free(lines.bytes);
    free(claims);
    free(answers);
    return 0;
}
