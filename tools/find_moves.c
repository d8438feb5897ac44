/* Finds moves that solve boards, by a beam: of each level of boards, all one move away from the last level, those are kept whose sums
 * are least.
 *
 *     cc -O3 -march=native -o find_moves tools/find_moves.c
 *     ./find_moves WIDTH SETS TABLES.. <BOARDS >CLAIMS
 *
 * A line of BOARDS has the numbers of a board; what stands behind them is passed over. Its line of CLAIMS is `BOARD ; MOVES`, as
 * `prove` reads it. WIDTH is how many boards of a level are kept, as 100000: more find shorter moves, and take longer. SETS is a set
 * text, and TABLES are the files that it numbers; they are believed. Nothing is proved here: moves may be more than a shortest
 * solution's, and `prove` replays them and tells. Of the same input the moves are the same.
 *
 * The time and the number of moves of each board go to standard error. The status is 0; 1 where a board has no solution by parity, or
 * none was found, and its line is left out; and 2 where the words or a file are wrong. */
#include "sliding.h"
#include <time.h>

enum { MOST_MEMBERS = 32, DEEPEST = 400, BLOCK = 256, MOST_KEYS = 4096 };

struct member {
    const struct table *table;
    int transposed;
};

/* A board of the beam, with the counts of all members and the sums of the sets. */
struct stand {
    uint64_t name; /* a hash */
    uint8_t cell[MOST_CELLS], blank, way;
    uint8_t count[MOST_MEMBERS], sum[MOST_SETS];
    uint16_t key;
    uint32_t from;
};

static struct member member[MOST_MEMBERS];
static int members, sets, owner[MOST_SETS][MOST_CELLS];
static uint64_t hash_of[MOST_CELLS][MOST_CELLS];
static uint32_t width, *parent[DEEPEST];
static uint8_t *way_into[DEEPEST];

static void read_sets(const char *name)
{
    static char text[65537];
    FILE *in = fopen(name, "r");
    if (!in || !fread(text, 1, sizeof text - 1, in))
        fail("no set text: ", name);
    fclose(in);
    memset(owner, 255, sizeof owner);
    for (char *line = strtok(text, "\n"); line; line = strtok(0, "\n"), sets++) {
        if (strncmp(line, "set ", 4) || sets == MOST_SETS)
            fail("no set line: ", line);
        for (char *at = line + 4, *end; *at; at = end + strspn(end, "t ")) {
            unsigned long which = strtoul(at, &end, 10);
            if (end == at || which >= (unsigned long)tables || members == MOST_MEMBERS)
                fail("no member: ", at);
            member[members] = (struct member){&table[which], *end == 't'};
            for (int i = 0; i < table[which].size; i++) {
                int tile = table[which].tile[i];
                owner[sets][*end == 't' ? mirror[tile] : tile] = members;
            }
            members++;
        }
    }
}

/* An even permutation of numbers needs an even number of moves, and the blank's way home tells how many these are by parity. */
static int is_solvable(const uint8_t *board)
{
    int odd = 0;
    for (int cell = 0; cell < cells; cell++) {
        for (int before = 0; before < cell; before++)
            odd ^= board[before] > board[cell];
        odd ^= board[cell] ? 0 : (cell / side + cell % side) & 1;
    }
    return !odd;
}

/* A board's key is the mean of its sums and the greatest of them, which counts twice, in sixteenths of a move. */
static void judge(struct stand *it)
{
    int greatest = 0, together = 0;
    for (int s = 0; s < sets; s++) {
        greatest = it->sum[s] > greatest ? it->sum[s] : greatest;
        together += it->sum[s];
    }
    it->key = (greatest + together) * 16 / (sets + 1);
}

static void begin(struct stand *it, const uint8_t *board)
{
    uint8_t cell_of[MOST_CELLS];
    memset(it, 0, sizeof *it);
    memcpy(it->cell, board, cells);
    it->way = WAYS;
    for (int cell = 0; cell < cells; cell++) {
        cell_of[board[cell]] = cell;
        it->name ^= hash_of[cell][board[cell]];
    }
    it->blank = cell_of[0];
    for (int m = 0; m < members; m++)
        it->count[m] = *entry_of(member[m].table, member[m].transposed, cell_of, it->blank);
    for (int s = 0; s < sets; s++)
        for (int m = 0; m < members; m++)
            for (int tile = 1; tile < cells; tile++)
                if (owner[s][tile] == m) {
                    it->sum[s] += it->count[m];
                    break;
                }
}

/* The names of the boards of a level, so that none is there twice. */
static uint64_t *names, name_mask;

static int is_new(uint64_t name)
{
    uint64_t at = name & name_mask;
    for (; names[at]; at = (at + 1) & name_mask)
        if (names[at] == name)
            return 0;
    names[at] = name;
    return 1;
}

/* The children of some boards, in two turns so that the reads of the tables wait side by side; answers how many there are then. */
static uint32_t expand(const struct stand *from, uint32_t first, uint32_t last, struct stand *to, uint32_t made)
{
    static const uint8_t *read[BLOCK * WAYS][MOST_SETS];
    uint32_t begun = made;
    for (uint32_t i = first; i < last; i++) {
        uint8_t cell_of[MOST_CELLS];
        for (int cell = 0; cell < cells; cell++)
            cell_of[from[i].cell[cell]] = cell;
        for (int way = 0; way < WAYS; way++) {
            int blank = from[i].blank, cell = beside[blank][way];
            if (cell == NOWHERE || way == (from[i].way ^ 1))
                continue;
            int tile = from[i].cell[cell];
            uint64_t name = from[i].name ^ hash_of[blank][0] ^ hash_of[cell][tile] ^ hash_of[blank][tile] ^ hash_of[cell][0];
            if (!is_new(name))
                continue;
            struct stand *it = &to[made];
            *it = from[i];
            it->name = name;
            it->cell[blank] = tile;
            it->cell[cell] = 0;
            it->blank = cell;
            it->way = way;
            it->from = i;
            cell_of[tile] = blank;
            for (int s = 0; s < sets; s++) {
                int m = owner[s][tile];
                read[made - begun][s] = m < 0 ? 0 : entry_of(member[m].table, member[m].transposed, cell_of, cell);
                __builtin_prefetch(read[made - begun][s]);
            }
            cell_of[tile] = cell;
            made++;
        }
    }
    for (uint32_t k = begun; k < made; k++) {
        struct stand *it = &to[k];
        int tile = it->cell[from[it->from].blank];
        for (int s = 0; s < sets; s++)
            if (read[k - begun][s]) {
                int m = owner[s][tile], count = *read[k - begun][s];
                it->sum[s] += count - it->count[m];
                it->count[m] = count;
            }
        judge(it);
    }
    return made;
}

/* Keeps those of least key, of the last key some by chance, and answers how many. */
static uint32_t thin(struct stand *level, uint32_t count)
{
    static uint32_t with[MOST_KEYS];
    memset(with, 0, sizeof with);
    for (uint32_t i = 0; i < count; i++)
        with[level[i].key]++;
    uint32_t kept = 0, below = 0, key = 0;
    while (key < MOST_KEYS - 1 && below + with[key] <= width)
        below += with[key++];
    double share = with[key] ? (double)(width - below) / with[key] : 0;
    for (uint32_t i = 0; i < count && kept < width; i++)
        if (level[i].key < key || (level[i].key == key && draw_share() < share))
            level[kept++] = level[i];
    return kept;
}

static int is_home(const struct stand *it)
{
    for (int cell = 0; cell < cells; cell++)
        if (it->cell[cell] != cell)
            return 0;
    return 1;
}

/* Writes the moves of a solution of so many moves, or answers 0. */
static int find(const uint8_t *board, char *moves)
{
    static struct stand *level, *next;
    if (!level) {
        level = room((WAYS * (size_t)width + 1) * sizeof *level);
        next = room((WAYS * (size_t)width + 1) * sizeof *next);
    }
    begin(level, board);
    if (is_home(level))
        return 1;
    uint32_t count = 1;
    for (int depth = 0; count && depth < DEEPEST; depth++) {
        uint32_t made = 0;
        memset(names, 0, (name_mask + 1) * sizeof *names);
        for (uint32_t i = 0; i < count; i += BLOCK)
            made = expand(level, i, i + BLOCK < count ? i + BLOCK : count, next, made);
        for (uint32_t i = 0; i < made; i++)
            if (is_home(&next[i])) {
                moves[depth + 1] = 0;
                moves[depth] = "UDLR"[next[i].way];
                for (uint32_t at = next[i].from; depth--; at = parent[depth][at])
                    moves[depth] = "UDLR"[way_into[depth][at]];
                return 1;
            }
        count = thin(next, made);
        parent[depth] = realloc(parent[depth], width * sizeof **parent);
        way_into[depth] = realloc(way_into[depth], width);
        if (!parent[depth] || !way_into[depth])
            fail("no memory", "");
        for (uint32_t i = 0; i < count; i++) {
            parent[depth][i] = next[i].from;
            way_into[depth][i] = next[i].way;
        }
        struct stand *before = level;
        level = next;
        next = before;
    }
    return 0;
}

int main(int words, char **word)
{
    static char line[65537], moves[DEEPEST + 1];
    uint8_t board[MOST_CELLS];
    int status = 0;
    if (words < 4 || (width = strtoul(word[1], 0, 10)) < 1 || width > 50000000)
        fail("usage: find_moves WIDTH SETS TABLES.. <BOARDS", "");
    for (int i = 3; i < words; i++)
        read_table(word[i]);
    read_sets(word[2]);
    for (int cell = 0; cell < cells; cell++)
        for (int tile = 0; tile < cells; tile++)
            hash_of[cell][tile] = draw();
    for (name_mask = 1; name_mask < 8 * (uint64_t)width; name_mask *= 2)
        ;
    names = room(name_mask-- * sizeof *names);
    while (fgets(line, sizeof line, stdin)) {
        clock_t begun = clock();
        *moves = 0;
        read_board(line, board);
        if (!is_solvable(board) || !find(board, moves)) {
            fprintf(stderr, "%s: %s", is_solvable(board) ? "no moves found" : "no solution, by parity", line);
            status = 1;
            continue;
        }
        for (int cell = 0; cell < cells; cell++)
            printf("%d ", board[cell]);
        printf("; %s\n", moves);
        fflush(stdout);
        fprintf(stderr, "%zu moves, %.1f s\n", strlen(moves), (double)(clock() - begun) / CLOCKS_PER_SEC);
    }
    return status;
}
