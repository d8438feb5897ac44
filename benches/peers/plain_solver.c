/* Searches for a shortest solution by iterative deepening (Korf 1985), as `pdb_cli solve` does, over the same tables and
 * sets, and expands the same boards in the same order:
 *
 *     cc -O3 -march=x86-64-v2 -fno-tree-vectorize -o plain_solver benches/peers/plain_solver.c
 *     ./plain_solver BUDGET BOARD SETS TABLES..
 *
 * BUDGET is the most boards that are expanded, BOARD a board text as one word and SETS a file of set lines. The tables are
 * files as `pdb_cli make-table` makes them, and are believed. It prints
 *
 *     moves M boards N milliseconds T
 *
 * with the length of a shortest solution (0 where the budget ended the search), how many boards were expanded, and the
 * processor time of the search alone. The status is 0, or 2 where the words are wrong or a file fails. Nothing here is
 * proved, and no log is written. */
#define _POSIX_C_SOURCE 200809L
#include <stdint.h>
#include <stdio.h>
#include <stdlib.h>
#include <string.h>
#include <time.h>

enum { MOST_CELLS = 25, MOST_TILES = 8, MOST_TABLES = 16, MOST_SETS = 16, MOST_PLACES = MOST_SETS * MOST_CELLS };
enum { HEADER = 20, NO_REGION = 254, NO_WAY_HOME = 255, NEVER = 1 << 15, GREATEST_BOUND = 255, KEPT_BITS = 16 };
enum { UP, DOWN, LEFT, RIGHT, MOVES, NOWHERE = -1 };
enum { FAILED, SOLVED, ENDED };

/* A set of cells, with bit c for cell c. */
typedef uint32_t set;

struct table {
    int size, width;
    uint8_t tile[MOST_TILES]; /* ascending */
    const uint8_t *entries;
};

/* A member of a set: where the tiles of its table are on the board, or on the transposed one. */
struct place {
    const struct table *table;
    const uint8_t *seen;        /* each cell as this place sees it */
    uint8_t index[MOST_CELLS];  /* of each tile of the board among those of the table */
    uint8_t cell[MOST_TILES];   /* of each tile of the table, as seen */
    uint32_t weight[MOST_TILES];
    int told;
};

/* The slot of each free cell. */
struct slots {
    set free;
    uint8_t slot[MOST_CELLS];
};

static int side, cells, tables, places, sets;
static set all, with_left, with_right;
static int8_t beside[MOST_CELLS][MOVES];
static uint8_t same[MOST_CELLS], mirror[MOST_CELLS], parity[MOST_CELLS], number[MOST_CELLS];
static struct table table[MOST_TABLES];
static struct place place[MOST_PLACES];
static struct place *owner[MOST_SETS][MOST_CELLS]; /* of each tile, where a set has one */
static int sum[MOST_SETS];
static struct slots kept[1 << KEPT_BITS];
static uint64_t boards, budget;

_Noreturn static void fail(const char *why, const char *what)
{
    fprintf(stderr, "plain_solver: %s%s\n", why, what);
    exit(2);
}

static set only(int cell)
{
    return (set)1 << cell;
}

/* Reading */

static const uint8_t *read_file(const char *name, size_t *length)
{
    FILE *in = fopen(name, "rb");
    if (!in || fseek(in, 0, SEEK_END))
        fail("can't open ", name);
    *length = ftell(in);
    rewind(in);
    uint8_t *bytes = malloc(*length + 1);
    if (!bytes || fread(bytes, 1, *length, in) != *length)
        fail("can't read ", name);
    bytes[*length] = 0;
    fclose(in);
    return bytes;
}

static void lay_out(void)
{
    cells = side * side;
    all = only(cells) - 1;
    for (int cell = 0; cell < cells; cell++) {
        int row = cell / side, column = cell % side;
        beside[cell][UP] = row > 0 ? cell - side : NOWHERE;
        beside[cell][DOWN] = row < side - 1 ? cell + side : NOWHERE;
        beside[cell][LEFT] = column > 0 ? cell - 1 : NOWHERE;
        beside[cell][RIGHT] = column < side - 1 ? cell + 1 : NOWHERE;
        with_left |= column > 0 ? only(cell) : 0;
        with_right |= column < side - 1 ? only(cell) : 0;
        same[cell] = cell;
        mirror[cell] = column * side + row;
        parity[cell] = (row + column) % 2;
    }
}

static void read_table(const char *name)
{
    size_t length, entries;
    const uint8_t *file = read_file(name, &length);
    struct table *t = &table[tables++];
    if (tables > MOST_TABLES || length < HEADER || memcmp(file, "PDBT\1", 5))
        fail("not a table file: ", name);
    if (side == 0) {
        side = file[5];
        lay_out();
    }
    set mask = (set)file[8] << 24 | file[9] << 16 | file[10] << 8 | file[11];
    for (; mask; mask &= mask - 1)
        t->tile[t->size++] = __builtin_ctz(mask);
    entries = t->width = t->size + 1 < cells - t->size ? t->size + 1 : cells - t->size;
    for (int i = 0; i < t->size; i++)
        entries *= cells - i;
    if (side != file[5] || entries + HEADER != length)
        fail("not the length of a table file of the side: ", name);
    t->entries = file + HEADER;
}

static void read_board(const char *text)
{
    for (int cell = 0; cell < cells; cell++) {
        char *end;
        unsigned long n = strtoul(text, &end, 10);
        if (end == text || n >= (unsigned long)cells)
            fail("no board of the tables' side", "");
        number[cell] = n;
        text = end;
    }
}

/* Looking up */

static set region_of(set free, int cell)
{
    set region = only(cell), before;
    do {
        before = region;
        set sideways = (region & with_left) >> 1 | (region & with_right) << 1;
        region |= (sideways | region >> side | region << side) & free;
    } while (region != before);
    return region;
}

static int slot_of(set free, int cell)
{
    struct slots *slots = &kept[free * 0x9E3779B1u >> (32 - KEPT_BITS)];
    if (slots->free != free) {
        slots->free = free;
        set rest = free;
        for (int slot = 0; rest; slot++) {
            set region = region_of(free, __builtin_ctz(rest));
            rest &= ~region;
            for (; region; region &= region - 1)
                slots->slot[__builtin_ctz(region)] = slot;
        }
    }
    return slots->slot[cell];
}

static int look(const struct place *p, int blank)
{
    const struct table *t = p->table;
    size_t first = 0;
    set left = all;
    for (int i = 0; i < t->size; i++) {
        set here = only(p->cell[i]);
        first += (size_t)p->weight[i] * __builtin_popcount(left & (here - 1));
        left &= ~here;
    }
    const uint8_t *entry = t->entries + first;
    int told = t->width == 1 || entry[1] == NO_REGION ? entry[0] : entry[slot_of(left, blank)];
    return told == NO_WAY_HOME ? NEVER : told;
}

/* Sets */

static int add_place(const struct table *t, const uint8_t *seen)
{
    struct place *p = &place[places++];
    *p = (struct place){.table = t, .seen = seen};
    uint32_t weight = t->width;
    for (int i = t->size - 1; i >= 0; i--) {
        p->weight[i] = weight;
        weight *= cells - i;
    }
    int blank = 0;
    for (int cell = 0; cell < cells; cell++) {
        int tile = number[cell];
        if (tile == 0)
            blank = cell;
        for (int i = 0; i < t->size; i++)
            if (tile && t->tile[i] == seen[tile]) {
                p->index[tile] = i;
                p->cell[i] = seen[cell];
                owner[sets][tile] = p;
            }
    }
    p->told = look(p, seen[blank]);
    return p->told;
}

static void add_set(const char *line)
{
    if (strncmp(line, "set ", 4) || sets == MOST_SETS)
        fail("no set line: ", line);
    line += 4;
    while (*line && *line != '\n') {
        char *end;
        unsigned long which = strtoul(line, &end, 10);
        if (end == line || which >= (unsigned long)tables)
            fail("no member: ", line);
        sum[sets] += add_place(&table[which], *end == 't' ? mirror : same);
        line = end + (*end == 't');
        line += *line == ' ';
    }
    sets++;
}

static void read_sets(const char *name)
{
    size_t length;
    const char *text = (const char *)read_file(name, &length);
    while (*text) {
        add_set(text);
        text += strcspn(text, "\n");
        text += *text == '\n';
    }
}

/* Searching */

/* What a set says, raised to the parity of all solutions. */
static int raised(int which, int blank)
{
    return sum[which] + ((sum[which] ^ parity[blank]) & 1);
}

/* The first set that says the most. */
static int greatest(void)
{
    int best = 0;
    for (int i = 1; i < sets; i++)
        best = sum[i] > sum[best] ? i : best;
    return best;
}

/* The greatest of what the sets say. */
static int bound_at(int blank)
{
    int best = 0;
    for (int i = 0; i < sets; i++)
        best = raised(i, blank) > best ? raised(i, blank) : best;
    return best;
}

static int is_goal(void)
{
    int cell = 0;
    while (cell < cells && number[cell] == cell)
        cell++;
    return cell == cells;
}

/* Looks up a board to which a tile has moved in a set. Answers what the set's member told before. */
static int look_after(int which, int tile, int blank, int to)
{
    struct place *p = owner[which][tile];
    if (!p)
        return 0;
    int told = p->told;
    p->cell[p->index[tile]] = p->seen[blank];
    p->told = look(p, p->seen[to]);
    sum[which] += p->told - told;
    return told;
}

static void look_back(int which, int tile, int to, int told)
{
    struct place *p = owner[which][tile];
    if (!p)
        return;
    p->cell[p->index[tile]] = p->seen[to];
    sum[which] += told - p->told;
    p->told = told;
}

/* Expands the board. It has a solution of fewer moves than remain if this answers SOLVED. A board beside it is first looked up
 * in the set that says the most of this one, and in another one where no earlier one cuts it off. */
static int expand(int blank, int came_from, int remaining)
{
    if (boards == budget)
        return ENDED;
    boards++;
    int first = greatest();
    for (int way = 0; way < MOVES; way++) {
        int to = beside[blank][way];
        if (to == NOWHERE || to == came_from)
            continue;
        int tile = number[to], told[MOST_SETS], order[MOST_SETS], looked = 0, is_cut = 0, outcome = FAILED;
        number[blank] = tile;
        number[to] = 0;
        while (looked < sets && !is_cut) {
            int which = looked == 0 ? first : looked <= first ? looked - 1 : looked;
            order[looked] = which;
            told[looked++] = look_after(which, tile, blank, to);
            is_cut = raised(which, to) >= remaining - 1;
        }
        if (!is_cut)
            outcome = is_goal() ? SOLVED : expand(to, blank, remaining - 1);
        number[to] = tile;
        number[blank] = 0;
        while (looked-- > 0)
            look_back(order[looked], tile, to, told[looked]);
        if (outcome != FAILED)
            return outcome;
    }
    return FAILED;
}

/* The length of a shortest solution, or 0 where the budget ends the search. */
static int solve(void)
{
    int blank = 0;
    while (number[blank])
        blank++;
    if (is_goal())
        return 0;
    for (int threshold = bound_at(blank); threshold <= GREATEST_BOUND; threshold += 2) {
        int outcome = expand(blank, NOWHERE, threshold + 2);
        if (outcome != FAILED)
            return outcome == SOLVED ? threshold : 0;
    }
    fail("the board has no solution", "");
}

static double milliseconds(void)
{
    struct timespec now;
    clock_gettime(CLOCK_PROCESS_CPUTIME_ID, &now);
    return now.tv_sec * 1e3 + now.tv_nsec / 1e6;
}

int main(int count, char **words)
{
    if (count < 5)
        fail("the words are BUDGET BOARD SETS TABLES..", "");
    budget = strtoull(words[1], NULL, 10);
    for (int i = 4; i < count; i++)
        read_table(words[i]);
    read_board(words[2]);
    read_sets(words[3]);
    double begin = milliseconds();
    int moves = solve();
    printf("moves %d boards %llu milliseconds %.3f\n", moves, (unsigned long long)boards, milliseconds() - begin);
    return 0;
}
