/* Makes log files of version 2 and checks those of both versions, in the format of docs/FORMATS.md, over one set of all
 * tables that are given:
 *
 *     cc -O2 -march=x86-64-v2 -o make_log benches/peers/make_log.c
 *     ./make_log board SIDE SEED [STEPS]
 *     ./make_log log BOARD BOUND LEVELS OUT TABLES..
 *     ./make_log check LOG TABLES..
 *
 * `board` prints the board text at the end of a random walk from the goal board, the same for the same SEED. The walk has
 * 100,000 steps, of which some lead off the board and are left out, or STEPS that are moves and never take back the last.
 *
 * `log` writes a log that proves BOUND for BOARD, a board text as one word. Where BOUND is `-` it is the length of a
 * shortest solution, found by iterative deepening (Korf 1985): the tree is then that of the last threshold that failed.
 * With 0 LEVELS the log is one lemma. Otherwise what lies so many moves below the root is proved by lemmas of its own,
 * which the last lemma cites. A leaf is a parity leaf where the sum alone says too little.
 *
 * `check` walks the trees of a log, and prints how long that took for each of their bytes.
 *
 * The tables have no tile in common, are files as `pdb_cli make-table` makes them, and are believed. The set text is
 * `set 0 1 ..` with the numbers of them all. The status is 0, or 1 where a log isn't good or a bound isn't true, or 2
 * where the words are wrong, memory is refused or a file fails. Nothing here is proved, and nothing rests on it. */
#include <stdint.h>
#include <stdio.h>
#include <stdlib.h>
#include <string.h>
#include <time.h>

enum { MOST_CELLS = 25, MOST_TILES = 8, MOST_TABLES = 16, TABLE_HEADER = 20, LOG_HEADER = 10, MOST_LEMMAS = 1 << 20 };
enum { NEVER = 255, ENDLESS = 1 << 20, GREATEST_BOUND = 255, STEPS_OF_A_WALK = 100000 };
enum { BRANCH = 0x00, LEAF = 0x01, CITATION = 0x20, PARITY_LEAF = 0x41 };
enum { VERSION_BYTE = 4, PLAIN_VERSION = 1, PARITY_VERSION = 2 };

/* The blank's moves, in the order of a branch's children; a move and its reverse differ in their last bit. */
enum { UP, DOWN, LEFT, RIGHT, MOVES, NO_MOVE = -2 };

/* A set of cells, with bit c for cell c. */
typedef uint32_t set;

struct bytes {
    uint8_t *at;
    size_t length, room;
};

struct table {
    int size, width;
    uint8_t tile[MOST_TILES]; /* ascending */
    const uint8_t *entries;
};

struct puzzle {
    int side, cells;
    set all, with_left, with_right;
    int8_t beside[MOST_CELLS][MOVES]; /* where a move leads, or -1 */
    uint8_t parity[MOST_CELLS];       /* of the distance from cell 0 */
    int tables;
    struct table table[MOST_TABLES];
    uint8_t owner[MOST_CELLS]; /* the table that a tile is in, MOST_TABLES where it is in none */
};

/* A board, and what each table tells of it. */
struct position {
    uint8_t number[MOST_CELLS]; /* in each cell */
    uint8_t cell[MOST_CELLS];   /* of each number */
    uint8_t told[MOST_TABLES + 1];
};

_Noreturn static void fail(const char *why, const char *what)
{
    fprintf(stderr, "make_log: %s%s\n", why, what);
    exit(2);
}

/* Bytes */

static void put(struct bytes *to, const void *from, size_t length)
{
    if (to->room - to->length < length) {
        to->room = 2 * (to->room + length);
        to->at = realloc(to->at, to->room);
        if (!to->at)
            fail("no memory", "");
    }
    memcpy(to->at + to->length, from, length);
    to->length += length;
}

static void put_byte(struct bytes *to, uint8_t byte)
{
    put(to, &byte, 1);
}

static void put_number(struct bytes *to, uint32_t number)
{
    for (int shift = 24; shift >= 0; shift -= 8)
        put_byte(to, number >> shift);
}

static uint64_t number_at(const uint8_t *at, int bytes)
{
    uint64_t number = 0;
    while (bytes-- > 0)
        number = number << 8 | *at++;
    return number;
}

static struct bytes read_file(const char *name)
{
    struct bytes file = {0};
    uint8_t block[65536];
    size_t length;
    FILE *in = fopen(name, "rb");
    if (!in)
        fail("can't open ", name);
    while ((length = fread(block, 1, sizeof block, in)))
        put(&file, block, length);
    if (ferror(in))
        fail("can't read ", name);
    fclose(in);
    return file;
}

/* Cells */

static set only(int cell)
{
    return (set)1 << cell;
}

static int least(set cells)
{
    return __builtin_ctz(cells);
}

static void lay_out(struct puzzle *p, int side)
{
    *p = (struct puzzle){.side = side, .cells = side * side, .all = only(side * side) - 1};
    for (int cell = 0; cell < p->cells; cell++) {
        int row = cell / side, column = cell % side;
        p->beside[cell][UP] = row > 0 ? cell - side : -1;
        p->beside[cell][DOWN] = row < side - 1 ? cell + side : -1;
        p->beside[cell][LEFT] = column > 0 ? cell - 1 : -1;
        p->beside[cell][RIGHT] = column < side - 1 ? cell + 1 : -1;
        p->parity[cell] = (row + column) % 2;
        p->with_left |= column > 0 ? only(cell) : 0;
        p->with_right |= column < side - 1 ? only(cell) : 0;
    }
    memset(p->owner, MOST_TABLES, sizeof p->owner);
}

static set region_of(const struct puzzle *p, set free, int cell)
{
    set region = only(cell), before;
    do {
        before = region;
        set sideways = (region & p->with_left) >> 1 | (region & p->with_right) << 1;
        region |= (sideways | region >> p->side | region << p->side) & free;
    } while (region != before);
    return region;
}

/* Tables */

/* How many entries a table has, whose tiles and width are there. */
static size_t entries_of(const struct puzzle *p, const struct table *t)
{
    size_t entries = t->width;
    for (int i = 0; i < t->size; i++)
        entries *= p->cells - i;
    return entries;
}

static void add_table(struct puzzle *p, const char *name)
{
    struct bytes file = read_file(name);
    if (file.length < TABLE_HEADER || memcmp(file.at, "PDBT\1", 5) || file.at[5] < 2 || file.at[5] > 5)
        fail("not a table file: ", name);
    if (p->side == 0)
        lay_out(p, file.at[5]);
    set mask = number_at(file.at + 8, 4);
    if (p->side != file.at[5] || p->tables == MOST_TABLES || mask & ~p->all || __builtin_popcount(mask) > MOST_TILES)
        fail("no table for this set: ", name);
    struct table *t = &p->table[p->tables];
    for (; mask; mask &= mask - 1) {
        int tile = t->tile[t->size++] = least(mask);
        if (p->owner[tile] != MOST_TABLES)
            fail("a tile is in two tables: ", name);
        p->owner[tile] = p->tables;
    }
    t->width = t->size + 1 < p->cells - t->size ? t->size + 1 : p->cells - t->size;
    t->entries = file.at + TABLE_HEADER;
    if (entries_of(p, t) + TABLE_HEADER != file.length)
        fail("not the length of a table file: ", name);
    p->tables++;
}

static void read_tables(struct puzzle *p, int count, char **names)
{
    p->side = 0;
    if (count == 0)
        fail("no table", "");
    for (int i = 0; i < count; i++)
        add_table(p, names[i]);
}

/* How many regions have a least cell below that of the blank's. */
static int slot_of(const struct puzzle *p, set free, int blank)
{
    set before = free & (only(least(region_of(p, free, blank))) - 1);
    int slot = 0;
    for (; before; before &= ~region_of(p, free, least(before)))
        slot++;
    return slot;
}

static uint8_t look(const struct puzzle *p, const struct table *t, const struct position *at)
{
    size_t rank = 0;
    set free = p->all;
    for (int i = 0; i < t->size; i++) {
        set cell = only(at->cell[t->tile[i]]);
        rank = rank * (p->cells - i) + __builtin_popcount(free & (cell - 1));
        free &= ~cell;
    }
    return t->entries[rank * t->width + slot_of(p, free, at->cell[0])];
}

/* Positions */

/* Whether the numbers are a board; it is then the position. */
static int place(const struct puzzle *p, struct position *at, const uint8_t *numbers)
{
    set seen = 0;
    for (int cell = 0; cell < p->cells; cell++) {
        if (numbers[cell] >= p->cells)
            return 0;
        seen |= only(numbers[cell]);
        at->number[cell] = numbers[cell];
        at->cell[numbers[cell]] = cell;
    }
    if (seen != p->all)
        return 0;
    for (int i = 0; i < p->tables; i++)
        at->told[i] = look(p, &p->table[i], at);
    return 1;
}

static int is_goal(const struct puzzle *p, const struct position *at)
{
    int cell = 0;
    while (cell < p->cells && at->number[cell] == cell)
        cell++;
    return cell == p->cells;
}

static int sum(const struct puzzle *p, const struct position *at)
{
    int sum = 0;
    for (int i = 0; i < p->tables; i++)
        sum += at->told[i] == NEVER ? ENDLESS : at->told[i];
    return sum;
}

/* The least number not below the sum that has the parity of each solution's length. */
static int raised(const struct puzzle *p, const struct position *at, int sum)
{
    return sum + (sum + p->parity[at->cell[0]]) % 2;
}

/* What a move changes besides the two cells, for taking it back. */
struct change {
    uint8_t blank, owner, told;
};

/* A tile moves inside the blank's region of every table but its own, so that only its own table's entry changes. */
static struct change move(const struct puzzle *p, struct position *at, int to)
{
    int from = at->cell[0], tile = at->number[to];
    int owner = p->owner[tile];
    struct change change = {from, owner, at->told[owner]};
    at->number[from] = tile;
    at->cell[tile] = from;
    at->number[to] = 0;
    at->cell[0] = to;
    if (owner != MOST_TABLES)
        at->told[owner] = look(p, &p->table[owner], at);
    return change;
}

static void take_back(struct position *at, struct change change)
{
    int to = at->cell[0], tile = at->number[change.blank];
    at->number[to] = tile;
    at->cell[tile] = to;
    at->number[change.blank] = 0;
    at->cell[0] = change.blank;
    at->told[change.owner] = change.told;
}

/* Where a child's move leads, or -1 where there is no such child. */
static int child(const struct puzzle *p, const struct position *at, int way, int arriving)
{
    return way == (arriving ^ 1) ? -1 : p->beside[at->cell[0]][way];
}

/* Making */

struct maker {
    const struct puzzle *puzzle;
    struct position at;
    struct bytes lemmas;
    uint32_t count;
    int spare; /* the least by which what a leaf says is above what remains */
};

static int add_lemma(struct maker *m, int bound, int levels);

/* Refutes the position by a lemma of its own. */
static int cite(struct maker *m, struct bytes *tree, int remaining)
{
    uint32_t number = m->count;
    if (!add_lemma(m, remaining, 0))
        return 0;
    put_byte(tree, CITATION);
    put_number(tree, number);
    return 1;
}

/* Writes a tree that refutes the position, or answers 0 where a solution has fewer moves than remain. `levels` levels
 * below it, where that isn't 0, a lemma is cited in place of each branch. */
static int refute(struct maker *m, struct bytes *tree, int remaining, int arriving, int levels)
{
    int said = sum(m->puzzle, &m->at);
    int spare = raised(m->puzzle, &m->at, said) - remaining;
    if (spare >= 0) {
        m->spare = spare < m->spare ? spare : m->spare;
        put_byte(tree, said >= remaining ? LEAF : PARITY_LEAF);
        return 1;
    }
    if (is_goal(m->puzzle, &m->at))
        return 0;
    put_byte(tree, BRANCH);
    int refuted = 1;
    for (int way = 0; refuted && way < MOVES; way++) {
        int to = child(m->puzzle, &m->at, way, arriving);
        if (to < 0)
            continue;
        struct change change = move(m->puzzle, &m->at, to);
        int is_leaf = raised(m->puzzle, &m->at, sum(m->puzzle, &m->at)) >= remaining - 1;
        refuted = levels == 1 && !is_leaf ? cite(m, tree, remaining - 1)
                                          : refute(m, tree, remaining - 1, way, levels - 1);
        take_back(&m->at, change);
    }
    return refuted;
}

/* Adds a lemma of the position behind those that it cites, or answers 0 where its bound isn't true. */
static int add_lemma(struct maker *m, int bound, int levels)
{
    struct bytes tree = {0};
    int refuted = refute(m, &tree, bound, NO_MOVE, levels);
    if (refuted && m->count == MOST_LEMMAS)
        fail("too many lemmas", "");
    if (refuted) {
        put(&m->lemmas, m->at.number, m->puzzle->cells);
        put_byte(&m->lemmas, bound);
        put_number(&m->lemmas, tree.length);
        put(&m->lemmas, tree.at, tree.length);
        m->count++;
    }
    free(tree.at);
    return refuted;
}

/* Each tree proves as much more than it has to as its leaves have to spare. */
static int shortest(struct maker *m)
{
    int bound = raised(m->puzzle, &m->at, sum(m->puzzle, &m->at));
    struct bytes tree = {0};
    while (bound < GREATEST_BOUND) {
        m->spare = ENDLESS;
        tree.length = 0;
        if (!refute(m, &tree, bound + 1, NO_MOVE, 0))
            break;
        bound += 1 + m->spare;
    }
    free(tree.at);
    return bound < GREATEST_BOUND ? bound : GREATEST_BOUND;
}

static void write_log(const struct maker *m, const char *name)
{
    struct bytes header = {0};
    put(&header, "PDBL", VERSION_BYTE);
    put_byte(&header, PARITY_VERSION);
    put_byte(&header, m->puzzle->side);
    put_number(&header, m->count);
    FILE *out = fopen(name, "wb");
    if (!out)
        fail("can't open ", name);
    size_t written = fwrite(header.at, 1, header.length, out) + fwrite(m->lemmas.at, 1, m->lemmas.length, out);
    if (fclose(out) || written != header.length + m->lemmas.length)
        fail("can't write ", name);
}

static void read_board(const struct puzzle *p, struct position *at, const char *text)
{
    uint8_t numbers[MOST_CELLS];
    int count = 0;
    while (count < p->cells && *text) {
        char *end;
        unsigned long number = strtoul(text, &end, 10);
        numbers[count++] = number < NEVER ? number : NEVER;
        text = end + strspn(end, " \t\r\n");
    }
    if (count < p->cells || *text || !place(p, at, numbers))
        fail("no board of the tables' side: ", text);
}

/* A word as a number up to 255. */
static int number_in(const char *word)
{
    char *end;
    unsigned long number = strtoul(word, &end, 10);
    if (!*word || *end || number > GREATEST_BOUND)
        fail("no number up to 255: ", word);
    return number;
}

static int make(char **words, int count)
{
    static struct puzzle puzzle;
    static struct maker m;
    read_tables(&puzzle, count - 4, words + 4);
    m.puzzle = &puzzle;
    read_board(&puzzle, &m.at, words[0]);
    int bound = strcmp(words[1], "-") ? number_in(words[1]) : shortest(&m);
    if (!add_lemma(&m, bound, number_in(words[2]))) {
        fprintf(stderr, "make_log: a solution has fewer than %d moves\n", bound);
        return 1;
    }
    write_log(&m, words[3]);
    printf("bound %d lemmas %u bytes %zu\n", bound, m.count, m.lemmas.length + LOG_HEADER);
    return 0;
}

/* Checking */

struct lemma {
    const uint8_t *board, *tree;
    uint32_t length;
    int bound;
};

struct checker {
    const struct puzzle *puzzle;
    struct position at;
    int version;
    const struct lemma *lemmas;
    uint32_t number; /* of the lemma that is checked */
    const uint8_t *next, *end;
};

/* The lemmas of a log file. */
static struct lemma *read_lemmas(const struct puzzle *p, const struct bytes *file, uint32_t *count)
{
    if (file->length < LOG_HEADER || memcmp(file->at, "PDBL", VERSION_BYTE) || file->at[5] != p->side)
        fail("not a log of the tables' side", "");
    if (file->at[VERSION_BYTE] != PLAIN_VERSION && file->at[VERSION_BYTE] != PARITY_VERSION)
        fail("not a version of logs", "");
    *count = number_at(file->at + 6, 4);
    if (*count < 1 || *count > MOST_LEMMAS)
        fail("not a number of lemmas", "");
    struct lemma *lemmas = calloc(*count, sizeof *lemmas);
    if (!lemmas)
        fail("no memory", "");
    size_t at = LOG_HEADER, head = p->cells + 5;
    for (uint32_t i = 0; i < *count; i++) {
        const uint8_t *board = file->at + at;
        if (file->length - at < head || file->length - at - head < number_at(board + p->cells + 1, 4))
            fail("a lemma is cut short", "");
        lemmas[i] = (struct lemma){board, board + head, number_at(board + p->cells + 1, 4), board[p->cells]};
        at += head + lemmas[i].length;
    }
    if (at != file->length)
        fail("bytes are left over", "");
    return lemmas;
}

static int cites(struct checker *c, int remaining)
{
    if (c->end - c->next < 4)
        return 0;
    uint32_t number = number_at(c->next, 4);
    c->next += 4;
    return number < c->number && c->lemmas[number].bound >= remaining &&
           memcmp(c->lemmas[number].board, c->at.number, c->puzzle->cells) == 0;
}

/* Whether the next bytes are a tree that refutes the position. */
static int holds(struct checker *c, int remaining, int arriving)
{
    if (c->next == c->end)
        return 0;
    uint8_t node = *c->next++;
    if (node == LEAF)
        return sum(c->puzzle, &c->at) >= remaining;
    if (node == PARITY_LEAF && c->version == PARITY_VERSION)
        return raised(c->puzzle, &c->at, sum(c->puzzle, &c->at)) >= remaining;
    if (node == CITATION)
        return cites(c, remaining);
    if (node != BRANCH || remaining < 1 || is_goal(c->puzzle, &c->at))
        return 0;
    int held = 1;
    for (int way = 0; held && way < MOVES; way++) {
        int to = child(c->puzzle, &c->at, way, arriving);
        if (to < 0)
            continue;
        struct change change = move(c->puzzle, &c->at, to);
        held = holds(c, remaining - 1, way);
        take_back(&c->at, change);
    }
    return held;
}

static int is_good(struct checker *c, const struct lemma *lemma)
{
    c->next = lemma->tree;
    c->end = lemma->tree + lemma->length;
    return place(c->puzzle, &c->at, lemma->board) && holds(c, lemma->bound, NO_MOVE) && c->next == c->end;
}

static double seconds(void)
{
    struct timespec now;
    timespec_get(&now, TIME_UTC);
    return now.tv_sec + now.tv_nsec / 1e9;
}

static int check(char **words, int count)
{
    static struct puzzle puzzle;
    read_tables(&puzzle, count - 1, words + 1);
    struct bytes file = read_file(words[0]);
    uint32_t lemmas;
    size_t bytes = 0;
    struct checker c = {.puzzle = &puzzle, .lemmas = read_lemmas(&puzzle, &file, &lemmas)};
    c.version = file.at[VERSION_BYTE];
    double begin = seconds();
    for (; c.number < lemmas; c.number++) {
        bytes += c.lemmas[c.number].length;
        if (!is_good(&c, &c.lemmas[c.number])) {
            printf("not good: lemma %u\n", c.number);
            return 1;
        }
    }
    double took = seconds() - begin;
    printf("bound %d lemmas %u tree bytes %zu nanoseconds a byte %.1f\n", c.lemmas[lemmas - 1].bound, lemmas, bytes,
           took * 1e9 / bytes);
    return 0;
}

/* Boards */

/* xorshift64, by Marsaglia. */
static uint64_t next_random(uint64_t *state)
{
    *state ^= *state << 13;
    *state ^= *state >> 7;
    *state ^= *state << 17;
    return *state;
}

static void walk(const struct puzzle *p, struct position *at, uint64_t state)
{
    for (int step = 0; step < STEPS_OF_A_WALK; step++) {
        int to = p->beside[at->cell[0]][next_random(&state) >> 62];
        if (to >= 0)
            move(p, at, to);
    }
}

static void walk_on(const struct puzzle *p, struct position *at, uint64_t state, int steps)
{
    int last = NO_MOVE;
    while (steps > 0) {
        int way = next_random(&state) >> 62;
        int to = p->beside[at->cell[0]][way];
        if (to < 0 || (way ^ 1) == last)
            continue;
        move(p, at, to);
        last = way;
        steps--;
    }
}

static int print_board(char **words, int count)
{
    static struct puzzle p;
    struct position at;
    uint8_t home[MOST_CELLS];
    int side = number_in(words[0]);
    uint64_t state = 0x9E3779B97F4A7C15 * (number_in(words[1]) + 1);
    if (side < 2 || side > 5)
        fail("no side from 2 to 5: ", words[0]);
    lay_out(&p, side);
    for (int cell = 0; cell < p.cells; cell++)
        home[cell] = cell;
    place(&p, &at, home);
    if (count == 3)
        walk_on(&p, &at, state, number_in(words[2]));
    else
        walk(&p, &at, state);
    for (int cell = 0; cell < p.cells; cell++)
        printf("%d%c", at.number[cell], cell < p.cells - 1 ? ' ' : '\n');
    return 0;
}

int main(int count, char **words)
{
    if ((count == 4 || count == 5) && strcmp(words[1], "board") == 0)
        return print_board(words + 2, count - 2);
    if (count > 6 && strcmp(words[1], "log") == 0)
        return make(words + 2, count - 2);
    if (count > 3 && strcmp(words[1], "check") == 0)
        return check(words + 2, count - 2);
    fail("the words are `board SIDE SEED [STEPS]`, `log BOARD BOUND LEVELS OUT TABLES..` or `check LOG TABLES..`", "");
}
