/* Boards, regions and table files of the sliding-tile puzzle, as docs/FORMATS.md has them: for tools/choose_tables.c, which estimates
 * searches, and tools/find_moves.c, which looks for moves. Nothing is proved here, and nothing rests on it. */
#define _GNU_SOURCE
#include <fcntl.h>
#include <stdint.h>
#include <stdio.h>
#include <stdlib.h>
#include <string.h>
#include <sys/mman.h>
#include <sys/stat.h>
#include <unistd.h>

enum { MOST_CELLS = 25, MOST_TILES = 8, MOST_TABLES = 16, MOST_SETS = 16, HEADER = 20, NOWHERE = -1, WAYS = 4 };

/* A set of cells or of tiles, with bit c for the number c. */
typedef uint32_t set;

static int side, cells, beside[MOST_CELLS][WAYS]; /* the ways are U, D, L and R */
static set all, with_left, with_right, around[MOST_CELLS];
static uint8_t mirror[MOST_CELLS];

_Noreturn static void fail(const char *why, const char *what)
{
    fprintf(stderr, "%s%s\n", why, what);
    exit(2);
}

static void *room(size_t bytes)
{
    void *start = calloc(1, bytes);
    if (!start)
        fail("no memory", "");
    return start;
}

static set only(int cell)
{
    return (set)1 << cell;
}

static void lay_out(int wanted)
{
    if (wanted < 2 || wanted > 5 || (side && side != wanted))
        fail("the side is 2 to 5, and the same of boards and tables", "");
    side = wanted;
    cells = side * side;
    all = only(cells) - 1;
    for (int cell = 0; cell < cells; cell++) {
        int row = cell / side, column = cell % side;
        int to[WAYS] = {row > 0 ? cell - side : NOWHERE, row < side - 1 ? cell + side : NOWHERE, column > 0 ? cell - 1 : NOWHERE,
            column < side - 1 ? cell + 1 : NOWHERE};
        memcpy(beside[cell], to, sizeof to);
        around[cell] = 0;
        for (int way = 0; way < WAYS; way++)
            around[cell] |= to[way] == NOWHERE ? 0 : only(to[way]);
        with_left |= column > 0 ? only(cell) : 0;
        with_right |= column < side - 1 ? only(cell) : 0;
        mirror[cell] = column * side + row;
    }
}

/* Reads a board of the side, and answers what stands behind it. */
static char *read_board(char *text, uint8_t *board)
{
    set seen = 0;
    for (int cell = 0; cell < cells; cell++) {
        char *end;
        unsigned long number = strtoul(text, &end, 10);
        if (end == text || number >= (unsigned long)cells || seen & only(number))
            fail("no board of the side: ", text);
        seen |= only(number);
        board[cell] = number;
        text = end;
    }
    return text + strspn(text, " \t\r\n");
}

static set region_of(set free, int cell)
{
    set region = only(cell), before;
    do {
        before = region;
        set sideways = (region & with_left) >> 1 | (region & with_right) << 1;
        region |= (sideways | region >> side | region << side) & free & all;
    } while (region != before);
    return region;
}

/* The number of the region of each free cell, by the cells that tiles take. What was asked for is kept, since it is soon asked again. */
struct regions {
    set taken;
    uint8_t number[MOST_CELLS];
};

static const struct regions *regions_of(set taken)
{
    static struct regions kept[1 << 16];
    struct regions *it = &kept[taken * 2654435761u >> 16];
    if (it->taken == taken)
        return it;
    it->taken = taken;
    memset(it->number, 255, sizeof it->number);
    for (set rest = all & ~taken, number = 0; rest; number++) {
        set region = region_of(all & ~taken, __builtin_ctz(rest));
        rest &= ~region;
        for (; region; region &= region - 1)
            it->number[__builtin_ctz(region)] = number;
    }
    return it;
}

struct table {
    set mask;
    int size, width;
    uint8_t tile[MOST_TILES]; /* ascending */
    const uint8_t *entries;
};

static struct table table[MOST_TABLES];
static int tables;

/* Maps a table file, which is believed. */
static void read_table(const char *name)
{
    struct stat about;
    int file = open(name, O_RDONLY);
    if (file < 0 || fstat(file, &about) || about.st_size < HEADER)
        fail("no table file: ", name);
    const uint8_t *bytes = mmap(0, about.st_size, PROT_READ, MAP_PRIVATE, file, 0);
    if (bytes == MAP_FAILED || memcmp(bytes, "PDBT\1", 5) || tables == MOST_TABLES)
        fail("no table file, or too many: ", name);
    close(file);
    lay_out(bytes[5]);
    struct table *it = &table[tables++];
    it->mask = (set)bytes[8] << 24 | bytes[9] << 16 | bytes[10] << 8 | bytes[11];
    for (int tile = 1; tile < cells; tile++)
        if (it->mask >> tile & 1 && it->size < MOST_TILES)
            it->tile[it->size++] = tile;
    it->width = it->size + 1 < cells - it->size ? it->size + 1 : cells - it->size;
    it->entries = bytes + HEADER;
    size_t entries = it->width;
    for (int i = 0; i < it->size; i++)
        entries *= cells - i;
    if (entries + HEADER != (size_t)about.st_size)
        fail("not the length of a table file: ", name);
}

/* Where a table has the count of a board, or of the transposed board: the tiles stand in these cells. */
static const uint8_t *entry_of(const struct table *it, int transposed, const uint8_t *cell_of, int blank)
{
    size_t rank = 0;
    set taken = 0;
    for (int i = 0; i < it->size; i++) {
        int cell = transposed ? mirror[cell_of[mirror[it->tile[i]]]] : cell_of[it->tile[i]];
        rank = rank * (cells - i) + cell - __builtin_popcount(taken & (only(cell) - 1));
        taken |= only(cell);
    }
    return it->entries + rank * it->width + regions_of(taken)->number[transposed ? mirror[blank] : blank];
}

static uint64_t chance = 88172645463325252u;

static uint64_t draw(void)
{
    chance ^= chance << 13;
    chance ^= chance >> 7;
    return chance ^= chance << 17;
}

/* From 0 to below 1. */
static double draw_share(void)
{
    return (draw() >> 11) * 0x1p-53;
}
