/* Writes the exact table file of a pattern, as docs/FORMATS.md describes it, by a breadth-first search over placements and
 * regions, from the tiles at home. Nothing of the program is used.
 *
 *     plain_table SIDE MASK >FILE
 *
 * A move of a tile can be taken back, so as many moves lead to an entry from home as lead home from there. The side and the
 * mask must be those of a pattern. The status is 1 where they aren't, memory is refused, a count passes 253 or the file can't
 * be written. */
#include <stdint.h>
#include <stdio.h>
#include <stdlib.h>
#include <string.h>

enum { MOST_TILES = 8, MOST_COUNT = 253, NO_REGION = 254, NEVER = 255 };

static int side, cells, tiles, width;
static int home[MOST_TILES];
/* All cells, and those of two columns, as masks: bit c for cell c. */
static uint32_t board, first_column, last_column;

static void fail(const char *why)
{
    fprintf(stderr, "plain_table: %s\n", why);
    exit(1);
}

static uint32_t mask_of(int cell)
{
    return UINT32_C(1) << cell;
}

static int least_of(uint32_t mask)
{
    return __builtin_ctz(mask);
}

/* Reads the pattern off its side and its mask. */
static void read_pattern(int n, unsigned long mask)
{
    static const int most[] = {0, 0, 3, 8, 8, 6};
    side = n;
    cells = n * n;
    board = (UINT32_C(1) << cells) - 1;
    for (int row = 0; row < n; row++)
        first_column |= mask_of(row * n);
    last_column = first_column << (n - 1);
    if (mask == 0 || mask & 1 || mask > board)
        fail("the mask is no pattern");
    for (int tile = 1; tile < cells; tile++)
        if (mask >> tile & 1) {
            if (tiles == most[n])
                fail("the pattern has too many tiles");
            home[tiles++] = tile;
        }
    width = tiles + 1 < cells - tiles ? tiles + 1 : cells - tiles;
}

/* How many lists of so many different cells there are, where so many cells may stand in them. */
static uint64_t lists(int length, int among)
{
    uint64_t count = 1;
    for (int place = 0; place < length; place++)
        count *= among - place;
    return count;
}

/* The number of lists of different cells that come before this one in lexicographic order. */
static uint64_t rank_of(const int *placement)
{
    uint64_t rank = 0;
    uint32_t left = board;
    for (int place = 0; place < tiles; place++) {
        int smaller = __builtin_popcount(left & (mask_of(placement[place]) - 1));
        rank = rank * (cells - place) + smaller;
        left &= ~mask_of(placement[place]);
    }
    return rank;
}

/* The placement of a rank. */
static void place_tiles(uint64_t rank, int *placement)
{
    uint32_t left = board;
    for (int place = 0; place < tiles; place++) {
        uint64_t behind = lists(tiles - place - 1, cells - place - 1);
        uint32_t rest = left;
        for (uint64_t skipped = rank / behind; skipped > 0; skipped--)
            rest &= rest - 1;
        rank %= behind;
        placement[place] = least_of(rest);
        left &= ~mask_of(placement[place]);
    }
}

static uint32_t free_cells(const int *placement)
{
    uint32_t cells_left = board;
    for (int place = 0; place < tiles; place++)
        cells_left &= ~mask_of(placement[place]);
    return cells_left;
}

/* The cells beside those of a mask, and bits that are no cell's. */
static uint32_t around(uint32_t mask)
{
    return mask << side | mask >> side | (mask & ~last_column) << 1 | (mask & ~first_column) >> 1;
}

/* The region of a free cell among these ones: the free cells that a path of adjacent free cells reaches. */
static uint32_t region_of(uint32_t among, int cell)
{
    uint32_t region = mask_of(cell), before = 0;
    while (region != before) {
        before = region;
        region |= around(region) & among;
    }
    return region;
}

/* The slot of the region that a free cell is in: how many regions have a smaller least cell. */
static int slot_of(uint32_t among, int cell)
{
    for (int slot = 0;; slot++) {
        uint32_t region = region_of(among, least_of(among));
        if (region & mask_of(cell))
            return slot;
        among &= ~region;
    }
}

/* The region of a slot. */
static uint32_t region_in(uint32_t among, int slot)
{
    for (; slot > 0; slot--)
        among &= ~region_of(among, least_of(among));
    return region_of(among, least_of(among));
}

static uint64_t entry_of(const int *placement, int cell)
{
    return rank_of(placement) * width + slot_of(free_cells(placement), cell);
}

/* The entries of all slots, and those that were reached, in the order in which they were. */
static uint8_t *entries;
static uint32_t *reached;
static uint64_t count_of_reached;

static void reach(uint64_t entry, int count)
{
    if (entries[entry] != NEVER)
        return;
    if (count > MOST_COUNT)
        fail("a count passes 253");
    entries[entry] = count;
    reached[count_of_reached++] = entry;
}

/* Reaches each entry one move of the pattern's tiles away. */
static void move_tiles(uint64_t entry)
{
    int placement[MOST_TILES];
    place_tiles(entry / width, placement);
    uint32_t region = region_in(free_cells(placement), entry % width);
    for (int place = 0; place < tiles; place++) {
        int from = placement[place];
        for (uint32_t to = around(mask_of(from)) & region; to != 0; to &= to - 1) {
            placement[place] = least_of(to);
            reach(entry_of(placement, from), entries[entry] + 1);
        }
        placement[place] = from;
    }
}

/* Marks the slots of a placement that have no region. */
static void mark_slots(uint64_t rank)
{
    int placement[MOST_TILES], slot = 0;
    place_tiles(rank, placement);
    for (uint32_t rest = free_cells(placement); rest != 0; slot++)
        rest &= ~region_of(rest, least_of(rest));
    for (; slot < width; slot++)
        entries[rank * width + slot] = NO_REGION;
}

static void put_number(uint8_t *to, uint64_t number, int bytes)
{
    for (int place = bytes - 1; place >= 0; place--, number >>= 8)
        to[place] = number & 255;
}

static void write_file(unsigned long mask, uint64_t size)
{
    uint8_t header[20] = {'P', 'D', 'B', 'T', 1, side, tiles, 0};
    put_number(header + 8, mask, 4);
    put_number(header + 12, size, 8);
    if (fwrite(header, 1, sizeof header, stdout) != sizeof header || fwrite(entries, 1, size, stdout) != size ||
        fflush(stdout) != 0)
        fail("the file can't be written");
}

int main(int count, char **words)
{
    if (count != 3 || strlen(words[1]) != 1 || words[1][0] < '2' || words[1][0] > '5')
        fail("usage: plain_table SIDE MASK");
    unsigned long mask = strtoul(words[2], NULL, 10);
    read_pattern(words[1][0] - '0', mask);
    uint64_t placements = lists(tiles, cells), size = placements * width;
    entries = malloc(size);
    reached = malloc(size * sizeof *reached);
    if (entries == NULL || reached == NULL)
        fail("no memory");
    memset(entries, NEVER, size);
    reach(entry_of(home, 0), 0);
    for (uint64_t next = 0; next < count_of_reached; next++)
        move_tiles(reached[next]);
    for (uint64_t rank = 0; rank < placements; rank++)
        mark_slots(rank);
    write_file(mask, size);
    return 0;
}
