/* Counts, samples and partitions for tools/choose_tables.py, which compiles this and says what it is for:
 *
 *     choose_tables SIDE AUTOMATON SIZES TABLES..
 *
 * AUTOMATON is a file of states, four numbers of 32 bits each: the next state by U, D, L and R, or -1 where the move is left out. SIZES
 * are the tiles of the tables of a set, as 6,6,6,6. A line of the standard input asks for something, and is answered by a
 * line. PARTS are masks with commas between them, a set; SETS are PARTS with `/` between them, or `-` for none.
 *
 *     walk FEWER WIDTH SEED LEVEL MANY SETS BOARD
 *         `boards N depth D`: about how many boards a search for fewer than FEWER moves expands, and their mean depth, from WIDTH boards
 *         of each level; of LEVEL as many as MANY become samples, if it isn't 0, and then no deeper level is looked at;
 *     forget
 *         there are no samples any more;
 *     nodes
 *         how many nodes A* has looked at so far;
 *     best PAIRED SETS
 *         `value V parts PARTS`: of all partitions of the tiles into connected patterns of SIZES the one that is best on the samples:
 *         whose sum is greatest on the mean, or beside SETS the one which leaves the fewest boards; where PAIRED is 1 its mirror
 *         image counts too. `none` where there is no such partition.
 *
 * The count of a pattern on a board is found by A* over tables of three of its tiles, or is read where one of TABLES has it. What is
 * answered is the same for the same lines in the same order. Nothing here is proved. */
#include "sliding.h"
#include <math.h>

enum { GROUP = 3, GROUPS = 3, MOST_PATTERNS = 65535, MOST_SAMPLES = 1024, MOST_NODES = 3000000, KNOWN = 1 << 21, NEVER = 255 };
enum { MOST_LOOKED_AT = 4000000 };

/* Patterns */

struct pattern {
    set mask;
    int size, transposed;
    uint8_t tile[MOST_TILES]; /* ascending */
    const struct table *table;
    uint8_t *counts; /* on the samples, as many as `counted` */
    int counted;
};

static struct pattern pattern[MOST_PATTERNS];
static int patterns;

static set mirrored(set mask)
{
    set other = 0;
    for (; mask; mask &= mask - 1)
        other |= only(mirror[__builtin_ctz(mask)]);
    return other;
}

static int pattern_of(set mask)
{
    static uint16_t number[1 << MOST_CELLS]; /* and 1 */
    if (mask & ~all || mask & 1 || !mask || __builtin_popcount(mask) > MOST_TILES || patterns == MOST_PATTERNS)
        fail("no pattern, or too many", "");
    if (number[mask])
        return number[mask] - 1;
    struct pattern *it = &pattern[patterns];
    it->mask = mask;
    for (int tile = 1; tile < cells; tile++)
        if (mask >> tile & 1)
            it->tile[it->size++] = tile;
    for (int i = 0; i < tables; i++)
        if (table[i].mask == mask || table[i].mask == mirrored(mask)) {
            it->table = &table[i];
            it->transposed = table[i].mask != mask;
        }
    number[mask] = ++patterns;
    return patterns - 1;
}

/* Small tables: the least count of one to three tiles over all regions, by their cells, of five bits each. Missing tiles are 0. */

static uint8_t *small_of[MOST_CELLS][MOST_CELLS][MOST_CELLS];

static uint8_t *make_small(const int *tile)
{
    static uint8_t is_met[1 << 19];
    static uint32_t queue[1 << 19];
    uint8_t *count = room(1 << 15), *depth_of = room(1 << 19);
    memset(count, NEVER, 1 << 15);
    memset(is_met, 0, sizeof is_met);
    uint32_t first = 0, last = 1;
    queue[0] = (tile[0] << 10 | tile[1] << 5 | tile[2]) << 4;
    is_met[queue[0]] = 1;
    for (; first < last; first++) {
        uint32_t at = queue[first] >> 4, region = queue[first] & 15;
        int cell[GROUP] = {at >> 10, at >> 5 & 31, at & 31}, depth = depth_of[queue[first]];
        set taken = 0;
        for (int k = 0; k < GROUP; k++)
            taken |= tile[k] ? only(cell[k]) : 0;
        count[at] = depth < count[at] ? depth : count[at];
        struct regions now = *regions_of(taken);
        for (int k = 0; k < GROUP; k++)
            for (set to = tile[k] ? around[cell[k]] & ~taken : 0; to; to &= to - 1) {
                int free = __builtin_ctz(to), shift = 10 - 5 * k;
                if (now.number[free] != region)
                    continue;
                uint32_t next = at ^ (uint32_t)(cell[k] ^ free) << shift;
                next = next << 4 | regions_of(taken ^ only(cell[k]) ^ only(free))->number[cell[k]];
                if (!is_met[next]) {
                    is_met[next] = 1;
                    depth_of[next] = depth + 1;
                    queue[last++] = next;
                }
            }
    }
    free(depth_of);
    return count;
}

/* The tiles of a pattern in groups of three at most, with their small tables. */
struct split {
    int groups, place[GROUPS][GROUP]; /* of the tiles in the pattern, or -1 */
    const uint8_t *count[GROUPS];
};

static int sum_of(const struct split *it, const uint8_t *cell)
{
    int sum = 0;
    for (int g = 0; g < it->groups; g++) {
        uint32_t at = 0;
        for (int k = 0; k < GROUP; k++)
            at = at << 5 | (it->place[g][k] < 0 ? 0 : cell[it->place[g][k]]);
        sum += it->count[g][at];
    }
    return sum;
}

static void add_group(struct split *it, const struct pattern *p, const int *place)
{
    int tile[GROUP];
    for (int k = 0; k < GROUP; k++)
        tile[k] = place[k] < 0 ? 0 : p->tile[place[k]];
    uint8_t **small = &small_of[tile[0]][tile[1]][tile[2]];
    if (!*small)
        *small = make_small(tile);
    memcpy(it->place[it->groups], place, sizeof it->place[0]);
    it->count[it->groups++] = *small;
}

/* Goes over the ways to split the tiles that are left, and keeps the one with the greatest sum. */
static void try_splits(struct split so_far, const struct pattern *p, uint32_t left, const uint8_t *cell, struct split *best, int *most)
{
    if (!left) {
        int sum = sum_of(&so_far, cell);
        if (sum > *most) {
            *most = sum;
            *best = so_far;
        }
        return;
    }
    int lead = __builtin_ctz(left), size = __builtin_popcount(left);
    for (int second = lead + 1; second < p->size; second++)
        for (int third = second + 1; size > 2 && third < p->size; third++)
            if (left >> second & 1 && left >> third & 1) {
                struct split it = so_far;
                add_group(&it, p, (int[]){lead, second, third});
                try_splits(it, p, left & ~(1u << lead | 1u << second | 1u << third), cell, best, most);
            }
    if (size <= 2) {
        struct split it = so_far;
        int other = size == 2 ? __builtin_ctz(left & (left - 1)) : -1;
        add_group(&it, p, size == 2 ? (int[]){-1, lead, other} : (int[]){-1, -1, lead});
        try_splits(it, p, 0, cell, best, most);
    }
}

/* A*: the nodes are placements with a region, as cells of five bits each and the region in four. */

static struct node {
    uint64_t key;
    uint8_t moves;
} *nodes;
static uint32_t node_count, *slot, slot_mask;
static long looked_at_by_search;

static uint32_t *slot_for(uint64_t key)
{
    uint64_t at = key * 0x9E3779B97F4A7C15ull >> 32 & slot_mask;
    while (slot[at] && nodes[slot[at]].key != key)
        at = (at + 1) & slot_mask;
    return &slot[at];
}

static uint32_t node_of(uint64_t key)
{
    uint32_t *at = slot_for(key);
    if (*at)
        return *at;
    nodes[++node_count] = (struct node){key, NEVER};
    *at = node_count;
    if (2 * node_count > slot_mask) {
        slot_mask = 2 * slot_mask + 1;
        memset(slot, 0, (slot_mask + 1) * sizeof *slot);
        for (uint32_t i = 1; i <= node_count; i++)
            *slot_for(nodes[i].key) = i;
    }
    return node_count;
}

struct open {
    uint32_t node;
    uint8_t moves;
};

static struct heap {
    struct open *open;
    uint32_t count, most;
} heap[NEVER + 1];

static void open_node(uint32_t node, int moves, int least)
{
    struct heap *it = &heap[least];
    if (it->count == it->most) {
        it->most = it->most ? 2 * it->most : 1024;
        it->open = realloc(it->open, it->most * sizeof *it->open);
        if (!it->open)
            fail("no memory", "");
    }
    it->open[it->count++] = (struct open){node, moves};
}

/* Opens the neighbours of a node by which the count may be `least`, and the node itself once more for those by which it is more. */
static void expand(const struct pattern *p, const struct split *split, uint32_t node, int moves, int least)
{
    const uint64_t key = nodes[node].key;
    uint8_t cell[MOST_TILES];
    set taken = 0;
    int later = NEVER;
    for (int i = 0; i < p->size; i++) {
        cell[i] = key >> (4 + 5 * i) & 31;
        taken |= only(cell[i]);
    }
    const struct regions now = *regions_of(taken);
    for (int i = 0; i < p->size; i++)
        for (set to = around[cell[i]] & ~taken; to; to &= to - 1) {
            int from = cell[i], free = __builtin_ctz(to);
            if (now.number[free] != (key & 15))
                continue;
            cell[i] = free;
            int count = moves + 1 + sum_of(split, cell);
            cell[i] = from;
            if (count > least) {
                later = count < later ? count : later;
                continue;
            }
            uint64_t next = (key & ~(uint64_t)15) ^ (uint64_t)(from ^ free) << (4 + 5 * i);
            uint32_t other = node_of(next | regions_of(taken ^ only(from) ^ only(free))->number[from]);
            if (nodes[other].moves > moves + 1) {
                nodes[other].moves = moves + 1;
                open_node(other, moves + 1, least);
            }
        }
    if (later < NEVER)
        open_node(node, moves, later);
}

/* The count, or, where too many nodes would be looked at, one that is no greater. */
static int count_by_search(const struct pattern *p, uint64_t key)
{
    uint8_t cell[MOST_TILES];
    uint64_t goal = 0;
    int least = -1;
    struct split split, none = {0};
    for (int i = 0; i < p->size; i++) {
        cell[i] = key >> (4 + 5 * i) & 31;
        goal |= (uint64_t)p->tile[i] << (4 + 5 * i);
    }
    try_splits(none, p, (1u << p->size) - 1, cell, &split, &least);
    if (!nodes) {
        nodes = room((MOST_NODES + 200) * sizeof *nodes);
        slot = room(4 * MOST_NODES * sizeof *slot);
    }
    node_count = 0;
    slot_mask = (1 << 12) - 1;
    memset(slot, 0, (slot_mask + 1) * sizeof *slot);
    for (int f = 0; f <= NEVER; f++)
        heap[f].count = 0;
    uint32_t first = node_of(key);
    nodes[first].moves = 0;
    open_node(first, 0, least);
    while (least < NEVER - 1 && node_count < MOST_NODES) {
        struct heap *it = &heap[least];
        if (!it->count) {
            least++;
            continue;
        }
        struct open open = it->open[--it->count];
        looked_at_by_search++;
        if (nodes[open.node].key == goal)
            return open.moves;
        if (nodes[open.node].moves == open.moves)
            expand(p, &split, open.node, open.moves, least);
    }
    return least;
}

/* The count of a pattern where the tiles stand in these cells. Searches are kept, since boards of a search have placements in common. */
static int count_of(int number, const uint8_t *cell_of, int blank)
{
    static struct known {
        uint64_t key; /* and 1 */
        uint8_t count;
    } *known;
    const struct pattern *p = &pattern[number];
    if (p->table)
        return *entry_of(p->table, p->transposed, cell_of, blank);
    if (!known)
        known = room(KNOWN * sizeof *known);
    uint64_t key = 0;
    set taken = 0;
    for (int i = 0; i < p->size; i++) {
        key |= (uint64_t)cell_of[p->tile[i]] << (4 + 5 * i);
        taken |= only(cell_of[p->tile[i]]);
    }
    key |= regions_of(taken)->number[blank];
    uint64_t name = ((uint64_t)number << 44 | key) + 1;
    struct known *it = &known[name * 0x9E3779B97F4A7C15ull >> 40 & (KNOWN - 1)];
    if (it->key != name)
        *it = (struct known){name, count_by_search(p, key)};
    return it->count;
}

/* Sets */

static int sets, parts[MOST_SETS], part[MOST_SETS][MOST_TABLES], owner[MOST_SETS][MOST_CELLS];

static void read_sets(const char *text)
{
    sets = 0;
    memset(owner, 255, sizeof owner);
    while (*text && *text != '-') {
        if (sets == MOST_SETS)
            fail("too many sets", "");
        for (parts[sets] = 0;; text++) {
            char *end;
            set mask = strtoul(text, &end, 10);
            int number = pattern_of(mask);
            if (parts[sets] == MOST_TABLES)
                fail("too many tables", "");
            for (int tile = 1; tile < cells; tile++)
                if (mask >> tile & 1) {
                    if (owner[sets][tile] >= 0)
                        fail("a tile stands twice in a set", "");
                    owner[sets][tile] = parts[sets];
                }
            part[sets][parts[sets]++] = number;
            text = end;
            if (*text != ',')
                break;
        }
        sets++;
        text += *text == '/';
    }
}

/* Boards of a search */

struct stand {
    uint8_t cell[MOST_CELLS], blank;
    uint8_t count[MOST_SETS][MOST_TABLES];
    int sum[MOST_SETS];
    int32_t state;
    double weight; /* how many boards of the search it stands for */
    double worth;  /* and about how many it and they lead to, in some measure */
};

static int32_t (*automaton)[WAYS];
static uint8_t sample[MOST_SAMPLES][MOST_CELLS];
static int samples;

static void find_cells(const uint8_t *board, uint8_t *cell_of)
{
    for (int cell = 0; cell < cells; cell++)
        cell_of[board[cell]] = cell;
}

static void begin(struct stand *it, const uint8_t *board)
{
    uint8_t cell_of[MOST_CELLS];
    memset(it, 0, sizeof *it);
    memcpy(it->cell, board, cells);
    find_cells(board, cell_of);
    it->blank = cell_of[0];
    for (int s = 0; s < sets; s++)
        for (int i = 0; i < parts[s]; i++)
            it->sum[s] += it->count[s][i] = count_of(part[s][i], cell_of, it->blank);
}

/* Moves the blank, and answers whether a search that may take so many moves more goes on. */
static int enter(struct stand *it, int way, int left)
{
    uint8_t cell_of[MOST_CELLS];
    int to = beside[it->blank][way], tile = it->cell[to];
    it->state = automaton[it->state][way];
    it->cell[it->blank] = tile;
    it->cell[to] = 0;
    it->blank = to;
    find_cells(it->cell, cell_of);
    for (int s = 0; s < sets; s++)
        if (owner[s][tile] >= 0) {
            uint8_t *count = &it->count[s][owner[s][tile]];
            int before = *count;
            it->sum[s] += (*count = count_of(part[s][owner[s][tile]], cell_of, to)) - before;
            if (it->sum[s] + ((it->sum[s] ^ left) & 1) > left)
                return 0;
        }
    return 1;
}

static double weight_of(const struct stand *level, uint32_t count)
{
    double weight = 0;
    for (uint32_t i = 0; i < count; i++)
        weight += level[i].weight;
    return weight;
}

/* Boards evenly spread over those for which the level stands. */
static void keep_samples(const struct stand *level, uint32_t count, int many)
{
    double step = weight_of(level, count) / many, at = step * draw_share();
    for (uint32_t i = 0; i < count; i++)
        for (at -= level[i].weight; at < 0 && samples < MOST_SAMPLES; at += step)
            memcpy(sample[samples++], level[i].cell, cells);
}

/* What a board is worth: to count each move that is to spare as twice the boards gives the least errors. */
static void value(struct stand *it, int left)
{
    int most = 0;
    for (int s = 0; s < sets; s++)
        most = it->sum[s] > most ? it->sum[s] : most;
    it->worth = ldexp(it->weight, left - most);
}

/* Keeps about so many boards: all that are worth more than some limit, and others by chance, which then stand for as much as that. */
static uint32_t thin(struct stand *level, uint32_t count, uint32_t width)
{
    double limit = 0, before = -1;
    while (limit != before) {
        double small = 0;
        uint32_t great = 0;
        for (uint32_t i = 0; i < count; i++) {
            great += level[i].worth >= limit && limit > 0;
            small += level[i].worth >= limit && limit > 0 ? 0 : level[i].worth;
        }
        before = limit;
        limit = great < width ? small / (width - great) : limit;
    }
    uint32_t kept = 0;
    double at = limit * draw_share();
    for (uint32_t i = 0; i < count; i++) {
        int is_great = level[i].worth >= limit;
        at -= is_great ? 0 : level[i].worth;
        if (!is_great && at >= 0)
            continue;
        at += is_great ? 0 : limit;
        level[kept] = level[i];
        level[kept++].weight *= is_great ? 1 : limit / level[i].worth;
    }
    return kept;
}

/* Expands level by level, of each level about so many boards, each of which stands for those that were left out. */
static void walk(const uint8_t *board, int fewer, uint32_t width, int at_level, int many)
{
    static struct stand *level, *next;
    level = realloc(level, WAYS * ((size_t)width + 1) * sizeof *level);
    next = realloc(next, WAYS * ((size_t)width + 1) * sizeof *next);
    if (!level || !next)
        fail("no memory", "");
    begin(level, board);
    int left = fewer - 1, blank = level->blank;
    left -= (left ^ (blank / side + blank % side)) & 1;
    uint32_t count = 1;
    for (int s = 0; s < sets; s++)
        if (level->sum[s] > left)
            count = 0;
    double boards = 0, depths = 0;
    level->weight = 1;
    for (int depth = 0; count && left > 0; depth++, left--) {
        double here = weight_of(level, count);
        boards += here;
        depths += here * depth;
        uint32_t made = 0;
        for (uint32_t i = 0; i < count; i++)
            for (int way = 0; way < WAYS; way++)
                if (beside[level[i].blank][way] != NOWHERE && automaton[level[i].state][way] >= 0) {
                    next[made] = level[i];
                    if (enter(&next[made], way, left - 1))
                        value(&next[made++], left - 1);
                }
        if (many && (depth == at_level || !made))
            keep_samples(level, count, many);
        if ((many && depth == at_level) || here < boards * 1e-6)
            break;
        count = made > width ? thin(next, made, width) : made;
        struct stand *before = level;
        level = next;
        next = before;
    }
    printf("boards %.0f depth %.1f", boards, boards ? depths / boards : 0);
}

/* Partitions */

static int sizes[MOST_TABLES], size_count, listed[MOST_PATTERNS], list_from[MOST_CELLS + 1];
static int chosen[MOST_TABLES], depth_chosen, best_parts[MOST_TABLES], best_count, is_paired;
static int used_sum[MOST_SAMPLES];
static double best_value;
static long looked_at;

static const uint8_t *counts_of(int number)
{
    struct pattern *p = &pattern[number];
    p->counts = p->counts ? p->counts : room(MOST_SAMPLES);
    for (uint8_t cell_of[MOST_CELLS]; p->counted < samples; p->counted++) {
        find_cells(sample[p->counted], cell_of);
        p->counts[p->counted] = count_of(number, cell_of, cell_of[0]);
    }
    return p->counts;
}

/* The mean of the sums, or, beside sets, less the share of the boards that are left: a sum that is greater by one move leaves a
 * search 2^-1.5 of them, about. */
static void judge(void)
{
    const uint8_t *counts[MOST_TABLES], *mirrors[MOST_TABLES];
    double value = 0;
    looked_at++;
    for (int i = 0; i < depth_chosen; i++) {
        counts[i] = counts_of(chosen[i]);
        mirrors[i] = is_paired ? counts_of(pattern_of(mirrored(pattern[chosen[i]].mask))) : counts[i];
    }
    for (int s = 0; s < samples; s++) {
        int sum = 0, mirrored_sum = 0;
        for (int i = 0; i < depth_chosen; i++) {
            sum += counts[i][s];
            mirrored_sum += mirrors[i][s];
        }
        sum = mirrored_sum > sum ? mirrored_sum : sum;
        value += !sets ? sum : sum > used_sum[s] ? -exp2(-1.5 * (sum - used_sum[s])) : -1;
    }
    if (!best_count || value > best_value) {
        best_value = value;
        best_count = depth_chosen;
        memcpy(best_parts, chosen, sizeof chosen);
    }
}

/* Covers the least tile that is left by each pattern of a size that is left. */
static void divide(set left)
{
    if (!left) {
        judge();
        return;
    }
    int least = __builtin_ctz(left);
    for (int i = list_from[least]; i < list_from[least + 1] && looked_at < MOST_LOOKED_AT; i++) {
        const struct pattern *p = &pattern[listed[i]];
        if (p->mask & ~left)
            continue;
        for (int k = 0; k < size_count; k++)
            if (sizes[k] == p->size) {
                sizes[k] = 0;
                chosen[depth_chosen++] = listed[i];
                divide(left & ~p->mask);
                depth_chosen--;
                sizes[k] = p->size;
                break;
            }
    }
}

static void list_patterns(void)
{
    int count = 0;
    for (int tile = 1; tile < cells; tile++) {
        list_from[tile] = count;
        set beyond = (all >> (tile + 1)) + 1;
        for (set rest = 0; rest < beyond; rest++) {
            set mask = rest << (tile + 1) | only(tile);
            int size = __builtin_popcount(mask), is_wanted = 0;
            for (int k = 0; k < size_count; k++)
                is_wanted |= sizes[k] == size;
            if (is_wanted && region_of(mask, tile) == mask)
                listed[count++] = pattern_of(mask);
        }
    }
    list_from[cells] = count;
}

static void find_best(int paired)
{
    uint8_t cell_of[MOST_CELLS];
    for (int s = 0; s < samples; s++) {
        find_cells(sample[s], cell_of);
        used_sum[s] = 0;
        for (int k = 0; k < sets; k++) {
            int sum = 0;
            for (int i = 0; i < parts[k]; i++)
                sum += counts_of(part[k][i])[s];
            used_sum[s] = sum > used_sum[s] ? sum : used_sum[s];
        }
    }
    is_paired = paired;
    best_count = looked_at = 0;
    divide(all & ~1u);
    printf(best_count ? "value %.4f parts " : "none", best_value / (samples ? samples : 1));
    for (int i = 0; i < best_count; i++)
        printf(i ? ",%u" : "%u", pattern[best_parts[i]].mask);
}

static void read_automaton(const char *name)
{
    FILE *in = fopen(name, "rb");
    long length = !in || fseek(in, 0, SEEK_END) ? 0 : ftell(in);
    automaton = room(length + 1);
    if (length < 16 || fseek(in, 0, SEEK_SET) || fread(automaton, 1, length, in) != (size_t)length)
        fail("no automaton: ", name);
    fclose(in);
}

static void answer(char *line)
{
    uint8_t board[MOST_CELLS];
    int at = 0, fewer, level, many, paired;
    unsigned width, seed;
    static char text[8192];
    if (sscanf(line, "walk %d %u %u %d %d %8191s %n", &fewer, &width, &seed, &level, &many, text, &at) == 6 && at && width) {
        read_board(line + at, board);
        read_sets(text);
        chance = 88172645463325252u + seed * 0x9E3779B97F4A7C15u;
        walk(board, fewer, width, level, many);
    } else if (sscanf(line, "best %d %8191s", &paired, text) == 2) {
        read_sets(text);
        find_best(paired);
    } else if (!strcmp(line, "nodes\n")) {
        printf("%ld", looked_at_by_search);
    } else if (!strcmp(line, "forget\n")) {
        printf("forgotten");
        samples = 0;
        for (int i = 0; i < patterns; i++)
            pattern[i].counted = 0;
    } else {
        fail("what is asked: ", line);
    }
    printf("\n");
    fflush(stdout);
}

int main(int words, char **word)
{
    static char line[16384];
    if (words < 4)
        fail("usage: choose_tables SIDE AUTOMATON SIZES TABLES..", "");
    lay_out(atoi(word[1]));
    read_automaton(word[2]);
    for (char *at = word[3]; *at && size_count < MOST_TABLES; at += *at == ',')
        sizes[size_count++] = strtoul(at, &at, 10);
    for (int i = 4; i < words; i++)
        read_table(word[i]);
    list_patterns();
    while (fgets(line, sizeof line, stdin))
        answer(line);
    return 0;
}
