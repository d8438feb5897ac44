/* Searches for a solution of fewer moves than a bound, as `pdb_cli prove` does, by edge words and an automaton, and expands the
 * same boards:
 *
 *     cc -O3 -march=x86-64-v2 -pthread -o edge_kernel benches/peers/edge_kernel.c
 *     ./edge_kernel SETS LANES LONGEST TABLES.. <CLAIMS
 *
 * CLAIMS are lines `BOARD : BOUND`, and SETS is a file of set lines, one or two, each of which has all tiles. LANES searches take
 * turns, so that their reads of memory wait side by side; 1 is a plain search by a stack. LONGEST is how many moves the longest
 * string has that need not be tried: 2 leaves out moves that are taken straight back, and nothing else. The tables are files as
 * `pdb_cli make-table` makes them, and are believed. It prints
 *
 *     states S words W
 *
 * with the states of the automaton and the milliseconds of processor time in which the words were made, and for each claim
 *
 *     boards N found F milliseconds T
 *
 * with how many boards were expanded, whether a solution was found (then the count says nothing), and the processor time of the
 * search alone. With LONGEST as its only word it prints the strings themselves, one a line. The status is 0, or 2 where the words
 * or a claim are wrong or a file fails. Nothing here is proved. */
#define _GNU_SOURCE
#include <pthread.h>
#include <stdint.h>
#include <stdio.h>
#include <stdlib.h>
#include <string.h>
#include <sys/mman.h>
#include <time.h>

enum { MOST_CELLS = 25, MOST_TILES = 7, MOST_TABLES = 8, MOST_SETS = 2, MOST_LANES = 64, DEEPEST = 256 };
enum { HEADER = 20, NO_REGION = 254, UP = 0, DOWN, LEFT, RIGHT, WAYS, NOWHERE = -1, PAD = 5, MANY_JOBS = 4096 };

/* A set of cells, with bit c for cell c. */
typedef uint32_t set;

struct table {
    int size, width;
    uint8_t tile[MOST_TILES]; /* ascending */
    uint32_t stride[MOST_TILES];
    const uint8_t *entries;
    uint8_t *words; /* of 3 bytes for each index, or of 4 for more than 6 tiles */
    int bytes;
};

/* Where a tile stands in a set: the place of its table, and for each way its bit and what it adds to the index. */
struct seat {
    uint8_t place, bit[WAYS];
    int32_t step[WAYS];
};

static int side, cells, tables, sets, step_of[WAYS];
static set all, with_left, with_right;
static int8_t beside[MOST_CELLS][WAYS];
static uint8_t mirror[MOST_CELLS], legal[MOST_CELLS];
static struct table table[MOST_TABLES];
static uint8_t number[MOST_CELLS];
static struct seat seat[MOST_SETS][MOST_CELLS];
static const struct table *table_at[MOST_SETS * MOST_TABLES];
static int places, slack_of[MOST_SETS];
static uint32_t index_of[MOST_SETS * MOST_TABLES];
static uint32_t (*automaton)[WAYS]; /* the next state and its ways as a mask, or 0 where the step is left out */
static uint32_t states;

_Noreturn static void fail(const char *why, const char *what)
{
    fprintf(stderr, "edge_kernel: %s%s\n", why, what);
    exit(2);
}

static set only(int cell)
{
    return (set)1 << cell;
}

static double milliseconds(void)
{
    struct timespec now;
    clock_gettime(CLOCK_PROCESS_CPUTIME_ID, &now);
    return now.tv_sec * 1e3 + now.tv_nsec / 1e6;
}

static void *room(size_t bytes)
{
    void *start = mmap(0, bytes, PROT_READ | PROT_WRITE, MAP_PRIVATE | MAP_ANONYMOUS, -1, 0);
    if (start == MAP_FAILED)
        fail("no memory", "");
    madvise(start, bytes, MADV_HUGEPAGE);
    return start;
}

/* Reading */

static const uint8_t *read_file(const char *name, size_t *length)
{
    FILE *in = fopen(name, "rb");
    if (!in || fseek(in, 0, SEEK_END))
        fail("can't open ", name);
    *length = ftell(in);
    rewind(in);
    uint8_t *bytes = room(*length + 1);
    if (fread(bytes, 1, *length, in) != *length)
        fail("can't read ", name);
    fclose(in);
    return bytes;
}

static void lay_out(void)
{
    cells = side * side;
    all = only(cells) - 1;
    step_of[UP] = -side;
    step_of[DOWN] = side;
    step_of[LEFT] = -1;
    step_of[RIGHT] = 1;
    for (int cell = 0; cell < cells; cell++) {
        int row = cell / side, column = cell % side;
        beside[cell][UP] = row > 0 ? cell - side : NOWHERE;
        beside[cell][DOWN] = row < side - 1 ? cell + side : NOWHERE;
        beside[cell][LEFT] = column > 0 ? cell - 1 : NOWHERE;
        beside[cell][RIGHT] = column < side - 1 ? cell + 1 : NOWHERE;
        for (int way = 0; way < WAYS; way++)
            legal[cell] |= (beside[cell][way] != NOWHERE) << way;
        with_left |= column > 0 ? only(cell) : 0;
        with_right |= column < side - 1 ? only(cell) : 0;
        mirror[cell] = column * side + row;
    }
}

static void read_table(const char *name)
{
    size_t length, entries;
    const uint8_t *file = read_file(name, &length);
    struct table *t = &table[tables++];
    if (tables > MOST_TABLES || length < HEADER || memcmp(file, "PDBT\1", 5))
        fail("not a table file: ", name);
    if (side == 0) {
        side = file[5];
        lay_out();
    }
    set mask = (set)file[8] << 24 | file[9] << 16 | file[10] << 8 | file[11];
    for (uint32_t stride = 1; mask; mask &= mask - 1, stride *= cells) {
        if (t->size == MOST_TILES)
            fail("too many tiles: ", name);
        t->stride[t->size] = stride;
        t->tile[t->size++] = __builtin_ctz(mask);
    }
    entries = t->width = t->size + 1 < cells - t->size ? t->size + 1 : cells - t->size;
    for (int i = 0; i < t->size; i++)
        entries *= cells - i;
    if (side != file[5] || entries + HEADER != length)
        fail("not the length of a table file of the side: ", name);
    t->entries = file + HEADER;
}

/* Reads a claim, and answers its bound. */
static int read_claim(const char *text)
{
    char *end;
    for (int cell = 0; cell < cells; cell++, text = end) {
        unsigned long n = strtoul(text, &end, 10);
        if (end == text || n >= (unsigned long)cells)
            fail("no board of the tables' side: ", text);
        number[cell] = n;
    }
    text += strspn(text, " ");
    long bound = *text == ':' ? strtol(text + 1, &end, 10) : 0;
    if (bound < 1 || bound > 250)
        fail("no bound from 1 to 250: ", text);
    return bound;
}

/* Edge words */

static set region_of(set free, int cell)
{
    set region = only(cell), before;
    do {
        before = region;
        set sideways = (region & with_left) >> 1 | (region & with_right) << 1;
        region |= (sideways | region >> side | region << side) & free;
    } while (region != before);
    return region;
}

static int count_of(const struct table *t, const uint8_t *cell, int blank)
{
    size_t rank = 0;
    set left = all, region;
    for (int i = 0; i < t->size; i++) {
        rank = rank * (cells - i) + __builtin_popcount(left & (only(cell[i]) - 1));
        left &= ~only(cell[i]);
    }
    const uint8_t *entry = t->entries + rank * t->width;
    if (t->width == 1 || entry[1] == NO_REGION)
        return *entry;
    for (set rest = left; !((region = region_of(left, __builtin_ctz(rest))) & only(blank)); rest &= ~region)
        entry++;
    return *entry;
}

static uint32_t word_of(const struct table *t, uint8_t *cell, set taken)
{
    uint32_t word = 0;
    for (int i = 0; i < t->size; i++)
        for (int way = 0; way < WAYS; way++) {
            int to = cell[i], from = beside[to][way ^ 1]; /* the blank comes to the tile's cell by this way */
            if (from == NOWHERE || taken & only(from))
                continue;
            int before = count_of(t, cell, from);
            cell[i] = from;
            int after = count_of(t, cell, to);
            cell[i] = to;
            word |= (uint32_t)(after > before) << (4 * i + way);
        }
    return word;
}

static void write_words(struct table *t, uint8_t *cell, int tile, set taken, uint32_t index)
{
    if (tile < 0) {
        uint32_t word = word_of(t, cell, taken);
        memcpy(t->words + (size_t)index * t->bytes, &word, t->bytes);
        return;
    }
    for (int at = 0; at < cells; at++)
        if (!(taken & only(at))) {
            cell[tile] = at;
            write_words(t, cell, tile - 1, taken | only(at), index + at * t->stride[tile]);
        }
}

struct part {
    struct table *table;
    int last; /* the cell of the last tile */
};

static void *write_part(void *given)
{
    struct part *part = given;
    struct table *t = part->table;
    uint8_t cell[MOST_TILES];
    cell[t->size - 1] = part->last;
    write_words(t, cell, t->size - 2, only(part->last), part->last * t->stride[t->size - 1]);
    return 0;
}

static void make_words(struct table *t)
{
    pthread_t thread[MOST_CELLS];
    struct part part[MOST_CELLS];
    t->bytes = t->size > 6 ? 4 : 3;
    t->words = room((size_t)t->stride[t->size - 1] * cells * t->bytes + 1);
    for (int last = 0; last < cells; last++) {
        part[last] = (struct part){t, last};
        if (pthread_create(&thread[last], 0, write_part, &part[last]))
            fail("no thread", "");
    }
    for (int last = 0; last < cells; last++)
        pthread_join(thread[last], 0);
}

/* Sets */

static int add_member(const struct table *t, int transposed)
{
    uint8_t cell[MOST_TILES];
    int blank = 0;
    uint32_t index = 0;
    for (int at = 0; at < cells; at++) {
        int seen = transposed ? mirror[at] : at, tile = transposed ? mirror[number[at]] : number[at];
        if (tile == 0)
            blank = seen;
        for (int i = 0; i < t->size; i++)
            if (tile && t->tile[i] == tile) {
                struct seat *s = &seat[sets][number[at]];
                if (s->place)
                    fail("a tile stands twice in a set", "");
                s->place = places + 1;
                cell[i] = seen;
                index += seen * t->stride[i];
                for (int way = 0; way < WAYS; way++) {
                    int way_seen = transposed ? way ^ 2 : way;
                    s->bit[way] = 4 * i + way_seen;
                    s->step[way] = -step_of[way_seen] * (int32_t)t->stride[i];
                }
            }
    }
    table_at[places] = t;
    index_of[places++] = index;
    return count_of(t, cell, blank);
}

static void read_sets(const char *text, int bound)
{
    places = sets = 0;
    memset(seat, 0, sizeof seat);
    for (; *text; sets++) {
        int sum = 0, blank = 0;
        if (strncmp(text, "set ", 4) || sets == MOST_SETS)
            fail("no set line: ", text);
        for (text += 4; *text && *text != '\n';) {
            char *end;
            unsigned long which = strtoul(text, &end, 10);
            if (end == text || which >= (unsigned long)tables)
                fail("no member: ", text);
            sum += add_member(&table[which], *end == 't');
            text = end + (*end == 't');
            text += *text == ' ';
        }
        text += *text == '\n';
        while (number[blank])
            blank++;
        for (int at = 0; at < cells; at++)
            if (number[at] && !seat[sets][number[at]].place)
                fail("a set lacks a tile", "");
        int parity = (blank / side + blank % side) % 2, spare = bound - sum - ((bound - parity) & 1 ? 1 : 2);
        slack_of[sets] = spare < 0 ? -1 : spare / 2;
    }
    for (int s = 0; s < sets; s++)
        for (int tile = 1; tile < cells; tile++)
            seat[s][tile].place--;
}

/* The automaton: a string of moves need not be tried if another one that is shorter, or as long and earlier in the order of the
 * ways, has the same effect and stays in the box of the first (Taylor and Korf 1993). */

enum { WIDE = 41, MIDDLE = 20 * WIDE + 20 };

struct string {
    uint64_t moves, effect;
    int8_t first_row, last_row, first_column, last_column;
    uint32_t next; /* in the chain of its hash */
};

static uint64_t mixed(uint64_t x)
{
    x += 0x9E3779B97F4A7C15ull;
    x = (x ^ x >> 30) * 0xBF58476D1CE4E5B9ull;
    x = (x ^ x >> 27) * 0x94D049BB133111EBull;
    return x ^ x >> 31;
}

static uint64_t placed(int tile, int cell)
{
    return mixed((uint64_t)tile << 32 | cell);
}

static int is_inside(const struct string *s, const struct string *of)
{
    return s->first_row >= of->first_row && s->last_row <= of->last_row && s->first_column >= of->first_column &&
        s->last_column <= of->last_column;
}

/* The trie of forbidden strings. Where a string ends the state is left out. */
static uint32_t (*trie)[WAYS], trie_states = 1, trie_room = 1 << 20;
static uint8_t *ends;

static int writes_strings;

static int is_forbidden(uint64_t moves, int length)
{
    uint32_t state = 0;
    for (int k = length - 1; k >= 0; k--)
        if (!(state = trie[state][moves >> 2 * k & 3]))
            return 0;
    return ends[state];
}

static void forbid(uint64_t moves, int length)
{
    uint32_t state = 0;
    for (int k = length - 1; k >= 0; k--) {
        uint32_t *next = &trie[state][moves >> 2 * k & 3];
        if (!*next) {
            if (trie_states == trie_room)
                fail("too many strings", "");
            *next = trie_states++;
        }
        state = *next;
    }
    ends[state] = 1;
    for (int k = length - 1; writes_strings && k >= 0; k--)
        putchar("UDLR"[moves >> 2 * k & 3]);
    if (writes_strings)
        putchar('\n');
}

static void find_strings(int longest)
{
    static const int row_step[WAYS] = {-1, 1, 0, 0}, column_step[WAYS] = {0, 0, -1, 1};
    static int tile_at[WIDE * WIDE];
    size_t most = (size_t)1 << 25, buckets = 1 << 24, count = 1, low = 0, high = 1;
    struct string *found = room(most * sizeof *found);
    uint32_t *bucket = room(buckets * sizeof *bucket);
    trie = room(trie_room * sizeof *trie);
    ends = room(trie_room);
    for (int at = 0; at < WIDE * WIDE; at++)
        tile_at[at] = at;
    bucket[0] = 1;
    for (int length = 1; length <= longest; length++, low = high, high = count)
        for (size_t i = low; i < high; i++) {
            int blank = MIDDLE, trail[32];
            for (int k = 0; k < length - 1; k++) {
                int way = found[i].moves >> 2 * (length - 2 - k) & 3, to = blank + row_step[way] * WIDE + column_step[way];
                int tile = tile_at[to];
                tile_at[to] = tile_at[blank];
                tile_at[blank] = tile;
                trail[k] = blank;
                blank = to;
            }
            for (int way = 0; way < WAYS; way++) {
                struct string s = found[i];
                int is_known = 0, to = blank + row_step[way] * WIDE + column_step[way];
                int row = to / WIDE - 20, column = to % WIDE - 20;
                s.moves = s.moves << 2 | way;
                for (int k = 2; k < length && !is_known; k++)
                    is_known = is_forbidden(s.moves & (((uint64_t)1 << 2 * k) - 1), k);
                if (is_known)
                    continue;
                s.effect += placed(tile_at[to], blank) - placed(tile_at[to], to) + placed(MIDDLE, to) - placed(MIDDLE, blank);
                s.first_row = row < s.first_row ? row : s.first_row;
                s.last_row = row > s.last_row ? row : s.last_row;
                s.first_column = column < s.first_column ? column : s.first_column;
                s.last_column = column > s.last_column ? column : s.last_column;
                uint32_t other = bucket[s.effect & (buckets - 1)];
                while (other && !(found[other - 1].effect == s.effect && is_inside(&found[other - 1], &s)))
                    other = found[other - 1].next;
                if (other) {
                    forbid(s.moves, length);
                    continue;
                }
                if (count == most)
                    fail("too many strings", "");
                s.next = bucket[s.effect & (buckets - 1)];
                found[count++] = s;
                bucket[s.effect & (buckets - 1)] = count;
            }
            for (int k = length - 2; k >= 0; k--) {
                int tile = tile_at[blank];
                tile_at[blank] = tile_at[trail[k]];
                tile_at[trail[k]] = tile;
                blank = trail[k];
            }
        }
    munmap(found, most * sizeof *found);
    munmap(bucket, buckets * sizeof *bucket);
}

/* Adds the failure links (Aho and Corasick 1975), and numbers the states that aren't left out. */
static void make_automaton(int longest)
{
    find_strings(longest);
    uint32_t *link = room(trie_states * sizeof *link), *queue = room(trie_states * sizeof *queue), first = 0, last = 1;
    uint32_t *name = room(trie_states * sizeof *name);
    for (; first < last; first++) {
        uint32_t state = queue[first];
        ends[state] |= ends[link[state]];
        for (int way = 0; way < WAYS; way++) {
            uint32_t next = trie[state][way], beyond = state ? trie[link[state]][way] : 0;
            if (next) {
                link[next] = beyond;
                queue[last++] = next;
            } else {
                trie[state][way] = beyond;
            }
        }
    }
    for (uint32_t i = 0; i < last; i++)
        if (!ends[queue[i]])
            name[queue[i]] = states++;
    automaton = room(states * sizeof *automaton);
    for (uint32_t i = 0; i < last; i++)
        for (int way = 0; way < WAYS && !ends[queue[i]]; way++) {
            uint32_t next = trie[queue[i]][way], ways = 0;
            for (int after = 0; after < WAYS; after++)
                ways |= (uint32_t)!ends[trie[next][after]] << after;
            automaton[name[queue[i]]][way] = ends[next] ? 0 : name[next] << 4 | ways;
        }
}

/* Searching */

struct frame {
    uint32_t word[MOST_SETS]; /* of the places that the move into this board changed, before it */
    uint32_t state;           /* and its ways */
    uint8_t blank, way, ways; /* the way into this board, and the ways that are still to be tried */
    uint8_t rises[MOST_SETS]; /* the ways by which each sum rises */
    int8_t slack[MOST_SETS];
};

/* A search below one board, which takes turns with others. */
struct lane {
    uint8_t padded[MOST_CELLS + 2 * PAD];
    uint32_t index[MOST_SETS * MOST_TABLES], word[MOST_SETS * MOST_TABLES + 1];
    const uint8_t *read[MOST_SETS];
    uint8_t read_to[MOST_SETS], read_bytes[MOST_SETS];
    int left; /* how many moves the boards of the first frame may still take, less 1 */
    uint64_t boards;
    struct frame *top, frames[DEEPEST];
};

static int found;

static inline __attribute__((always_inline)) uint32_t word_at(const uint8_t *at, int bytes)
{
    uint32_t word;
    memcpy(&word, at, 4);
    return bytes == 3 ? word & 0xffffff : word;
}

/* Moves the blank on, judged already, and begins to read the words of the board that is reached. */
static inline __attribute__((always_inline)) void enter(struct lane *l, int way, const int sets)
{
    struct frame *f = l->top, *g = f + 1;
    uint8_t *cell = l->padded + PAD;
    int blank = f->blank, to = blank + step_of[way], tile = cell[to];
    for (int s = 0; s < sets; s++) {
        const struct seat *at = &seat[s][tile];
        const struct table *t = table_at[at->place];
        uint32_t index = l->index[at->place] += at->step[way];
        g->word[s] = l->word[at->place];
        l->read[s] = t->words + (size_t)index * t->bytes;
        l->read_to[s] = at->place;
        l->read_bytes[s] = t->bytes;
        __builtin_prefetch(l->read[s]);
        g->slack[s] = f->slack[s] - (f->rises[s] >> way & 1);
    }
    g->state = automaton[f->state >> 4][way];
    g->blank = to;
    g->way = way;
    cell[blank] = tile;
    cell[to] = 0;
    l->top = g;
}

static inline __attribute__((always_inline)) void leave(struct lane *l, const int sets)
{
    struct frame *g = l->top, *f = g - 1;
    uint8_t *cell = l->padded + PAD;
    int tile = cell[f->blank];
    for (int s = 0; s < sets; s++) {
        const struct seat *at = &seat[s][tile];
        l->index[at->place] -= at->step[g->way];
        l->word[at->place] = g->word[s];
    }
    cell[g->blank] = tile;
    cell[f->blank] = 0;
    l->top = f;
}

/* The ways of a board by which a sum rises. */
static inline __attribute__((always_inline)) uint32_t rises(const struct lane *l, int s, int blank)
{
    const uint8_t *cell = l->padded + PAD;
    uint32_t ways = 0;
    for (int way = 0; way < WAYS; way++) {
        const struct seat *at = &seat[s][cell[blank + step_of[way]]];
        ways |= (l->word[at->place] >> at->bit[way] & 1) << way;
    }
    return ways;
}

/* Expands the board that the search is on, and moves on to the next one; or answers that there is none. */
static inline __attribute__((always_inline)) int step(struct lane *l, const int sets)
{
    struct frame *f = l->top;
    l->boards++;
    uint32_t ways = legal[f->blank] & f->state;
    for (int s = 0; s < sets; s++)
        l->word[l->read_to[s]] = word_at(l->read[s], l->read_bytes[s]);
    for (int s = 0; s < sets; s++) {
        f->rises[s] = rises(l, s, f->blank);
        ways &= f->slack[s] ? ~0u : ~(uint32_t)f->rises[s];
    }
    f->ways = ways;
    while (!f->ways) {
        if (f == l->frames)
            return 0;
        leave(l, sets);
        f = l->top;
    }
    int way = __builtin_ctz(f->ways);
    f->ways &= f->ways - 1;
    enter(l, way, sets);
    if (l->left - (l->top - l->frames) == 2 * l->top->slack[0]) {
        found = 1;
        return 0;
    }
    return 1;
}

/* Boards below which is still to be searched. */
struct job {
    uint8_t number[MOST_CELLS], blank;
    uint32_t index[MOST_SETS * MOST_TABLES], state;
    int8_t slack[MOST_SETS];
};

static struct job *jobs;
static size_t job_count, next_job;
static int job_left;
static uint64_t frontier_boards;

static void begin(struct lane *l, const struct job *job)
{
    memset(l, 0, sizeof *l);
    memcpy(l->padded + PAD, job->number, cells);
    memcpy(l->index, job->index, sizeof l->index);
    for (int p = 0; p < places; p++)
        l->word[p] = word_at(table_at[p]->words + (size_t)l->index[p] * table_at[p]->bytes, table_at[p]->bytes);
    for (int s = 0; s < sets; s++) {
        l->read_to[s] = MOST_SETS * MOST_TABLES;
        l->read[s] = table_at[0]->words;
        l->read_bytes[s] = 4;
        l->frames[0].slack[s] = job->slack[s];
    }
    l->frames[0].blank = job->blank;
    l->frames[0].state = job->state;
    l->left = job_left;
    l->top = l->frames;
}

/* Makes the jobs: the boards at the ends of all ways of as many moves as make many of them. */
static void cut(int bound, int many)
{
    struct lane *l = calloc(1, sizeof *l);
    size_t most = 1 << 20;
    jobs = malloc(most * sizeof *jobs);
    struct job *others = malloc(most * sizeof *others), *first = jobs;
    memset(first, 0, sizeof *first);
    job_count = 1;
    next_job = frontier_boards = found = 0;
    memcpy(first->number, number, cells);
    memcpy(first->index, index_of, sizeof index_of);
    while (number[first->blank])
        first->blank++;
    for (int s = 0; s < sets; s++) {
        first->slack[s] = slack_of[s];
        if (slack_of[s] < 0)
            job_count = 0;
    }
    first->state = 15;
    int parity = (first->blank / side + first->blank % side) % 2;
    for (int way = 0; way < WAYS; way++)
        first->state &= automaton[0][way] ? ~0u : ~(1u << way);
    job_left = bound - ((bound - parity) & 1 ? 1 : 2);
    for (int round = 0; job_count && job_count < (size_t)many && round < 30; round++, job_left--) {
        size_t made = 0;
        for (size_t i = 0; i < job_count; i++) {
            begin(l, &jobs[i]);
            frontier_boards++;
            uint32_t ways = legal[jobs[i].blank] & jobs[i].state;
            for (int s = 0; s < sets; s++) {
                l->frames[0].rises[s] = rises(l, s, jobs[i].blank);
                ways &= jobs[i].slack[s] ? ~0u : ~(uint32_t)l->frames[0].rises[s];
            }
            for (; ways; ways &= ways - 1) {
                struct job *job = &others[made++];
                enter(l, __builtin_ctz(ways), sets);
                memset(job, 0, sizeof *job);
                memcpy(job->number, l->padded + PAD, cells);
                memcpy(job->index, l->index, sizeof job->index);
                memcpy(job->slack, l->top->slack, sizeof job->slack);
                job->blank = l->top->blank;
                job->state = l->top->state;
                found |= job_left - 1 == 2 * job->slack[0];
                leave(l, sets);
            }
        }
        struct job *made_before = jobs;
        jobs = others;
        others = made_before;
        job_count = made;
    }
    free(others);
    free(l);
}

static inline __attribute__((always_inline)) uint64_t search(int lanes, const int sets)
{
    struct lane *lane[MOST_LANES];
    uint64_t boards = 0;
    int live = 0;
    while (live < lanes && next_job < job_count) {
        lane[live] = aligned_alloc(64, (sizeof **lane + 63) / 64 * 64 + 64 * live);
        begin(lane[live++], &jobs[next_job++]);
    }
    while (live && !found)
        for (int i = 0; i < live; i++)
            if (!step(lane[i], sets)) {
                boards += lane[i]->boards;
                if (next_job < job_count)
                    begin(lane[i], &jobs[next_job++]);
                else
                    lane[i--] = lane[--live];
            }
    return boards;
}

/* Answers a claim. */
static void answer(const char *claim, const char *set_lines, int lanes)
{
    int bound = read_claim(claim);
    read_sets(set_lines, bound);
    double start = milliseconds();
    cut(bound, lanes == 1 ? 1 : MANY_JOBS);
    uint64_t boards = sets == 2 ? search(lanes, 2) : search(lanes, 1);
    printf("boards %llu found %d milliseconds %.3f\n", (unsigned long long)(frontier_boards + boards), found,
        milliseconds() - start);
    free(jobs);
}

int main(int count, char **words)
{
    if (count != 2 && count < 5)
        fail("the words are SETS LANES LONGEST TABLES.., or LONGEST", "");
    int lanes = count == 2 ? 1 : atoi(words[2]), longest = atoi(words[count == 2 ? 1 : 3]);
    if (lanes < 1 || lanes > MOST_LANES || longest < 2 || longest > 16)
        fail("a number is too small or too large", "");
    writes_strings = count == 2;
    if (writes_strings) {
        find_strings(longest);
        return 0;
    }
    size_t length;
    const char *set_lines = (const char *)read_file(words[1], &length);
    for (int i = 4; i < count; i++)
        read_table(words[i]);
    double start = milliseconds();
    for (int i = 0; i < tables; i++)
        make_words(&table[i]);
    double made = milliseconds() - start;
    make_automaton(longest);
    printf("states %u words %.0f\n", states, made);
    char claim[1024];
    while (fgets(claim, sizeof claim, stdin))
        answer(claim, set_lines, lanes);
    return 0;
}
