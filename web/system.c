/* The system that the program sees on the page: words, an input, two streams, a clock, and files in memory. Each function with a
   name of Linux's C library, or of the kit's few lines of C (`rattle_..`), stands in for it, and does of it what the program asks
   for. Nothing proves what stands here and in machine.c. That the program reads the bytes that the page put under a name, and that
   the page gets the bytes that the program wrote, is to be read here; tools/checks/check_page.py tests it. */
#include "machine.h"

/* What the page does for this layer: it takes bytes that the program writes to the stream 1 or 2, and tells milliseconds. */
#define BY_PAGE(name) __attribute__((import_module("page"), import_name(name)))
BY_PAGE("wrote") void page_wrote(int stream, const byte *bytes, size_t size);
BY_PAGE("clock") double page_clock(void);

/* What the page may call. */
#define FOR_PAGE(name) __attribute__((export_name(name)))

/* The program: its `main`, which returns here in place of ending a process. */
int start_of_program(void);

enum { NAME = 256, FILES = 64, OPEN_FILES = 16, WORDS = 64 };
/* Linux's error numbers. */
enum { NO_FILE = 2, BAD_DESCRIPTOR = 9, NO_MEMORY = 12, IS_THERE = 17, NOT_ALLOWED = 22, TOO_MANY = 23 };

/* A file stays while it has its name or is open. */
struct file { char name[NAME]; byte *bytes; size_t size, room; int is_named, opened; };
static struct file files[FILES];

/* The open files, by their descriptors, from 3 on, and where each is read or written next. */
static struct { struct file *file; size_t place; } open_files[OPEN_FILES];

static const char *words[WORDS];
static size_t word_count;
static const byte *input;
static size_t input_left;
static int error_number;

static int fail(int error)
{
    error_number = error;
    return -1;
}

static struct file *find(const char *name)
{
    for (int i = 0; i < FILES; i++)
        if (files[i].is_named && is_same_text(files[i].name, name))
            return &files[i];
    return 0;
}

/* A new file without bytes, or 0 where the name is empty or too long, or there are too many files. */
static struct file *make(const char *name)
{
    size_t length = text_length(name);
    if (length == 0 || length >= NAME)
        return 0;
    for (int i = 0; i < FILES; i++) {
        struct file *file = &files[i];
        if (file->is_named || file->opened)
            continue;
        *file = (struct file){ .is_named = 1 };
        memcpy(file->name, name, length + 1);
        return file;
    }
    return 0;
}

static void drop_if_unused(struct file *file)
{
    if (file->is_named || file->opened)
        return;
    free(file->bytes);
    file->bytes = 0;
}

static void take_name(struct file *file)
{
    file->is_named = 0;
    drop_if_unused(file);
}

/* Puts bytes into a file from a place on that isn't behind its end. */
static int put_at(struct file *file, size_t place, const byte *from, size_t size)
{
    if (size > MOST_MEMORY - place)
        return fail(NO_MEMORY);
    if (place + size > file->room) {
        byte *bytes = realloc(file->bytes, place + size);
        if (!bytes)
            return fail(NO_MEMORY);
        file->bytes = bytes;
        file->room = place + size;
    }
    memcpy(file->bytes + place, from, size);
    if (place + size > file->size)
        file->size = place + size;
    return 0;
}

static struct file *opened_as(int descriptor)
{
    return descriptor >= 3 && descriptor < OPEN_FILES ? open_files[descriptor].file : 0;
}

/* ---- What the program calls: files. */

/* A file that is there is opened for reading, and one that isn't is made for writing. The program opens in no other way. */
int open(const char *name, int flags, ...)
{
    enum { ALWAYS = 0400 | 02000000, READS = ALWAYS, MAKES_NEW = ALWAYS | 01 | 0100 | 0200 }; /* Linux's flags */
    struct file *file = find(name);
    int descriptor = 3;
    while (descriptor < OPEN_FILES && open_files[descriptor].file)
        descriptor++;
    if (descriptor == OPEN_FILES)
        return fail(TOO_MANY);
    if (flags == READS && !file)
        return fail(NO_FILE);
    if (flags == MAKES_NEW && file)
        return fail(IS_THERE);
    if (flags == MAKES_NEW && !(file = make(name)))
        return fail(TOO_MANY);
    if (flags != READS && flags != MAKES_NEW)
        return fail(NOT_ALLOWED);
    file->opened++;
    open_files[descriptor].file = file;
    open_files[descriptor].place = 0;
    return descriptor;
}

int close(int descriptor)
{
    struct file *file = opened_as(descriptor);
    if (!file)
        return fail(BAD_DESCRIPTOR);
    open_files[descriptor].file = 0;
    file->opened--;
    drop_if_unused(file);
    return 0;
}

/* From the input, or an open file: as many bytes as are left, and fit. */
long read(int descriptor, byte *to, size_t room)
{
    struct file *file = opened_as(descriptor);
    if (descriptor != 0 && !file)
        return fail(BAD_DESCRIPTOR);
    size_t left = file ? file->size - open_files[descriptor].place : input_left;
    size_t size = room < left ? room : left;
    memcpy(to, file ? file->bytes + open_files[descriptor].place : input, size);
    if (file) {
        open_files[descriptor].place += size;
    } else {
        input += size;
        input_left -= size;
    }
    return (long)size;
}

/* To a stream of the page, or an open file: all of the bytes, or none. */
long write(int descriptor, const byte *from, size_t size)
{
    struct file *file = opened_as(descriptor);
    if (descriptor == 1 || descriptor == 2) {
        page_wrote(descriptor, from, size);
        return (long)size;
    }
    if (!file)
        return fail(BAD_DESCRIPTOR);
    if (put_at(file, open_files[descriptor].place, from, size))
        return -1;
    open_files[descriptor].place += size;
    return (long)size;
}

/* Nothing is kept beyond the page, and a file has no mode. */
int fsync(int descriptor) { return opened_as(descriptor) ? 0 : fail(BAD_DESCRIPTOR); }
int chmod(const char *name, unsigned mode) { (void)mode; return find(name) ? 0 : fail(NO_FILE); }

int unlink(const char *name)
{
    struct file *file = find(name);
    if (!file)
        return fail(NO_FILE);
    take_name(file);
    return 0;
}

/* Gives a file another name, and takes that from the file which had it. */
int rename(const char *from, const char *to)
{
    struct file *file = find(from), *other = find(to);
    size_t length = text_length(to);
    if (!file)
        return fail(NO_FILE);
    if (length == 0 || length >= NAME)
        return fail(NOT_ALLOWED);
    if (other && other != file)
        take_name(other);
    memcpy(file->name, to, length + 1);
    return 0;
}

/* What Linux tells of a file: here that it is a plain one, its number, and its size. It is named, or else open. */
struct told { unsigned known, block; unsigned long attributes; unsigned links, user, group; unsigned short mode, spare;
              unsigned long number, size, rest[26]; };
_Static_assert(sizeof(struct told) == 256, "the size of Linux's struct statx");

int statx(int descriptor, const char *name, int flags, unsigned wanted, struct told *to)
{
    struct file *file = name[0] ? find(name) : opened_as(descriptor);
    (void)flags, (void)wanted;
    if (!file)
        return fail(NO_FILE);
    *to = (struct told){ .known = 0x7ff, .block = 4096, .links = 1, .mode = 0100644, .size = file->size };
    to->number = (unsigned long)(file - files) + 1;
    return 0;
}

/* ---- What the program calls: words, the environment, the clock, errors. */

/* Copies a text without its end: how many bytes it has, or -2 where they don't fit. */
static long copy_text(const char *from, byte *to, size_t room)
{
    size_t length = text_length(from);
    if (length > room)
        return -2;
    memcpy(to, from, length);
    return (long)length;
}

long rattle_arg(size_t place, byte *to, size_t room)
{
    return place < word_count ? copy_text(words[place], to, room) : -1;
}

/* The environment has one variable, by which the program tells how far it is. */
long rattle_env(const char *name, byte *to, size_t room)
{
    return is_same_text(name, "PDB_PROGRESS") ? copy_text("1", to, room) : -1;
}

struct moment { long seconds, nanoseconds; };
int clock_gettime(int clock, struct moment *to)
{
    double now = page_clock();
    (void)clock;
    to->seconds = (long)(now / 1000);
    to->nanoseconds = (long)((now - 1000.0 * (double)to->seconds) * 1000000);
    return 0;
}

int rattle_errno(void) { return error_number; }
void rattle_set_errno(int error) { error_number = error; }

/* ---- What the page calls. It writes what it hands over into one buffer, and says how many bytes that are. It gives no address. */

static byte *buffer;
static size_t buffer_size;

/* Whether two parts of these sizes, one behind the other, are in the buffer. */
static int are_in_buffer(size_t one, size_t other) { return one <= buffer_size && other <= buffer_size - one; }

/* The address of a buffer of so many bytes, or 0 where there is no memory for it. */
FOR_PAGE("buffer") byte *buffer_of(size_t size)
{
    free(buffer);
    buffer = malloc(size);
    buffer_size = buffer ? size : 0;
    return buffer;
}

/* Puts a file in the place of any that has its name: the buffer has the name, ended by a zero, and then the file's bytes. 0, or -1
   where that is no name, or there is no room. */
FOR_PAGE("put") int put(size_t name_size, size_t size)
{
    const char *name = (const char *)buffer;
    if (!are_in_buffer(name_size, size) || name_size == 0 || text_length_within(name, name_size) != name_size - 1)
        return -1;
    struct file *file = find(name);
    if (!file && !(file = make(name)))
        return -1;
    if (file->opened)
        return -1;
    file->size = 0;
    return put_at(file, 0, buffer + name_size, size);
}

/* Runs the program: the buffer has the words, each ended by a zero, and then the input. The program's status, or -1 where these
   are no words, or too many. */
FOR_PAGE("run") int run(size_t words_size, size_t input_size)
{
    if (!are_in_buffer(words_size, input_size))
        return -1;
    word_count = 0;
    words[word_count++] = "pdb_cli";
    for (size_t place = 0; place < words_size; place++) {
        const char *word = (const char *)buffer + place;
        size_t length = text_length_within(word, words_size - place);
        if (length == words_size - place || word_count == WORDS)
            return -1;
        words[word_count++] = word;
        place += length;
    }
    input = buffer + words_size;
    input_left = input_size;
    return start_of_program();
}
