/* The machine that the program runs on: memory, and what one without threads answers. Nothing proves what stands here. */
#include "machine.h"

/* ---- Memory. A block has a size of four steps to each power of two, and before it a header with the number of its size. What is
   freed goes to the list of its size, and is never given to another. */

enum { PAGE = 65536, SIZES = 121 };
struct block { struct block *next; size_t number; };
static struct block *freed[SIZES];
static byte *top;
extern byte __heap_base; /* where the linker says that memory is free */

static size_t size_of(size_t number) { return (16ul << number / 4) / 4 * (4 + number % 4); }

void *malloc(size_t size)
{
    size_t number = 0;
    if (size > MOST_MEMORY)
        return 0;
    while (size_of(number) < size)
        number++;
    struct block *block = freed[number];
    if (block) {
        freed[number] = block->next;
        return block + 1;
    }
    if (!top)
        top = (byte *)(((size_t)&__heap_base + 15) / 16 * 16);
    size_t all = sizeof(struct block) + (size_of(number) + 15) / 16 * 16;
    size_t end = (size_t)top + all, has = __builtin_wasm_memory_size(0) * PAGE;
    if (end > has && __builtin_wasm_memory_grow(0, (end - has + PAGE - 1) / PAGE) == ~0ul)
        return 0;
    block = (struct block *)top;
    block->number = number;
    top += all;
    return block + 1;
}

void free(void *at)
{
    if (!at)
        return;
    struct block *block = (struct block *)at - 1;
    block->next = freed[block->number];
    freed[block->number] = block;
}

/* A block that is large enough stays where it is, unless three quarters of it would be left over. */
void *realloc(void *at, size_t size)
{
    size_t has = at ? size_of(((struct block *)at - 1)->number) : 0;
    if (size <= has && size >= has / 4)
        return at;
    void *other = malloc(size);
    if (!other)
        return 0;
    memcpy(other, at, size < has ? size : has);
    free(at);
    return other;
}

/* The kit's three functions between the program and memory: whether there is some, and where; as it has them over malloc. */
struct tried { size_t is_there; void *at; };
static struct tried tried(void *at) { static byte none; return (struct tried){ at != 0, at ? at : &none }; }
struct tried rattle_alloc(size_t size, size_t alignment) { return tried(malloc(size ? size : alignment)); }
struct tried rattle_realloc(void *at, size_t kept, size_t size, size_t alignment)
{
    (void)kept;
    return tried(realloc(at, size ? size : alignment));
}
void rattle_dealloc(void *at) { free(at); }

/* What a compiler may call. Each is an instruction of WebAssembly, but for the last two. */
void *memcpy(void *to, const void *from, size_t size) { __builtin_memcpy(to, from, size); return to; }
void *memmove(void *to, const void *from, size_t size) { __builtin_memmove(to, from, size); return to; }
void *memset(void *to, int value, size_t size) { __builtin_memset(to, value, size); return to; }
int memcmp(const void *one, const void *other, size_t size)
{
    const byte *a = one, *b = other;
    for (; size; size--, a++, b++)
        if (*a != *b)
            return *a - *b;
    return 0;
}
int bcmp(const void *one, const void *other, size_t size) { return memcmp(one, other, size); }

/* ---- One thread, on one processor. A further one is refused, as by a system that has no room for it. */

int pthread_create(void *thread, const void *attributes, void *(*body)(void *), void *given)
{
    (void)thread, (void)attributes, (void)body, (void)given;
    return 11; /* Linux's EAGAIN */
}
int pthread_attr_init(void *attributes) { (void)attributes; return 0; }
int pthread_attr_destroy(void *attributes) { (void)attributes; return 0; }
int pthread_attr_setguardsize(void *attributes, size_t size) { (void)attributes, (void)size; return 0; }
size_t pthread_self(void) { return 1; }
int sched_yield(void) { return 0; }
int sched_getaffinity(int process, size_t size, byte *processors)
{
    (void)process;
    for (size_t place = 0; place < size; place++)
        processors[place] = place == 0;
    return 0;
}
long sysconf(int name) { (void)name; return 4096; }

/* Linux's futex, the only call that the program makes so. It wakes whoever waits at a number, and that is nobody; or it waits while
   the number is as given, which would be for ever. */
long syscall(long call, unsigned *number, long what, long value, void *until, ...)
{
    enum { WAITS = 0, KIND = 127 };
    (void)call, (void)until;
    if ((what & KIND) == WAITS && *number == (unsigned)value)
        __builtin_trap();
    return 0;
}

/* Where the program would wait for a thread, or has failed, the run breaks off, and the page says so. */
int pthread_detach(size_t thread) { (void)thread; __builtin_trap(); }
int pthread_join(size_t thread, void **result) { (void)thread, (void)result; __builtin_trap(); }
void abort(void) { __builtin_trap(); }

/* ---- Numbers of 128 bits, for which the machine has no instructions: shifts to the left and to the right, and products. */

typedef unsigned __int128 wide;
static wide join(unsigned long high, unsigned long low) { return (wide)high << 64 | low; }

wide __ashlti3(wide number, int by)
{
    unsigned long high = number >> 64, low = number;
    if (by == 0)
        return number;
    return by < 64 ? join(high << by | low >> (64 - by), low << by) : join(low << (by - 64), 0);
}

wide __lshrti3(wide number, int by)
{
    unsigned long high = number >> 64, low = number;
    if (by == 0)
        return number;
    return by < 64 ? join(high >> by, high << (64 - by) | low >> by) : join(0, high >> (by - 64));
}

/* The product of the lower halves by 32 bits at a time, and of those across what doesn't overflow. The line of assembly is empty: it
   keeps the compiler from seeing that this is such a product, for which it would call this function. */
wide __multi3(wide one, wide other)
{
    unsigned long a = one, b = other, bits = 0xffffffff, across = (unsigned long)(one >> 64) * b + a * (unsigned long)(other >> 64);
    unsigned long first = (a & bits) * (b & bits), second = (a >> 32) * (b & bits) + (first >> 32), third;
    __asm__("" : "+r"(second));
    third = (a & bits) * (b >> 32) + (second & bits);
    return join((a >> 32) * (b >> 32) + (second >> 32) + (third >> 32) + across, a * b);
}
