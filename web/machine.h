/* What machine.c has for system.c. The names of C are C's. */
typedef unsigned char byte;
typedef __SIZE_TYPE__ size_t;

/* A memory has at most 16 GiB in a browser. */
#define MOST_MEMORY (1ul << 34)

void *malloc(size_t size);
void *realloc(void *block, size_t size);
void free(void *block);
void *memcpy(void *to, const void *from, size_t size);

/* How many bytes a text has before the zero that ends it; the same within so many bytes, all of them where none is zero. */
static inline size_t text_length_within(const char *text, size_t most)
{
    size_t length = 0;
    while (length < most && text[length])
        length++;
    return length;
}
static inline size_t text_length(const char *text) { return text_length_within(text, ~0ul); }

static inline int is_same_text(const char *one, const char *other)
{
    while (*one && *one == *other)
        one++, other++;
    return *one == *other;
}
