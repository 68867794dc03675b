/* The heap of the engine in a page, and the calls that move memory. One instance of the engine is made for each run and
 * dropped after it, so nothing has to be freed for good. */
typedef unsigned long size_t;
typedef unsigned long word __attribute__((aligned(1), may_alias));
extern unsigned char __heap_base;

/* A block lies after the last one. Its size is in the 16 bytes before it. Only the last block is freed, or grows where
 * it lies. All others go with the instance. */
static size_t top, last;

#define LARGEST (1UL << 32) /* no block is this long or longer */

static int reaches(size_t to)
{
    size_t end = __builtin_wasm_memory_size(0) << 16;
    if (to <= end) return 1;
    size_t need = (to - end + 65535) >> 16, more = need > 256 ? need : 256;
    return __builtin_wasm_memory_grow(0, more) != (size_t)-1 || __builtin_wasm_memory_grow(0, need) != (size_t)-1;
}

static size_t end_of(size_t at, size_t n) { return at + ((n + 15) & ~15UL); }

void *malloc(size_t n)
{
    if (!top) top = ((size_t)&__heap_base + 15) & ~15UL;
    if (n >= LARGEST) return 0;
    size_t at = top + 16, to = end_of(at, n);
    if (!reaches(to)) return 0;
    *(size_t *)(at - 16) = n;
    last = at;
    top = to;
    return (void *)at;
}

void free(void *p)
{
    if (!p || (size_t)p != last) return;
    top = last - 16;
    last = 0;
}

void *memcpy(void *restrict, const void *restrict, size_t);
void *memset(void *, int, size_t);

/* The compiler calls it where a block is filled with zeros first. */
void *calloc(size_t count, size_t size)
{
    if (size && count > LARGEST / size) return 0;
    void *p = malloc(count * size);
    if (p) memset(p, 0, count * size);
    return p;
}

void *realloc(void *p, size_t n)
{
    if (!p) return malloc(n);
    size_t at = (size_t)p, old = *(size_t *)(at - 16);
    if (n >= LARGEST) return 0;
    if (at == last) {
        if (!reaches(end_of(at, n))) return 0;
        *(size_t *)(at - 16) = n;
        top = end_of(at, n);
        return p;
    }
    if (n <= old) return p;
    void *q = malloc(n);
    if (q) memcpy(q, p, old);
    return q;
}

void *memcpy(void *restrict to, const void *restrict from, size_t n)
{
    char *a = to;
    const char *b = from;
    for (; n >= 8; a += 8, b += 8, n -= 8) *(word *)a = *(const word *)b;
    while (n--) *a++ = *b++;
    return to;
}

void *memmove(void *to, const void *from, size_t n)
{
    char *a = to;
    const char *b = from;
    if (a <= b || a >= b + n) return memcpy(to, from, n);
    while (n >= 8) {
        n -= 8;
        word w = *(const word *)(b + n);
        *(word *)(a + n) = w;
    }
    while (n--) a[n] = b[n];
    return to;
}

void *memset(void *to, int c, size_t n)
{
    char *a = to;
    word w = (unsigned char)c * 0x0101010101010101UL;
    for (; n >= 8; a += 8, n -= 8) *(word *)a = w;
    while (n--) *a++ = (char)c;
    return to;
}
