/* The heap of a library in Rattle: its three functions, over malloc. It needs no header, so that the kit's own clang
 * compiles it for each target. Hidden, so that only this library calls them; weak, so that two such libraries can be
 * linked together. */
#define INNER __attribute__((weak, visibility("hidden")))
typedef __SIZE_TYPE__ size;

void *malloc(size);
void *realloc(void *, size);
void free(void *);

/* Whether there was room, and where. The address is never null. */
typedef struct tried {
    _Bool ok;
    void *at;
} tried;

static _Alignas(16) char nothing[16];

static tried tried_at(void *at) { return (tried){at != 0, at ? at : nothing}; }

/* An alignment is at most that of malloc. Blocks without bytes have an address of their own too. */
INNER tried rattle_alloc(size bytes, size alignment) { return tried_at(malloc(bytes ? bytes : alignment)); }
INNER tried rattle_realloc(void *from, size kept, size bytes, size alignment) {
    (void)kept;
    return tried_at(realloc(from, bytes ? bytes : alignment));
}
INNER void rattle_dealloc(void *at) { free(at); }
