/* heap.c: the memory that proved code takes and gives back, by malloc, realloc and free. The kit has these functions for x86-64 alone, in
 * liblibc_c.a; tools/first_build compiles them by the kit's clang for other machines. No proof is of them.
 * An answer comes in two registers: whether there is a block, and the block, or else an address that is not null. */
typedef unsigned long word;
typedef struct {
    word is_there;
    void *block;
} answer;

void *malloc(word size);
void *realloc(void *block, word size);
void free(void *block);
answer rattle_alloc(word size, word align);
answer rattle_realloc(void *block, word old, word size, word align);
void rattle_dealloc(void *block);

static char nothing;

static answer of(void *block) {
    answer made = {block != 0, block ? block : &nothing};
    return made;
}

answer rattle_alloc(word size, word align) { return of(malloc(size ? size : align)); }

answer rattle_realloc(void *block, word old, word size, word align) {
    (void)old;
    return of(realloc(block, size ? size : align));
}

void rattle_dealloc(void *block) { free(block); }
