/* static.c: what the static program for Linux needs besides musl, whose functions are those of Linux: memory and the words of the command
 * line, as proved code asks for them, and two functions that glibc has alone. No proof is of this file. */
#include "../calls_in_c/heap.c"
#include "../calls_in_c/os.c"
#include "processor.h"

long write(int file, const void *from, word size);
long __write(int file, const void *from, word size);
const unsigned *__x86_get_cpuid_feature_leaf(unsigned leaf);
int __real_main(int its_count, char **its_words);
int __wrap_main(int its_count, char **its_words);

long __write(int file, const void *from, word size) { return write(file, from, size); }

const unsigned *__x86_get_cpuid_feature_leaf(unsigned leaf) { return processor_has(leaf); }

/* (musl hands no words to what runs before main) */
int __wrap_main(int its_count, char **its_words) {
    keep(its_count, its_words);
    return __real_main(its_count, its_words);
}
