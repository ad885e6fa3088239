/* processor.h: which instructions the processor has. The program asks before anything else, and ends if those of x86-64-v2 are missing. No
 * proof is of this file. */

/* As glibc's __x86_get_cpuid_feature_leaf for its leaves 0 and 2: the numbers of `cpuid`, and again those that may be used. */
static const unsigned *processor_has(unsigned leaf) {
    static unsigned found[2][8];
    unsigned *it = found[leaf != 0];
    __asm__ volatile("cpuid" : "=a"(it[0]), "=b"(it[1]), "=c"(it[2]), "=d"(it[3]) : "a"(leaf == 0 ? 1 : 0x80000001u), "c"(0));
    for (int i = 0; i < 4; i++) it[4 + i] = it[i];
    return it;
}
