/* macho.c: runs code for macOS in a process of Linux on the same kind of processor, where there is no Mac: it loads a program or a shared
 * library, and gives it the functions of this C library for those of macOS. tests/ports compiles it. It shows what the code computes, and
 * nothing of how a Mac loads it, nor of how its C library differs.
 *   macho PROGRAM WORD..             runs a program
 * With LIBRARY, the path of a shared library, and NAMES, `X(name) X(name) ..`, it is no program, and defines these functions for one. */
#define _GNU_SOURCE
#include <dlfcn.h>
#include <errno.h>
#include <fcntl.h>
#include <pthread.h>
#include <stdint.h>
#include <stdio.h>
#include <stdlib.h>
#include <string.h>
#include <strings.h>
#include <sys/mman.h>
#include <sys/stat.h>
#include <time.h>
#include <unistd.h>

enum { SEGMENT = 0x19, SYMBOLS = 2, DYLD_INFO = (int)0x80000022, MAIN = (int)0x80000028, MOST = 16 };

/* A file as it is loaded: where, by how much it was moved, its segments, where it begins, and its symbols. */
static struct {
    unsigned char *file;
    uint64_t moved, start[MOST], entry;
    int segments;
    const uint32_t *symbols;
} loaded;

static void must(int holds, const char *what) {
    if (holds) return;
    fprintf(stderr, "macho: %s\n", what);
    _exit(70);
}

static int its_clock(int clock, struct timespec *time) { return clock_gettime(clock == 6 ? CLOCK_MONOTONIC : (clockid_t)clock, time); }

static int *its_errno(void) { return &errno; }

__extension__ typedef unsigned __int128 wide;
extern wide __udivti3(wide a, wide b), __umodti3(wide a, wide b);

/* The function with the name that macOS has for it. */
static void *find(const char *name) {
    static const struct {
        const char *name;
        void *at;
    } own[] = {{"___error", (void *)its_errno}, {"_clock_gettime", (void *)its_clock}, {"___bzero", (void *)bzero},
               {"_bzero", (void *)bzero}, {"___udivti3", (void *)__udivti3}, {"___umodti3", (void *)__umodti3},
               {"dyld_stub_binder", (void *)abort}};
    for (size_t i = 0; i < sizeof own / sizeof *own; i++)
        if (strcmp(own[i].name, name) == 0) return own[i].at;
    void *at = dlsym(RTLD_DEFAULT, name + 1);
    must(at != NULL, name);
    return at;
}

static uint64_t number(const unsigned char **at) {
    uint64_t value = 0;
    int shift = 0;
    do value |= (uint64_t)(**at & 127) << shift, shift += 7;
    while (*(*at)++ & 128);
    return value;
}

/* Adds to the words that a program of opcodes names by how much the file was moved. */
static void rebase(const unsigned char *at, const unsigned char *end) {
    uint64_t place = 0;
    while (at < end) {
        unsigned low = *at & 15, times = 0;
        uint64_t skip = 0;
        switch (*at++ >> 4) {
        case 0: return;
        case 1: must(low == 1, "an unknown kind of address"); break;
        case 2: must(low < (unsigned)loaded.segments, "no such segment"), place = loaded.start[low] + number(&at); break;
        case 3: place += number(&at); break;
        case 4: place += low * 8; break;
        case 5: times = low; break;
        case 6: times = (unsigned)number(&at); break;
        case 7: times = 1, skip = number(&at); break;
        case 8: times = (unsigned)number(&at), skip = number(&at); break;
        default: must(0, "an unknown opcode of addresses");
        }
        for (; times; times--, place += 8 + skip) *(uint64_t *)place += loaded.moved;
    }
}

/* Puts the address of a function into each word that a program of opcodes names. */
static void bind(const unsigned char *at, const unsigned char *end) {
    uint64_t place = 0;
    const char *name = "";
    while (at < end) {
        unsigned low = *at & 15, times = 0;
        uint64_t skip = 0;
        switch (*at++ >> 4) {
        case 0: case 1: case 3: break;
        case 2: (void)number(&at); break;
        case 4: name = (const char *)at, at += strlen(name) + 1; break;
        case 5: must(low == 1, "an unknown kind of word"); break;
        case 7: must(low < (unsigned)loaded.segments, "no such segment"), place = loaded.start[low] + number(&at); break;
        case 8: place += number(&at); break;
        case 9: times = 1; break;
        case 10: times = 1, skip = number(&at); break;
        case 11: times = 1, skip = low * 8; break;
        case 12: times = (unsigned)number(&at), skip = number(&at); break;
        default: must(0, "an unknown opcode of names");
        }
        for (; times; times--, place += 8 + skip) *(uint64_t *)place = (uint64_t)find(name);
    }
}

static void load(const char *path) {
    struct stat its;
    int file = open(path, O_RDONLY);
    must(file >= 0 && fstat(file, &its) == 0, path);
    loaded.file = mmap(NULL, (size_t)its.st_size, PROT_READ, MAP_PRIVATE, file, 0);
    must(loaded.file != MAP_FAILED, path);
    close(file);
    const uint32_t *head = (const uint32_t *)loaded.file, *info = NULL;
    must(head[0] == 0xfeedfacf, "not a file for macOS");
#ifdef __aarch64__
    must(head[1] == 0x0100000c, "not for ARM64");
#else
    must(head[1] == 0x01000007, "not for x86-64");
#endif
    uint64_t first = UINT64_MAX, last = 0;
    for (int turn = 0; turn < 2; turn++) {
        const unsigned char *at = loaded.file + 32;
        for (uint32_t i = 0; i < head[4]; i++, at += ((const uint32_t *)at)[1]) {
            const uint32_t *it = (const uint32_t *)at;
            const uint64_t *its_places = (const uint64_t *)(at + 24);
            if (it[0] == (uint32_t)SEGMENT && strncmp((const char *)at + 8, "__PAGEZERO", 16) != 0) {
                if (turn == 0) {
                    if (its_places[0] < first) first = its_places[0];
                    if (its_places[0] + its_places[1] > last) last = its_places[0] + its_places[1];
                } else {
                    memcpy((void *)(its_places[0] + loaded.moved), loaded.file + its_places[2], its_places[3]);
                }
            }
            if (turn == 0) continue;
            /* (also those that are not loaded have a number) */
            if (it[0] == (uint32_t)SEGMENT) {
                must(loaded.segments < MOST, "too many segments");
                loaded.start[loaded.segments++] = its_places[0] + loaded.moved;
            }
            if (it[0] == (uint32_t)SYMBOLS) loaded.symbols = it;
            if (it[0] == (uint32_t)DYLD_INFO) info = it;
            if (it[0] == (uint32_t)MAIN) loaded.entry = first + loaded.moved + *(const uint64_t *)(at + 8);
        }
        if (turn == 0) {
            unsigned char *room = mmap(NULL, last - first, PROT_READ | PROT_WRITE | PROT_EXEC, MAP_PRIVATE | MAP_ANONYMOUS, -1, 0);
            must(room != MAP_FAILED, "no memory");
            loaded.moved = (uint64_t)room - first;
        }
    }
    must(info != NULL, "no addresses to be moved");
    rebase(loaded.file + info[2], loaded.file + info[2] + info[3]);
    bind(loaded.file + info[4], loaded.file + info[4] + info[5]);
    bind(loaded.file + info[8], loaded.file + info[8] + info[9]);
    __builtin___clear_cache((char *)(first + loaded.moved), (char *)(last + loaded.moved));
}

#ifdef NAMES
/* Where a function is that the library shows. */
static void *in_library(const char *name) {
    const unsigned char *at = loaded.file + loaded.symbols[2];
    const char *names = (const char *)loaded.file + loaded.symbols[4];
    for (uint32_t i = 0; i < loaded.symbols[3]; i++, at += 16)
        if (at[4] == 0x0f && strcmp(names + *(const uint32_t *)at + 1, name) == 0)
            return (void *)(*(const uint64_t *)(at + 8) + loaded.moved);
    must(0, name);
    return NULL;
}

#ifdef __aarch64__
#define JUMP(place) "adrp x16, " place "\nldr x16, [x16, :lo12:" place "]\nbr x16\n"
#else
#define JUMP(place) "jmp *" place "(%rip)\n"
#endif
#define X(name) void *at_##name; __asm__(".globl " #name "\n.type " #name ", %function\n" #name ":\n" JUMP("at_" #name));
NAMES
#undef X
#define X(name) at_##name = in_library(#name);
__attribute__((constructor)) static void begin(void) {
    load(LIBRARY);
    NAMES
}
#else
int main(int count, char **words) {
    must(count > 1, "macho PROGRAM WORD..");
    load(words[1]);
    must(loaded.entry != 0, "not a program");
    exit(((int (*)(int, char **))loaded.entry)(count - 1, words + 1));
}
#endif
