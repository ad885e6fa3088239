/* os.c: the words of a process, and errno, as proved code asks for them. The kit has these functions for x86-64 alone, in libos_c.a;
 * tools/first_build compiles them by the kit's clang for other machines. No proof is of them. */
typedef unsigned long word;

int *__errno_location(void);
word rattle_arg_count(void);
long rattle_arg(word at, char *into, word room);
int rattle_errno(void);
void rattle_set_errno(int number);

static char **words;
static int count;

/* (glibc hands a program's words to what runs before main) */
__attribute__((constructor)) static void keep(int argc, char **argv) {
    count = argc;
    words = argv;
}

word rattle_arg_count(void) { return (word)count; }

/* Copies the word with this number, and returns its length; -1 if there is none, -2 if it is longer than the room. */
long rattle_arg(word at, char *into, word room) {
    if (at >= (word)count || !words[at]) return -1;
    word length = 0;
    for (; words[at][length]; length++) {
        if (length == room) return -2;
        into[length] = words[at][length];
    }
    return (long)length;
}

int rattle_errno(void) { return *__errno_location(); }

void rattle_set_errno(int number) { *__errno_location() = number; }
