/* judge.c: judge FILE..: judges each recording in process: line by line, with the recorder's names, and as the logs of a recorder, alone and
 * after others. For each it prints what audit --calls prints about it, and an empty line; ring_audit_lawful prints its own to stderr.
 * Status 1 if they differ, 2 if a file is not a recording. As C11 and as C++11. */
#include "ring_audit.h"

/* The lines of a recording except the first: their kinds, and the positions of their numbers, with the end of the last. */
typedef struct { char *text, *head; int *kinds; size_t lines, *first; uint64_t *numbers; bool cut; } recording;

static const char *const words[] = { "P put", "P close", "C take", "P stored", "P some", "P full", "P short", "P nothing", "P closed",
                                     "C item", "C some", "C empty", "C short", "C nothing", "C closed" };
enum { KINDS = sizeof words / sizeof *words };

static void must(bool holds, const char *what) {
    if (holds) return;
    fprintf(stderr, "judge: %s\n", what);
    exit(strncmp(what, "differs", 7) == 0 ? 1 : 2);
}

static recording read_recording(const char *name) {
    recording r;
    FILE *file = fopen(name, "rb");
    must(file && fseek(file, 0, SEEK_END) == 0, name);
    size_t size = (size_t)ftell(file), used = 0;
    rewind(file);
    r.text = (char *)malloc(size + 1);
    r.kinds = (int *)malloc((size + 1) * sizeof(int));
    r.first = (size_t *)malloc((size + 2) * sizeof(size_t));
    r.numbers = (uint64_t *)malloc((size + 1) * sizeof(uint64_t));
    must(r.text && r.kinds && r.first && r.numbers && fread(r.text, 1, size, file) == size, name);
    fclose(file);
    r.text[size] = 0;
    r.lines = 0;
    char *at = strchr(r.text, '\n');
    must(at != NULL, name);
    *at++ = 0;
    r.cut = strncmp(r.text, "cut ", 4) == 0;
    r.head = r.text + (r.cut ? 4 : 0);
    while (*at) {
        int kind = 0;
        size_t length = 0;
        for (; kind < KINDS; kind++) {
            length = strlen(words[kind]);
            if (strncmp(at, words[kind], length) == 0 && (at[length] == ' ' || at[length] == '\n')) break;
        }
        must(kind < KINDS, name);
        r.kinds[r.lines] = kind;
        r.first[r.lines++] = used;
        for (at += length; *at == ' ';) r.numbers[used++] = strtoull(at, &at, 10);
        must(*at++ == '\n', name);
    }
    r.first[r.lines] = used;
    return r;
}

static int by_name(ring_audit *a, int kind, const uint64_t *numbers, size_t n) {
    switch (kind) {
    case RING_PUT: return n == 1 ? ring_audit_put(a, *numbers) : ring_audit_put_all(a, numbers, n);
    case RING_CLOSE: return ring_audit_close(a);
    case RING_TAKE: return n ? ring_audit_take_all(a, *numbers) : ring_audit_take(a);
    case RING_STORED: return n ? ring_audit_stored_of(a, *numbers, *numbers + 1) : ring_audit_stored(a);
    case RING_PUT_SOME: return ring_audit_some(a, *numbers);
    case RING_FULL: return ring_audit_full(a);
    case RING_PUT_SHORT: return ring_audit_put_short(a);
    case RING_PUT_NOTHING: return ring_audit_put_nothing(a);
    case RING_CLOSED: return ring_audit_closed(a);
    case RING_ITEM: return n == 1 ? ring_audit_item(a, *numbers) : ring_audit_items(a, numbers, n);
    case RING_TAKE_SOME: return ring_audit_some_items(a, numbers, n);
    case RING_EMPTY: return ring_audit_empty(a);
    case RING_TAKE_SHORT: return ring_audit_take_short(a);
    case RING_TAKE_NOTHING: return ring_audit_take_nothing(a);
    default: return ring_audit_told(a);
    }
}

/* Judges it line by line; whether each answer is that of all lines so far. */
static bool feed(ring_audit *a, const recording *r, int (*event)(ring_audit *, int, const uint64_t *, size_t)) {
    bool lawful = true, same = true;
    for (size_t i = 0; i < r->lines; i++) {
        int answer = event(a, r->kinds[i], r->numbers + r->first[i], r->first[i + 1] - r->first[i]);
        lawful = lawful && answer;
        same = same && lawful == (answer != 0) && lawful == (strcmp(ring_audit_words(a), "lawful") == 0);
    }
    a->cut = r->cut;
    return same;
}

/* Whether both agree in the words, the finding and the report. */
static bool tell_the_same(ring_audit *a, ring_audit *b) {
    const ring_audit_found *f = &a->found, *g = &b->found;
    ring_audit_counts r, s;
    memset(&r, 0, sizeof r);
    memset(&s, 0, sizeof s);
    if (!ring_audit_report(&a->state, &r) || !ring_audit_report(&b->state, &s)) return false;
    return strcmp(a->words, b->words) == 0 && f->line == g->line && f->against == g->against && f->words == g->words &&
           f->verdict == g->verdict && r.calls == s.calls && r.stored == s.stored && r.taken == s.taken && r.full == s.full &&
           r.empty == s.empty && r.nothing == s.nothing && r.told == s.told && r.surely_inside == s.surely_inside &&
           r.perhaps_inside == s.perhaps_inside && r.overlapped == s.overlapped && r.under_way == s.under_way && a->cut == b->cut;
}

/* First lines, and rooms that are too small. */
static void try_edges(void) {
    static const char *const heads[] = { "queue", "queue 1", "queue 18446744073709551615", "queue 0 1", "queue 9 10", "", "queue ", "queue 0",
        "queue 08", "queue 8 ", "queue  8", "queue 8 8", "queue 1 2 3", "queue x", "queue 18446744073709551616", "queue8", "cut queue 8" };
    static const uint64_t items[3] = { 1, 2, 3 };
    volatile size_t too_many = SIZE_MAX / 2;
    ring_audit a;
    must(ring_audit_init(&a, "queue", 2) != 0, "no memory");
    for (size_t i = 0; i < sizeof heads / sizeof *heads; i++) {
        bool good = ring_audit_restart(&a, heads[i]) != 0;
        must(good == (i < 5) && ring_audit_put(&a, 1) == good, "differs: a first line");
        must(strcmp(ring_audit_words(&a), good ? "lawful" : "refused: calls line 1 is not a line of the format") == 0, "differs: its words");
    }
    must(ring_audit_restart(&a, "queue") && ring_audit_put_all(&a, items, 2) && ring_audit_some(&a, 1), "differs: room");
    must(!ring_audit_put_all(&a, items, 2) && !ring_audit_put(&a, 1), "differs: no room");
    must(strcmp(ring_audit_words(&a), "refused: no room for the items of line 4") == 0, "differs: the words of no room");
    ring_audit_free(&a);
    must(ring_audit_init(&a, "queue", 0) && ring_audit_take(&a) && ring_audit_empty(&a) && !ring_audit_put(&a, 1), "differs: room for none");
    ring_audit_free(&a);
    must(!ring_audit_init(&a, "queue", too_many), "differs: no memory");
    must(!ring_audit_restart(&a, "queue") && strcmp(ring_audit_words(&a), "refused: out of memory") == 0, "differs: its words");
}

/* A state that the library did not leave: it reports this and changes no byte of the state, so the memory can be freed. */
static void try_no_state(void) {
    for (int way = 0; way < 4; way++) {
        ring_audit a;
        ring_audit_state before;
        ring_audit_counts counts, none;
        memset(&none, 7, sizeof none);
        memset(&counts, 7, sizeof counts);
        must(ring_audit_init(&a, "queue", 2) && ring_audit_put(&a, 1), "no memory");
        size_t *const uses[] = { &a.state.offered_first, &a.state.offered_used, &a.state.taken_first, &a.state.taken_used };
        *uses[way] = (size_t)RING_AUDIT_TAKEN + 1;
        memcpy(&before, &a.state, sizeof before);
        must(!ring_audit_report(&a.state, &counts) && memcmp(&counts, &none, sizeof none) == 0, "differs: a report of no state");
        must(memcmp(&before, &a.state, sizeof before) == 0, "differs: no state, after a report");
        must(!ring_audit_stored(&a) && strcmp(ring_audit_words(&a), "refused: the state is none that libring_audit left") == 0, "differs: no state");
        must(memcmp(&before, &a.state, sizeof before) == 0, "differs: no state, after a line");
        ring_audit_free(&a);
    }
}

int main(int argc, char **argv) {
    ring_audit judged = RING_AUDIT_NONE;
    ring_calls rec;
    try_edges();
    try_no_state();
    must(ring_calls_init(&rec, 1 << 20) != 0, "no memory");
    for (int i = 1; i < argc; i++) {
        recording r = read_recording(argv[i]);
        ring_audit a, b;
        must(ring_audit_init(&a, r.head, r.first[r.lines]) && ring_audit_init(&b, r.head, r.first[r.lines]), argv[i]);
        must(feed(&a, &r, ring_audit_event) && feed(&b, &r, by_name), "differs: an answer");
        must(tell_the_same(&a, &b), "differs: by name");
        must(ring_audit_restart(&b, r.head) && feed(&b, &r, by_name) && tell_the_same(&a, &b), "differs: again");

        ring_calls_restart(&rec);
        for (size_t k = 0; k < r.lines; k++) {
            ring_calls_log *side = words[r.kinds[k]][0] == 'P' ? &rec.p : &rec.c;
            ring_calls_event(&rec, side, r.kinds[k], r.numbers + r.first[k], r.first[k + 1] - r.first[k]);
        }
        must(rec.p.cut == UINT64_MAX && rec.c.cut == UINT64_MAX, "the log is too small");
        if (r.cut) rec.c.cut = UINT64_MAX - 1;
        must(ring_audit_restart(&b, r.head) && ring_audit_logs(&b, &rec) == !a.found.verdict && tell_the_same(&a, &b), "differs: logs");
        must(ring_audit_judge(&judged, &rec, r.head) == !a.found.verdict && tell_the_same(&a, &judged), "differs: judge");
        must(ring_audit_lawful(&rec, r.head) == !a.found.verdict, "differs: lawful");
        must(ring_audit_print(&a, stdout) && putchar('\n') != EOF, "no output");
        ring_audit_free(&a);
        ring_audit_free(&b);
        free(r.text);
        free(r.kinds);
        free(r.first);
        free(r.numbers);
    }
    ring_audit_free(&judged);
    ring_calls_free(&rec);
    return 0;
}
