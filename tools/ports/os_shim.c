/* os_shim.c: what the program asks of Linux, asked of macOS or of Windows. tools/ship_ports compiles the program's module for these
 * systems, and gives each C function that it calls, such as `read`, the name of a function of this file, `ring_os_read`. That returns what
 * the one of Linux would: errors, clocks and signals have their numbers of Linux. No proof is of this file. It is compiled by the kit's
 * clang, which has no headers of these systems, so it declares what it calls. */
typedef unsigned long long word;

int ring_os_main(void);
void *malloc(word size);
void free(void *block);
void abort(void);
void _exit(int status);
#ifdef _WIN32
typedef void *handle;
int *_errno(void);
int _read(int file, void *into, unsigned room);
int _write(int file, const void *from, unsigned size);
long long _lseeki64(int file, long long by, int whence);
int _setmode(int file, int mode);
handle _get_osfhandle(int file);
unsigned GetFileType(handle file);
int GetConsoleMode(handle console, unsigned *mode);
int QueryPerformanceCounter(long long *ticks);
int QueryPerformanceFrequency(long long *ticks);
void GetSystemTimeAsFileTime(word *time);
int SwitchToThread(void);
handle CreateThread(void *security, word stack, unsigned (*body)(void *), void *given, unsigned flags, unsigned *number);
unsigned ResumeThread(handle thread);
unsigned TlsAlloc(void);
int TlsSetValue(unsigned place, void *value);
void *TlsGetValue(unsigned place);
unsigned WaitForSingleObject(handle thread, unsigned milliseconds);
int CloseHandle(handle thread);
int WideCharToMultiByte(unsigned page, unsigned flags, const short *from, int size, char *into, int room, const char *instead, int *used);
#define errno (*_errno())
enum { BINARY = 0x8000, UTF_8 = 65001, IS_DISK = 1, SUSPENDED = 4, STACK_IS_RESERVED = 0x10000, FOREVER = -1 };
/* (a console takes no more at once in each Windows) */
enum { PIECE = 1 << 15 };
#else
typedef struct {
    word parts[8];
} attributes;
int *__error(void);
long read(int file, void *into, word room);
long write(int file, const void *from, word size);
long lseek(int file, long by, int whence);
int isatty(int file);
int clock_gettime(int clock, long long *time);
int sched_yield(void);
void *signal(int number, void *what);
int pthread_attr_init(attributes *its);
int pthread_attr_setstacksize(attributes *its, word size);
int pthread_attr_destroy(attributes *its);
int pthread_create(word *thread, attributes *its, void *(*body)(void *), void *given);
int pthread_join(word thread, void **result);
int pthread_detach(word thread);
word pthread_self(void);
#define errno (*__error())
enum { PIECE = 1 << 30 };
#endif

/* The numbers of Linux. */
enum { INPUT_OUTPUT = 5, AGAIN = 11, NO_SEEK = 29, LAST_SHARED = 34, MONOTONIC = 1 };
/* What a thread's stack has on Linux, unless another size is asked. */
enum { STACK = 8 << 20 };

/* The words of the command line. */
static char **words;
static int count;

word rattle_arg_count(void) { return (word)count; }

/* Copies the word with this number, and returns its length; -1 if there is none, -2 if it is longer than the room. */
long long rattle_arg(word at, char *into, word room) {
    if (at >= (word)count || !words[at]) return -1;
    word length = 0;
    for (; words[at][length]; length++) {
        if (length == room) return -2;
        into[length] = words[at][length];
    }
    return (long long)length;
}

void *ring_os_malloc(word size) { return malloc(size); }

void ring_os_free(void *block) { free(block); }

void ring_os_abort(void) { abort(); }

void ring_os__exit(int status) { _exit(status); }

/* What is asked of a thread is the size of its stack; the guard below it is the system's. */
int ring_os_pthread_attr_init(word *its_stack) {
    *its_stack = STACK;
    return 0;
}

int ring_os_pthread_attr_setstacksize(word *its_stack, word size) {
    /* (whole pages of macOS) */
    *its_stack = (size + 16383) / 16384 * 16384;
    return 0;
}

int ring_os_pthread_attr_setguardsize(word *its_stack, word size) {
    (void)its_stack;
    (void)size;
    return 0;
}

int ring_os_pthread_attr_destroy(word *its_stack) {
    (void)its_stack;
    return 0;
}

#ifdef __x86_64__
#include "processor.h"
const unsigned *ring_os___x86_get_cpuid_feature_leaf(unsigned leaf) { return processor_has(leaf); }
#endif

#ifdef _WIN32

/* (no word is taken for a pattern of file names) */
int _dowildcard = 0;

/* Where each thread has its number. */
static unsigned of_thread;

int wmain(int its_count, short **its_words) {
    words = malloc((word)its_count * sizeof *words + 1);
    for (int i = 0; words && i < its_count; i++) {
        int size = WideCharToMultiByte(UTF_8, 0, its_words[i], -1, 0, 0, 0, 0);
        words[i] = malloc((word)size + 1);
        if (!words[i]) return INPUT_OUTPUT;
        words[i][0] = 0;
        WideCharToMultiByte(UTF_8, 0, its_words[i], -1, words[i], size, 0, 0);
        count = i + 1;
    }
    for (int file = 0; file < 3; file++) _setmode(file, BINARY);
    of_thread = TlsAlloc();
    return ring_os_main();
}

int rattle_errno(void) { return errno <= LAST_SHARED ? errno : INPUT_OUTPUT; }

void rattle_set_errno(int number) { errno = number; }

long long ring_os_read(int file, void *into, word room) { return _read(file, into, room < PIECE ? (unsigned)room : PIECE); }

long long ring_os_write(int file, const void *from, word size) { return _write(file, from, size < PIECE ? (unsigned)size : PIECE); }

long long ring_os_lseek(int file, long long by, int whence) {
    if (GetFileType(_get_osfhandle(file)) == IS_DISK) return _lseeki64(file, by, whence);
    errno = NO_SEEK;
    return -1;
}

int ring_os_isatty(int file) {
    unsigned mode;
    return GetConsoleMode(_get_osfhandle(file), &mode) != 0;
}

long long ring_os___sysv_signal(int number, long long what) {
    (void)number;
    return what;
}

int ring_os_clock_gettime(int clock, long long *time) {
    long long now, second;
    word today;
    if (clock == MONOTONIC) {
        QueryPerformanceCounter(&now);
        QueryPerformanceFrequency(&second);
        time[0] = now / second;
        time[1] = now % second * 1000000000 / second;
        return 0;
    }
    /* (in steps of 100 nanoseconds, since 1601) */
    GetSystemTimeAsFileTime(&today);
    time[0] = (long long)(today / 10000000) - 11644473600;
    time[1] = (long long)(today % 10000000) * 100;
    return 0;
}

int ring_os_sched_yield(void) {
    SwitchToThread();
    return 0;
}

/* A thread, whose number is the address of this; it is kept until the thread has ended and it has been joined or detached. */
typedef struct {
    void *(*body)(void *);
    void *given, *result;
    handle handle;
    int kept_by;
} thread;

static void leave(thread *it) {
    if (__atomic_sub_fetch(&it->kept_by, 1, __ATOMIC_SEQ_CST) == 0) {
        CloseHandle(it->handle);
        free(it);
    }
}

static unsigned begin(void *given) {
    thread *it = given;
    TlsSetValue(of_thread, it);
    it->result = it->body(it->given);
    leave(it);
    return 0;
}

int ring_os_pthread_create(word *number, const word *its_stack, void *(*body)(void *), void *given) {
    thread *it = malloc(sizeof *it);
    if (!it) return AGAIN;
    it->body = body;
    it->given = given;
    it->kept_by = 2;
    /* (it begins when its handle is known) */
    it->handle = CreateThread(0, *its_stack, begin, it, SUSPENDED | STACK_IS_RESERVED, 0);
    if (!it->handle) {
        free(it);
        return AGAIN;
    }
    *number = (word)it;
    ResumeThread(it->handle);
    return 0;
}

int ring_os_pthread_join(word number, void **result) {
    thread *it = (thread *)number;
    WaitForSingleObject(it->handle, (unsigned)FOREVER);
    if (result) *result = it->result;
    leave(it);
    return 0;
}

int ring_os_pthread_detach(word number) {
    leave((thread *)number);
    return 0;
}

word ring_os_pthread_self(void) { return (word)TlsGetValue(of_thread); }

#else

int main(int its_count, char **its_words) {
    words = its_words;
    count = its_count;
    return ring_os_main();
}

/* (of those that the systems share EAGAIN alone has another number, 35; here 11 is a deadlock) */
int rattle_errno(void) { return errno == 35 ? AGAIN : errno <= LAST_SHARED && errno != AGAIN ? errno : INPUT_OUTPUT; }

void rattle_set_errno(int number) { errno = number; }

long long ring_os_read(int file, void *into, word room) { return read(file, into, room < PIECE ? room : PIECE); }

long long ring_os_write(int file, const void *from, word size) { return write(file, from, size < PIECE ? size : PIECE); }

long long ring_os_lseek(int file, long long by, int whence) { return lseek(file, by, whence); }

int ring_os_isatty(int file) { return isatty(file); }

long long ring_os___sysv_signal(int number, long long what) { return (long long)signal(number, (void *)what); }

int ring_os_clock_gettime(int clock, long long *time) { return clock_gettime(clock == MONOTONIC ? 6 : 0, time); }

int ring_os_sched_yield(void) { return sched_yield(); }

int ring_os_pthread_create(word *number, const word *its_stack, void *(*body)(void *), void *given) {
    attributes made;
    if (pthread_attr_init(&made) != 0) return AGAIN;
    int failed = pthread_attr_setstacksize(&made, *its_stack) != 0 || pthread_create(number, &made, body, given) != 0;
    pthread_attr_destroy(&made);
    return failed ? AGAIN : 0;
}

int ring_os_pthread_join(word number, void **result) { return pthread_join(number, result); }

int ring_os_pthread_detach(word number) { return pthread_detach(number); }

word ring_os_pthread_self(void) { return pthread_self(); }

#endif

long long ring_os___write(int file, const void *from, word size) { return ring_os_write(file, from, size); }
