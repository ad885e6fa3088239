"""The programs of record/: a name for each, how to check that it can be built, how to install what it needs (on Debian), how to build and
start it. The commands are for a shell in record/; $ROOM is a folder for their results, $LIBRARY the folder of libring_audit."""
import collections

Program = collections.namedtuple("Program", "name needs get build start")

C = "gcc -std=gnu11 -O2 -Wall -Wextra -Werror -pthread -Iinclude"
CPP = "g++ -std=c++17 -O2 -Wall -Wextra -Werror -pthread -Iinclude"
RUST = "rustc --edition 2021 -O"
GO = "GO111MODULE=off GOCACHE=$ROOM/cache go build"
JCTOOLS = "/usr/share/java/jctools-core.jar"
# Debian's Rust crates: their sources, and how cargo builds with only these.
CRATES = "/usr/share/cargo/registry"
OF_CRATES = ("async-channel", "concurrent-queue", "crossbeam-channel", "crossbeam-queue", "flume", "futures-channel", "tokio")
CARGO = f"""cargo build -q --release --offline --config 'source.crates-io.replace-with="debian"' --config 'source.debian.directory="{CRATES}"'"""


def in_c(name, header, packages, libraries=""):
    return Program(
        name,
        f"echo '#include <{header}>' | gcc -E {libraries} -",
        f"apt-get install {packages}",
        f"{C} real/{name}.c -o $ROOM/{name} {libraries}",
        f"$ROOM/{name}",
    )


def in_cpp(name, header, packages, libraries=""):
    return Program(
        name,
        f"echo '#include <{header}>' | g++ -x c++ -E -",
        f"apt-get install {packages}",
        f"{CPP} real/{name}.cpp -o $ROOM/{name} {libraries}",
        f"$ROOM/{name}",
    )


def kinds_in_c(name, compiler, needs="true", get=""):
    return Program(
        f"kinds in {name}",
        f"command -v gcc && command -v g++ && {needs}",
        f"apt-get install build-essential{get}",
        f"{compiler} -O2 -Wall -Wextra -Wpedantic -Werror -Iinclude tests/kinds/kinds.c -o $ROOM/kinds_{name}",
        f"$ROOM/kinds_{name}",
    )


# Each records every kind of event.
KINDS = [
    kinds_in_c("c11", "gcc -std=c11"),
    kinds_in_c("cpp11", "g++ -x c++ -std=c++11"),
    kinds_in_c("c11_by_stamps", "gcc -std=c11 -DRING_CALLS_TSC", "gcc -dM -E -x c /dev/null | grep __x86_64__", ", on x86-64"),
    Program("kinds in rust", "command -v rustc", "apt-get install rustc", f"{RUST} tests/kinds/kinds.rs -o $ROOM/kinds_rs", "$ROOM/kinds_rs"),
    Program("kinds in python", "true", "", "true", "python3 tests/kinds/kinds.py"),
    # (Go takes the files of a package from one folder)
    Program(
        "kinds in go",
        "command -v go",
        "apt-get install golang-go",
        f"mkdir $ROOM/go_kinds && cp include/go/ring_calls.go tests/kinds/kinds.go $ROOM/go_kinds && cd $ROOM/go_kinds && {GO} -o $ROOM/kinds_go *.go",
        "$ROOM/kinds_go",
    ),
    Program(
        "kinds in java",
        "command -v javac",
        "apt-get install default-jdk-headless",
        "javac -Werror -d $ROOM/kinds include/java/RingCalls.java tests/kinds/Kinds.java",
        "java -cp $ROOM/kinds Kinds",
    ),
]

# Each records every kind of event of a register.
REGISTERS = [
    *(
        Program(
            f"registers in {name}",
            "command -v gcc && command -v g++",
            "apt-get install build-essential",
            f"{compiler} -O2 -Wall -Wextra -Wpedantic -Werror -Iinclude tests/registers/registers.{kind} -o $ROOM/registers_{name}",
            f"$ROOM/registers_{name}",
        )
        for name, compiler, kind in (("c11", "gcc -std=c11", "c"), ("cpp11", "g++ -x c++ -std=c++11", "c"), ("cpp17", "g++ -std=c++17", "cpp"))
    ),
    Program("registers in python", "true", "", "true", "python3 tests/registers/registers.py"),
]
# Registers of three kinds that threads write and read; and one in Python, as a student would write it.
REGISTER_THREADS = Program(
    "registers of threads",
    "command -v gcc",
    "apt-get install build-essential",
    f"{C} tests/registers/threads.c -o $ROOM/register_threads",
    "$ROOM/register_threads",
)
REGISTER_STUDENT = Program("registers of a student", "true", "", "true", "python3 tests/registers/student.py")

# Each lists its queues, or records one.
REAL = [
    in_c("posix", "mqueue.h", "libc6-dev", "-lrt"),
    in_cpp("boost", "boost/lockfree/spsc_queue.hpp", "libboost-dev"),
    in_c("ck", "ck_ring.h", "libck-dev", "-lck"),
    in_c("dpdk", "rte_ring.h", "libdpdk-dev pkg-config", "$(pkg-config --cflags --libs libdpdk)"),
    in_c("jack", "jack/ringbuffer.h", "libjack-jackd2-dev", "-ljack"),
    Program(
        "portaudio",
        "gcc -print-file-name=libportaudio.a | grep /",
        "apt-get install gcc portaudio19-dev",
        f"{C} real/portaudio.c -o $ROOM/portaudio -l:libportaudio.a",
        "$ROOM/portaudio",
    ),
    in_c("soundio", "soundio/soundio.h", "libsoundio-dev", "-lsoundio"),
    in_c("csound", "csound/csound.h", "libcsound64-dev", "-lcsound64"),
    in_c("spa", "spa/utils/ringbuffer.h", "libspa-0.2-dev", "-isystem /usr/include/spa-0.2"),
    in_c("gst", "gst/gst.h", "libgstreamer1.0-dev libunwind-dev pkg-config", "$(pkg-config --cflags --libs gstreamer-1.0)"),
    in_c("qb", "qb/qbrb.h", "libqb-dev", "-lqb"),
    in_c("zmq", "zmq.h", "libzmq3-dev", "-lzmq"),
    in_c("urcu", "urcu/wfcqueue.h", "liburcu-dev", "-lurcu-common"),
    in_c("glib", "glib.h", "libglib2.0-dev pkg-config", "$(pkg-config --cflags --libs glib-2.0)"),
    in_cpp("moodycamel", "readerwriterqueue/readerwritercircularbuffer.h", "libreaderwriterqueue-dev"),
    in_cpp("concurrentqueue", "concurrentqueue/concurrentqueue.h", "libconcurrentqueue-dev"),
    in_cpp("atomic_queue", "atomic_queue/atomic_queue.h", "libatomic-queue-dev"),
    in_cpp("cds", "cds/init.h", "libcds-dev", "-lcds"),
    in_cpp("tbb", "tbb/concurrent_queue.h", "libtbb-dev", "-ltbb"),
    Program("rust_std", "command -v rustc", "apt-get install rustc", f"{RUST} real/rust_std.rs -o $ROOM/rust_std", "$ROOM/rust_std"),
    # (cargo takes a folder with a Cargo.toml, and writes beside it)
    Program(
        "rust_crates",
        " && ".join(["command -v cargo", *(f"ls -d {CRATES}/{each}-[0-9]*" for each in OF_CRATES)]),
        f"apt-get install cargo {' '.join(f'librust-{each}-dev' for each in OF_CRATES)}",
        "mkdir -p $ROOM/crates/real && mkdir -p $ROOM/crates/include/rust && cp include/rust/ring_calls.rs $ROOM/crates/include/rust && cp real/relay.rs real/rust_crates.rs $ROOM/crates/real && "
        f"cp real/rust_crates.toml $ROOM/crates/real/Cargo.toml && cd $ROOM/crates/real && {CARGO} --target-dir ../target",
        "$ROOM/crates/target/release/rust_crates",
    ),
    Program(
        "go_chan",
        "command -v go",
        "apt-get install golang-go",
        f"mkdir $ROOM/go_chans && cp include/go/ring_calls.go real/go_chan.go $ROOM/go_chans && cd $ROOM/go_chans && {GO} -o $ROOM/go_chan *.go",
        "$ROOM/go_chan",
    ),
    Program("python_std", "true", "", "true", "python3 real/python_std.py"),
    Program(
        "JavaQueues",
        "command -v javac",
        "apt-get install default-jdk-headless",
        "javac -Werror -d $ROOM/jdk include/java/RingCalls.java real/Relay.java real/JavaQueues.java",
        "java -cp $ROOM/jdk JavaQueues",
    ),
    Program(
        "JCTools",
        f"command -v javac && test -e {JCTOOLS}",
        "apt-get install default-jdk-headless libjctools-java",
        f"javac -Werror -cp {JCTOOLS} -d $ROOM/jctools include/java/RingCalls.java real/Relay.java real/JCTools.java",
        f"java -cp $ROOM/jctools:{JCTOOLS} JCTools",
    ),
    # (proved as it is built: a minute or two)
    Program(
        "rtrb",
        "command -v rt",
        "put the Rattle kit's rt on the PATH",
        "cd ../crates/record_rtrb && rt run record_rtrb",
        "../crates/record_rtrb/out/record_rtrb",
    ),
]

# A queue for the program my.c.
RING = """#include <stdatomic.h>
#ifdef RELAXED
#define SHOWN memory_order_relaxed
#else
#define SHOWN memory_order_release
#endif
static uint64_t cells[8];
static _Atomic uint32_t head = UINT32_MAX - 1000, tail = UINT32_MAX - 1000;
static int my_put(uint64_t item) {
    uint32_t t = atomic_load_explicit(&tail, memory_order_relaxed);
    if (t - atomic_load_explicit(&head, memory_order_acquire) == 8) return 0;
#ifdef EARLY
    atomic_store_explicit(&tail, t + 1, SHOWN);
#endif
#ifndef STORES_NONE
    cells[t % 8] = item;
#endif
    atomic_store_explicit(&tail, t + 1, SHOWN);
    return 1;
}
static int my_take(uint64_t *item) {
    uint32_t h = atomic_load_explicit(&head, memory_order_relaxed);
    if (h == atomic_load_explicit(&tail, memory_order_acquire)) return 0;
    *item = cells[h % 8];
    atomic_store_explicit(&head, h + 1, SHOWN);
    return 1;
}
"""

BROKEN = Program("broken", "command -v g++", "apt-get install build-essential", f"{CPP} broken/ring.cpp -o $ROOM/ring", "$ROOM/ring")

# record/shrink and record/head; record/convert; the program my.c; and a ring under Relacy.
SMALL = Program(
    "shrink and head",
    "command -v g++",
    "apt-get install build-essential",
    f"{CPP} broken/ring.cpp -o $ROOM/ring_of_heads",
    "python3 tests/unit/small.py $ROOM/ring_of_heads",
)
CONVERT = Program("convert", "true", "", "true", "python3 tests/unit/logs.py")
# The tickets of the recorders, in the model of ARMv8.
TICKETS = Program("tickets", "true", "", "true", "python3 tests/tickets.py")
# The recorders on Windows, ARM64 and macOS.
PORTABLE = Program("portable", "true", "", "true", "python3 tests/portable.py --all")
README = Program("README", "command -v gcc", "apt-get install build-essential", "true", "")
RELACY = Program(
    "relacy",
    "echo '#include <relacy/relacy.hpp>' | g++ -x c++ -E -",
    "apt-get install relacy-dev",
    f"{CPP} tests/relacy_ring.cpp -o $ROOM/relacy_ring && {CPP} -DRELAXED tests/relacy_ring.cpp -o $ROOM/relacy_ring_relaxed",
    "$ROOM/relacy_ring",
)

# The ring without waits in the middle of a call, and programs that are hard for a hunt.
HUNT = Program(
    "hunt",
    "test $(uname) = Linux && command -v g++ && command -v cc",
    "Linux; apt-get install build-essential",
    f"{CPP} -DNO_HOLD broken/ring.cpp -o $ROOM/ring_that_runs && {C} -g tests/hunt_test.c -o $ROOM/hunt_test && {C} -static tests/hunt_test.c -o $ROOM/hunt_test_static",
    "$ROOM/ring_that_runs",
)

SANITIZED = "-g -fsanitize=address,undefined -fno-sanitize-recover=all"


def in_process(name, needs, packages, build, start):
    return Program(
        f"unit {name}",
        f"test -e $LIBRARY/libring_audit.a && test -e $LIBRARY/libring_audit.so.1 && {needs}",
        f"libring_audit.a and libring_audit.so.1 in dist/, or in $LIBRARY; apt-get install {packages}",
        build,
        start,
    )


def judge(name, compiler):
    return f"{compiler} -O2 -Wall -Wextra -Wpedantic -Werror -Iinclude tests/unit/judge.c -x none $LIBRARY/libring_audit.a -o $ROOM/judge_{name}"


def register_unit(name, compiler):
    return f"{compiler} -O2 -Wall -Wextra -Wpedantic -Werror -pthread -Iinclude tests/unit/register_unit.c -x none $LIBRARY/libring_audit.a -o $ROOM/judge_registers_{name}"


# Each links or loads the audit and judges in process: a small ring, correct and with a bug; and recordings.
UNIT = [
    in_process("in c", "command -v gcc", "build-essential", f"{C} tests/unit/unit.c $LIBRARY/libring_audit.a -o $ROOM/unit_c", "$ROOM/unit_c"),
    in_process(
        "in c, sanitized",
        "command -v gcc",
        "build-essential",
        f"{C} {SANITIZED} tests/unit/unit.c $LIBRARY/libring_audit.a -o $ROOM/unit_sanitized",
        "$ROOM/unit_sanitized",
    ),
    in_process(
        "in cpp, googletest",
        "echo '#include <gtest/gtest.h>' | g++ -x c++ -E -",
        "build-essential libgtest-dev",
        f"{CPP} tests/unit/unit.cpp $LIBRARY/libring_audit.a -lgtest -lgtest_main -o $ROOM/unit_googletest",
        "$ROOM/unit_googletest",
    ),
    in_process(
        "in cpp, catch2",
        "echo '#include <catch2/catch.hpp>' | g++ -x c++ -E -",
        "build-essential catch2",
        f"{CPP} tests/unit/unit_catch2.cpp $LIBRARY/libring_audit.a -o $ROOM/unit_catch2",
        "$ROOM/unit_catch2",
    ),
    in_process("in python", "command -v python3", "python3", "true", "python3 tests/unit/test_unit.py"),
    in_process("in python, pytest", "command -v pytest-3", "python3-pytest", "true", "pytest-3 -q -p no:cacheprovider tests/unit/test_unit.py"),
    in_process(
        "judged as by the audit",
        "command -v gcc && command -v g++",
        "build-essential",
        " && ".join([judge("c11", "gcc -std=c11"), judge("cpp11", "g++ -x c++ -std=c++11"), judge("sanitized", f"gcc -std=c11 {SANITIZED}")]),
        "ASAN_OPTIONS=allocator_may_return_null=1 python3 tests/unit/compare.py 600 1 $ROOM/judge_c11 $ROOM/judge_cpp11 $ROOM/judge_sanitized",
    ),
    in_process(
        "of registers",
        "command -v gcc && command -v g++",
        "build-essential",
        " && ".join(
            register_unit(*each) for each in (("c11", "gcc -std=gnu11"), ("cpp11", "g++ -x c++ -std=c++11"), ("sanitized", f"gcc -std=gnu11 {SANITIZED}"))
        ),
        " && ".join(
            [
                *(f"$ROOM/judge_registers_{each} 2> /dev/null" for each in ("c11", "cpp11", "sanitized")),
                "python3 tests/unit/compare_registers.py 1000 1 $ROOM/judge_registers_c11 $ROOM/judge_registers_cpp11 $ROOM/judge_registers_sanitized",
            ]
        ),
    ),
]


def in_go(folder, source, command):
    return f"mkdir {folder} && cp include/go/ring_calls.go include/go/ring_audit.go tests/unit/{source} {folder} && cd {folder} && CGO_LDFLAGS=-L$LIBRARY {command} *.go"


def rounds_of(command):
    return f"{command} > $ROOM/told || {{ cat $ROOM/told; exit 1; }}; grep rounds $ROOM/told"


# The same in Rust and in Go.
UNIT += [
    in_process(
        "in rust", "command -v rustc", "rustc", f"{RUST} --test -L native=$LIBRARY tests/unit/unit.rs -o $ROOM/unit_rs", rounds_of("$ROOM/unit_rs --nocapture")
    ),
    in_process(
        "in rust, judged as by the audit",
        "command -v rustc",
        "rustc",
        f"{RUST} -L native=$LIBRARY tests/unit/judge.rs -o $ROOM/judge_rs",
        "python3 tests/unit/compare.py 200 2 $ROOM/judge_rs",
    ),
    in_process(
        "in go",
        "command -v go && command -v gcc",
        "golang-go gcc",
        in_go("$ROOM/go_unit", "unit_test.go", f"{GO.replace('go build', 'go test -c')} -o $ROOM/unit_go"),
        rounds_of("$ROOM/unit_go -test.v"),
    ),
    in_process(
        "in go, judged as by the audit",
        "command -v go && command -v gcc",
        "golang-go gcc",
        in_go("$ROOM/go_judge", "judge.go", f"{GO} -o $ROOM/judge_go"),
        "GODEBUG=cgocheck=2 python3 tests/unit/compare.py 200 2 $ROOM/judge_go",
    ),
]


def live(name, compiler, needs="true", get=""):
    return Program(
        f"live {name}",
        f"test -e $LIBRARY/libring_audit.a && command -v gcc && command -v g++ && {needs}",
        f"libring_audit.a in dist/, or in $LIBRARY; apt-get install build-essential{get}",
        f"{compiler} -Wall -Wextra -Wpedantic -Werror -pthread -Iinclude tests/live_test.c " f"-x none $LIBRARY/libring_audit.a -o $ROOM/live_{name}",
        f"$ROOM/live_{name}",
    )


# Each records live: recordings and small queues, correct ones and with bugs; with sanitizers and small logs only correct ones.
THREADS = "gcc -std=gnu11 -O1 -g -fsanitize=thread -DRING_LIVE_WORDS=4096"
LIVE = [
    live("c11", "gcc -std=gnu11 -O2"),
    live("cpp11", "g++ -x c++ -std=c++11 -O2"),
    live("sanitized", f"gcc -std=gnu11 -O1 {SANITIZED} -DRING_LIVE_WORDS=4096"),
    # (not every kernel runs programs built in this way)
    live("sanitized_threads", THREADS, f"echo 'int main(void) {{ return 0; }}' | {THREADS} -x c - -o $ROOM/none && $ROOM/none", "; sysctl vm.mmap_rnd_bits=28"),
]


# The test of what explore.h models, with both compilers and with its sanitizers, and the ring of 20 bugs; twelve.h is built bug by bug.
EXPLORED = "-fsanitize=thread -fno-builtin -O1 -gdwarf-4 -Wall -Wextra -Werror -Iinclude"
EXPLORER = "gcc -std=c11 -O2 -Wall -Wextra -Wpedantic -Werror -Iinclude -c explorer/explore.c"


def explored(name, compiler, source, flags="", linker="gcc", explorer="explore.o"):
    of_gcc = "" if compiler.startswith("clang") else "-fno-tree-reassoc"
    return f"{compiler} {EXPLORED} {of_gcc} {flags} -c {source} -o $ROOM/{name}.o && {linker} $ROOM/{name}.o $ROOM/{explorer} $LIBRARY/libring_audit.a -o $ROOM/{name}"


EXPLORE = Program(
    "explore",
    "test -e $LIBRARY/libring_audit.a && command -v gcc && command -v g++ && command -v addr2line && command -v nm",
    "libring_audit.a in dist/, or in $LIBRARY; apt-get install build-essential binutils",
    " && ".join(
        [
            f"{EXPLORER} -o $ROOM/explore.o",
            f"{EXPLORER.replace('-O2', f'-O1 {SANITIZED}')} -o $ROOM/explore_sanitized.o",
            explored("explore_test", "gcc -std=gnu11", "tests/explore_test.c"),
            explored("explore_rings", "gcc -std=gnu11", "tests/explore_rings.c"),
            explored("explore_test_sanitized", "gcc -std=gnu11", "tests/explore_test.c", "", f"gcc {SANITIZED}", "explore_sanitized.o"),
            explored("explore_test_cpp", "g++ -std=c++20", "tests/explore_test.cpp", "", "g++"),
            explored("ring_explored", "g++ -std=c++17", "broken/ring_explored.cpp", "-DNO_HOLD", "g++"),
        ]
    ),
    "$ROOM/explore_test",
)
EXPLORE_CLANG = Program(
    "explore by clang",
    f"{EXPLORE.needs} && command -v clang && command -v clang++",
    f"{EXPLORE.get} clang",
    " && ".join(
        [
            f"{EXPLORER.replace('gcc', 'clang')} -o $ROOM/explore_clang.o",
            explored("explore_test_clang", "clang -std=gnu11", "tests/explore_test.c", "-Wno-atomic-alignment", "clang", "explore_clang.o"),
            explored("explore_test_cpp_clang", "clang++ -std=c++20", "tests/explore_test.cpp", "", "clang++", "explore_clang.o"),
            explored("ring_explored_clang", "clang++ -std=c++17", "broken/ring_explored.cpp", "-DNO_HOLD", "clang++", "explore_clang.o"),
        ]
    ),
    "$ROOM/explore_test_clang",
)
EXPLORE_REAL = Program(
    "explore of real queues",
    f"{EXPLORE.needs} && for header in boost/lockfree/spsc_queue.hpp readerwriterqueue/readerwriterqueue.h; "
    'do echo "#include <$header>" | g++ -x c++ -E - > $ROOM/none || exit 1; done',
    "apt-get install libboost-dev libreaderwriterqueue-dev",
    "./explore -o $ROOM/explored real/explored.cpp -- -std=c++17 -Wall -Wextra -Werror; test -x $ROOM/explored",
    "$ROOM/explored",
)
# What older values and the other choices reveal; and litmus tests, against the axioms and against Relacy.
EXPLORE_ORDERS = Program("explore of orders", EXPLORE.needs, EXPLORE.get, "true", "")
EXPLORE_LITMUS = Program(
    "explore of litmus tests",
    EXPLORE.needs,
    EXPLORE.get,
    f"{CPP} tests/litmus/axioms.cpp -o $ROOM/axioms && ./explore -o $ROOM/litmus tests/litmus/litmus.c -- -Wall -Wextra -Werror < /dev/null 2> $ROOM/none; "
    "test -x $ROOM/litmus",
    "python3 tests/litmus/compare.py $ROOM/litmus $ROOM/axioms 600 1",
)
EXPLORE_RELACY = Program(
    "explore of litmus tests by relacy",
    f"{RELACY.needs} && {EXPLORE.needs}",
    RELACY.get,
    " && ".join(f"g++ -std=c++17 -O1 -DTEST={test} tests/litmus/relacy.cpp -o $ROOM/relacy_{test}" for test in (1, 2, 3)),
    "",
)
# Tests in Rust: the parts of std that they may use, and queues from Debian's packages of crates.
EXPLORED_CRATES = ("concurrent-queue", "crossbeam-channel", "crossbeam-queue", "futures-channel")
EXPLORE_RUST = Program(
    "explore of rust",
    " && ".join(
        [EXPLORE.needs, "command -v rustc && command -v readelf && command -v c++filt", *(f"ls -d {CRATES}/{each}-[0-9]*" for each in EXPLORED_CRATES)]
    ),
    f"{EXPLORE.get} rustc {' '.join(f'librust-{each}-dev' for each in EXPLORED_CRATES)}",
    "(./explore -o $ROOM/of_std tests/rust/of_std.rs; "
    f"./explore -o $ROOM/of_crates tests/rust/of_crates.rs {' '.join(f'{CRATES}/{each}-[0-9]*' for each in EXPLORED_CRATES)}; "
    "test -x $ROOM/of_std && test -x $ROOM/of_crates)",
    "$ROOM/of_std",
)
# The judge by happens-before, against a search of all orders.
EXPLORE_JUDGE = Program(
    "explore: the judge by happens-before",
    "command -v gcc && test -e $LIBRARY/libring_audit.so.1",
    EXPLORE.get,
    "gcc -std=c11 -O2 -Wall -Wextra -Wpedantic -Werror tests/order/judge.c -o $ROOM/order_judge",
    "RING_AUDIT_LIB=$LIBRARY/libring_audit.so.1 python3 tests/order/compare.py 10000 1 $ROOM/order_judge",
)
