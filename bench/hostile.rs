// Loaded before the program by bench/hostile, with LD_PRELOAD: it calls the program's `main` repeatedly, each time on another
// input, and compares status, output and standard error with those of twins in plain Rust. Reads of standard input are answered here, in
// pieces of any size; standard output and standard error are kept here; what the program allocates is counted. Since
// `main` ends by `_exit`, it runs on a stack of its own, which is abandoned there.
use std::ffi::{CStr, c_char, c_int, c_long, c_void};
use std::io::Write;

#[allow(dead_code)]
mod audit_twin;
#[allow(dead_code)]
mod calls_twin;
mod form_twin;
mod inputs;
mod play_twin;
mod script_twin;

use form_twin::Length;
use inputs::{Kind, Pick};
use script_twin::Second;

type Main = extern "C" fn(c_int, *mut *mut c_char, *mut *mut c_char) -> c_int;
type Start = unsafe extern "C" fn(
    Main,
    c_int,
    *mut *mut c_char,
    *const c_void,
    *const c_void,
    *const c_void,
    *const c_void,
) -> c_int;

unsafe extern "C" {
    fn dlsym(handle: *mut c_void, name: *const c_char) -> *mut c_void;
    fn syscall(number: c_long, ...) -> c_long;
    fn malloc_usable_size(at: *mut c_void) -> usize;
    fn __libc_malloc(size: usize) -> *mut c_void;
    fn __libc_realloc(at: *mut c_void, size: usize) -> *mut c_void;
    fn __libc_free(at: *mut c_void);
    fn clock_gettime(clock: c_int, time: *mut [i64; 2]) -> c_int;
    fn getcontext(context: *mut Context) -> c_int;
    fn makecontext(context: *mut Context, body: extern "C" fn(), count: c_int, ...);
    fn swapcontext(from: *mut Context, to: *const Context) -> c_int;
}

// The C library's ucontext_t on x86-64, in which the stack's address and size come after two words.
#[repr(C, align(16))]
struct Context {
    flags: u64,
    link: *mut Context,
    stack: *mut u8,
    stack_flags: u64,
    stack_size: usize,
    more: [u64; 123],
}

const CONTEXT: Context = Context {
    flags: 0,
    link: std::ptr::null_mut(),
    stack: std::ptr::null_mut(),
    stack_flags: 0,
    stack_size: 0,
    more: [0; 123],
};
const STACK: usize = 8 << 20;

// The current run of the program. (Its commands on an input have one thread.)
struct Run {
    input: Vec<u8>,
    read: usize,
    // the most bytes that one read returns
    piece: usize,
    out: Vec<u8>,
    err: Vec<u8>,
}

static mut MAIN: Option<Main> = None;
static mut RUN: Run = Run {
    input: Vec::new(),
    read: 0,
    piece: 0,
    out: Vec::new(),
    err: Vec::new(),
};
// Whether the program is running, and not the code that judges it.
static mut INSIDE: bool = false;
static mut WORDS: Option<(c_int, *mut *mut c_char, *mut *mut c_char)> = None;
static mut STATUS: c_int = 0;
static mut JUDGE: Context = CONTEXT;
static mut JUDGED: Context = CONTEXT;
static mut LIVE: usize = 0;
static mut PEAK: usize = 0;

#[unsafe(no_mangle)]
unsafe extern "C" fn __libc_start_main(
    main: Main,
    argc: c_int,
    argv: *mut *mut c_char,
    init: *const c_void,
    fini: *const c_void,
    rtld_fini: *const c_void,
    stack_end: *const c_void,
) -> c_int {
    unsafe {
        MAIN = Some(main);
        let next = usize::MAX as *mut c_void;
        let start: Start = std::mem::transmute(dlsym(next, c"__libc_start_main".as_ptr()));
        start(judge_all, argc, argv, init, fini, rtld_fini, stack_end)
    }
}

unsafe fn grown(at: *mut c_void) {
    unsafe {
        if INSIDE && !at.is_null() {
            LIVE += malloc_usable_size(at);
            PEAK = PEAK.max(LIVE);
        }
    }
}

unsafe fn shrunk(at: *mut c_void) {
    unsafe {
        if INSIDE && !at.is_null() {
            LIVE = LIVE.wrapping_sub(malloc_usable_size(at));
        }
    }
}

#[unsafe(no_mangle)]
unsafe extern "C" fn malloc(size: usize) -> *mut c_void {
    unsafe {
        let at = __libc_malloc(size);
        grown(at);
        at
    }
}

#[unsafe(no_mangle)]
unsafe extern "C" fn realloc(old: *mut c_void, size: usize) -> *mut c_void {
    unsafe {
        shrunk(old);
        let at = __libc_realloc(old, size);
        grown(at);
        at
    }
}

#[unsafe(no_mangle)]
unsafe extern "C" fn free(at: *mut c_void) {
    unsafe {
        shrunk(at);
        __libc_free(at);
    }
}

#[unsafe(no_mangle)]
unsafe extern "C" fn read(file: c_int, to: *mut u8, size: usize) -> isize {
    unsafe {
        let run = &mut *(&raw mut RUN);
        if !INSIDE || file != 0 {
            return syscall(0, file, to, size) as isize;
        }
        let count = size.min(run.piece).min(run.input.len() - run.read);
        std::ptr::copy_nonoverlapping(run.input[run.read..].as_ptr(), to, count);
        run.read += count;
        count as isize
    }
}

#[unsafe(no_mangle)]
unsafe extern "C" fn write(file: c_int, from: *const u8, size: usize) -> isize {
    unsafe {
        if !INSIDE || !(1..=2).contains(&file) {
            return syscall(1, file, from, size) as isize;
        }
        INSIDE = false;
        let run = &mut *(&raw mut RUN);
        let text = if file == 1 { &mut run.out } else { &mut run.err };
        text.extend_from_slice(std::slice::from_raw_parts(from, size));
        INSIDE = true;
        size as isize
    }
}

#[unsafe(no_mangle)]
unsafe extern "C" fn __write(file: c_int, from: *const u8, size: usize) -> isize {
    unsafe { write(file, from, size) }
}

#[unsafe(no_mangle)]
unsafe extern "C" fn _exit(status: c_int) -> ! {
    unsafe {
        if INSIDE {
            INSIDE = false;
            STATUS = status;
            swapcontext(&raw mut JUDGED, &raw const JUDGE);
        }
        loop {
            syscall(231, status);
        }
    }
}

extern "C" fn body() {
    unsafe {
        let (argc, argv, envp) = WORDS.unwrap();
        INSIDE = true;
        let status = MAIN.unwrap()(argc, argv, envp);
        _exit(status)
    }
}

// The result of a run of the program.
struct Seen {
    status: c_int,
    peak: usize,
    left: usize,
    nanos: i64,
}

fn processor_time() -> i64 {
    let mut time = [0; 2];
    unsafe { clock_gettime(3, &mut time) };
    time[0] * 1_000_000_000 + time[1]
}

unsafe fn judge(stack: &mut [u8], input: Vec<u8>, piece: usize) -> Seen {
    unsafe {
        let run = &mut *(&raw mut RUN);
        run.input = input;
        run.read = 0;
        run.piece = piece;
        run.out.clear();
        run.err.clear();
        LIVE = 0;
        PEAK = 0;
        getcontext(&raw mut JUDGED);
        JUDGED.stack = stack.as_mut_ptr();
        JUDGED.stack_size = stack.len();
        makecontext(&raw mut JUDGED, body, 0);
        let begun = processor_time();
        swapcontext(&raw mut JUDGE, &raw const JUDGED);
        Seen {
            status: STATUS & 0xff,
            peak: PEAK,
            left: LIVE,
            nanos: processor_time() - begun,
        }
    }
}

// The expected result for an input: the status, the output, the standard error, and whether a message of the JSON reader follows that.
type Wanted = (c_int, String, String, bool);

fn wanted_of_trace(input: &[u8], bits_alone: bool, length: Length) -> Wanted {
    match form_twin::refusal(input, length) {
        Some(said) => (1, String::new(), said, false),
        None => {
            let (status, text) = audit_twin::finding(input, bits_alone);
            (status, text, String::new(), false)
        }
    }
}

fn wanted_of_calls(input: &[u8]) -> Wanted {
    let mut reading = calls_twin::Reading::new();
    let found = match reading.read(input) {
        Ok(()) => reading.finding(),
        Err(refusal) => refusal,
    };
    match found {
        (1, said) => (1, String::new(), said + "\n", false),
        (status, text) => (status, text + "\n", String::new(), false),
    }
}

fn wanted_of_script(input: &[u8], kind: Kind) -> Wanted {
    match script_twin::read(input) {
        Ok(script) => {
            let play = play_twin::Play::new(&script, kind != Kind::Play).play();
            let text = match kind {
                Kind::PlayTrace => play.trace().into(),
                Kind::PlayCalls => play.calls().into(),
                _ => play.report(),
            };
            (0, text, String::new(), false)
        }
        Err(refusal) => {
            let first = refusal.first + "\n";
            match refusal.second {
                Second::Nothing => (1, String::new(), first, false),
                Second::Line(line) => (1, String::new(), first + &line + "\n", false),
                Second::Json => (1, String::new(), first, true),
            }
        }
    }
}

fn wanted_of(kind: Kind, input: &[u8]) -> Wanted {
    match kind {
        Kind::Bits => wanted_of_trace(input, true, Length::Limited),
        Kind::LongBits => wanted_of_trace(input, true, Length::Any),
        Kind::Audit => wanted_of_trace(input, false, Length::Limited),
        Kind::Calls => wanted_of_calls(input),
        Kind::Play | Kind::PlayTrace | Kind::PlayCalls => wanted_of_script(input, kind),
    }
}

fn is_as_wanted(seen: &Seen, run: &Run, (status, out, err, json): &Wanted) -> bool {
    let said = &run.err[..];
    let is_said = if *json {
        // one more line, the message of the JSON reader, with the line and the column
        said.strip_prefix(err.as_bytes()).is_some_and(|line| {
            line.starts_with(b"  ")
                && line.iter().filter(|byte| **byte == b'\n').count() == 1
                && line.ends_with(b"\n")
                && line.windows(8).any(|words| words == b" at line")
        })
    } else {
        said == err.as_bytes()
    };
    seen.status == *status && run.out == out.as_bytes() && is_said
}

fn text_of(variable: &str) -> String {
    std::env::var(variable).unwrap_or_default()
}

// The most heap, in bytes, and the longest processor time, in nanoseconds, that an input of this length may take. A play takes as much
// memory as its letters need, at most a million of them, so its bounds follow from these and hardly from its bytes.
fn bounds(kind: Kind, length: usize) -> (usize, i64) {
    let (heap, nanos) = match kind {
        Kind::LongBits => (64 << 10, 250_000_000),
        Kind::Bits | Kind::Audit | Kind::Calls => ((64 << 10) + 8 * length, 250_000_000),
        Kind::Play | Kind::PlayTrace | Kind::PlayCalls => ((48 << 20) + 64 * length, 1_000_000_000),
    };
    (heap, nanos + 1_000 * length as i64)
}

// The totals of all inputs.
#[derive(Default)]
struct Totals {
    inputs: u64,
    statuses: [u64; 4],
    wrong: u64,
    // inputs that exceeded the bounds
    over: u64,
    // for inputs of at most 4 KiB the most heap, for larger ones the most per byte; likewise the longest time
    small_peak: usize,
    small_nanos: i64,
    large_peak: f64,
    large_nanos: f64,
    left: u64,
}

impl Totals {
    fn add(&mut self, kind: Kind, input: &[u8], seen: &Seen, wanted: &Wanted) {
        let run = unsafe { &*(&raw const RUN) };
        self.inputs += 1;
        self.statuses[(seen.status as usize).min(3)] += 1;
        self.left += u64::from(seen.left != 0);
        if input.len() <= 4096 {
            self.small_peak = self.small_peak.max(seen.peak);
            self.small_nanos = self.small_nanos.max(seen.nanos);
        } else {
            let length = input.len() as f64;
            self.large_peak = self.large_peak.max(seen.peak as f64 / length);
            self.large_nanos = self.large_nanos.max(seen.nanos as f64 / length);
        }
        let (heap, nanos) = bounds(kind, input.len());
        if seen.peak > heap || seen.nanos > nanos {
            self.over += 1;
            println!(
                "OVER: input {} of {} bytes took {} bytes of heap and {} ns; its bounds are {heap} and {nanos}",
                self.inputs,
                input.len(),
                seen.peak,
                seen.nanos
            );
        }
        if !is_as_wanted(seen, run, wanted) {
            self.wrong += 1;
            if self.wrong <= 10 {
                let file = format!("{}/{kind:?}-{}.input", text_of("HOSTILE_ROOM"), self.inputs);
                std::fs::write(&file, input).unwrap();
                let cut = |text: &[u8]| String::from_utf8_lossy(&text[..text.len().min(400)]).into_owned();
                println!(
                    "WRONG: {file}: status {}, {:?}, {:?}; wanted {}, {:?}, {:?}",
                    seen.status,
                    cut(&run.out),
                    cut(&run.err),
                    wanted.0,
                    cut(wanted.1.as_bytes()),
                    cut(wanted.2.as_bytes())
                );
            }
        }
    }

    fn print(&self, words: &str, seconds: f64) {
        let [done, refused, _, faults] = self.statuses;
        println!(
            "| `{words}` | {} | {done} | {faults} | {refused} | {} | {:.0} | {:.2} | {:.1} | {:.0} | {seconds:.0} |",
            self.inputs,
            self.wrong,
            self.small_peak as f64 / 1024.0,
            self.small_nanos as f64 / 1e6,
            self.large_peak,
            self.large_nanos
        );
        if self.left > 0 {
            println!("WRONG: {} inputs left memory allocated", self.left);
        }
    }
}

extern "C" fn judge_all(argc: c_int, argv: *mut *mut c_char, envp: *mut *mut c_char) -> c_int {
    let words: Vec<String> = (1..argc as usize)
        .map(|at| unsafe { CStr::from_ptr(*argv.add(at)) }.to_string_lossy().into_owned())
        .collect();
    let words = words.join(" ");
    let kind = Kind::of(&words);
    let seed: u64 = text_of("HOSTILE_SEED").parse().unwrap();
    let count: u64 = text_of("HOSTILE_COUNT").parse().unwrap();
    let mut maker = inputs::Maker::new(kind, Pick(seed), &text_of("HOSTILE_EXAMPLES"));
    let mut pieces = Pick(seed ^ 0x5eed);
    let mut totals = Totals::default();
    let begun = std::time::Instant::now();
    let mut stack = vec![0; STACK];
    unsafe { WORDS = Some((argc, argv, envp)) };
    while let Some(input) = maker.next(count) {
        let wanted = wanted_of(kind, &input);
        // whole, or cut anywhere
        let piece = match pieces.below(4) {
            0 if input.len() < 10_000 => 1 + pieces.below(7),
            1 => 1 + pieces.below(65_536),
            _ => usize::MAX,
        };
        let seen = unsafe { judge(&mut stack, input.clone(), piece) };
        totals.add(kind, &input, &seen, &wanted);
    }
    totals.print(&words, begun.elapsed().as_secs_f64());
    let _ = std::io::stdout().flush();
    c_int::from(totals.wrong > 0 || totals.left > 0 || totals.over > 0)
}
