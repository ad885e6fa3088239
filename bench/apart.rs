// Loaded before a program by ring_bench.py, with LD_PRELOAD: each thread that the program starts runs on the core named by CORE;
// its first thread stays on the core on which the process was started.
use std::ffi::{c_char, c_int, c_ulong, c_void};
use std::mem::{size_of, transmute};

type Body = extern "C" fn(*mut c_void) -> *mut c_void;
type Create = unsafe extern "C" fn(*mut c_ulong, *const c_void, Body, *mut c_void) -> c_int;

unsafe extern "C" {
    fn dlsym(handle: *mut c_void, name: *const c_char) -> *mut c_void;
    fn pthread_setaffinity_np(thread: c_ulong, size: usize, cores: *const [u64; 16]) -> c_int;
}

#[unsafe(no_mangle)]
unsafe extern "C" fn pthread_create(
    thread: *mut c_ulong,
    how: *const c_void,
    body: Body,
    argument: *mut c_void,
) -> c_int {
    let core: usize = std::env::var("CORE").unwrap().parse().unwrap();
    let mut cores = [0; 16];
    cores[core / 64] = 1 << (core % 64);
    unsafe {
        let next = usize::MAX as *mut c_void;
        let create: Create = transmute(dlsym(next, c"pthread_create".as_ptr()));
        let status = create(thread, how, body, argument);
        if status == 0 {
            assert_eq!(
                pthread_setaffinity_np(*thread, size_of::<[u64; 16]>(), &cores),
                0
            );
        }
        status
    }
}
