//! The harness under libFuzzer, which brings its own `main`.

#![deny(warnings)]
#![no_main]

pub use harness::LLVMFuzzerTestOneInput;

extern "C" {
    fn atexit(last: extern "C" fn()) -> i32;
}

/// libFuzzer calls this before the first input.
#[allow(non_snake_case)]
#[no_mangle]
pub extern "C" fn LLVMFuzzerInitialize(_count: *mut i32, _arguments: *mut *mut *mut i8) -> i32 {
    // SAFETY: `say` needs nothing that ends before it.
    unsafe { atexit(say) }
}

extern "C" fn say() {
    println!("fuzz: {} events", harness::events());
}
