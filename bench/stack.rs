//! Bytes of stack that a call uses. It is made by a thread whose stack is painted, from far below the thread's own start
//! and end. Just before it the caller notes its stack pointer, where its frame ends, with the arguments in it. From there
//! down to the lowest word that has lost its paint is what the call used, its return address included.

use crate::fail;
use crate::times::Call;
use std::arch::asm;
use std::ffi::c_void;
use std::mem::MaybeUninit;
use std::ptr;
use std::sync::atomic::{AtomicUsize, Ordering};

const STACK: usize = 4 << 20;
const PAINT: u64 = 0xA5C3_5A3C_0FF0_9669;
/// More than the start and the end of a thread use.
const SPACE: usize = 64 << 10;

/// The stack pointer of the caller that noted it last.
static NOTED: AtomicUsize = AtomicUsize::new(0);

/// Notes the end of the frame of the function that this stands in, or so many bytes below it.
#[inline(always)]
pub fn note(below: usize) {
    let pointer: usize;
    // SAFETY: reads a register. Compilers leave the stack pointer where it is from a function's first lines to its last.
    unsafe { asm!("mov {}, rsp", out(reg) pointer, options(nomem, nostack, preserves_flags)) };
    NOTED.store(pointer - below, Ordering::Relaxed);
}

#[repr(C, align(64))]
struct Attributes([u64; 32]);

extern "C" {
    fn pthread_attr_init(attributes: *mut Attributes) -> i32;
    fn pthread_attr_destroy(attributes: *mut Attributes) -> i32;
    fn pthread_attr_setstack(attributes: *mut Attributes, stack: *mut c_void, size: usize) -> i32;
    fn pthread_create(
        thread: *mut usize,
        attributes: *const Attributes,
        body: extern "C" fn(*mut c_void) -> *mut c_void,
        argument: *mut c_void,
    ) -> i32;
    fn pthread_join(thread: usize, given: *mut *mut c_void) -> i32;
}

extern "C" fn body(argument: *mut c_void) -> *mut c_void {
    // SAFETY: the argument is what `bytes` lends to the thread until it has joined it.
    far_down(unsafe { *argument.cast::<&mut Call>() });
    argument
}

#[inline(never)]
fn far_down(call: &mut Call) {
    let space = MaybeUninit::<[u8; SPACE]>::uninit();
    // SAFETY: does nothing; the compiler must take it for a use of the space.
    unsafe { asm!("/* {} */", in(reg) space.as_ptr()) };
    call();
}

/// The bytes of stack of a call that notes its caller's frame.
pub fn bytes(mut call: &mut Call) -> usize {
    call();
    let mut memory = vec![PAINT; STACK / 8 + 512];
    let before = (4096 - memory.as_ptr() as usize % 4096) % 4096 / 8;
    let painted = &mut memory[before..before + STACK / 8];
    let mut attributes = Attributes([0; 32]);
    let mut thread = 0;
    // SAFETY: the stack and the call outlive the thread, which is joined here; the attributes are larger than libc's.
    let failed = unsafe {
        pthread_attr_init(&mut attributes)
            | pthread_attr_setstack(&mut attributes, painted.as_mut_ptr().cast(), STACK)
            | pthread_create(&mut thread, &attributes, body, (&mut call as *mut &mut Call).cast())
            | pthread_join(thread, ptr::null_mut())
            | pthread_attr_destroy(&mut attributes)
    };
    if failed != 0 {
        fail("a thread on a painted stack cannot be had");
    }
    let untouched = painted.iter().take_while(|&&word| word == PAINT).count();
    let lowest = painted.as_ptr() as usize + 8 * untouched;
    let noted = NOTED.load(Ordering::Relaxed);
    if noted < lowest || noted > painted.as_ptr() as usize + STACK - SPACE {
        fail("the caller of a library's call has not noted its frame");
    }
    noted - lowest
}
