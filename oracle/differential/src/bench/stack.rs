//! How deep a call goes into the stack: it runs in a thread whose stack is memory of this program, filled with one byte
//! before. What is not that byte afterwards was touched. The depth of a call that does nothing is taken off.

use super::Runs;
use std::alloc::{Layout, alloc, dealloc};
use std::ffi::{c_int, c_void};
use std::ptr::{null_mut, write_bytes};
use std::slice::from_raw_parts;

const SIZE: usize = 8 << 20;
const PAGE: usize = 4096;
const PAINT: u8 = 0xA5;

/// As large as `pthread_attr_t` is on Linux, or larger.
#[repr(C, align(16))]
struct Attributes([u64; 16]);

type Thread = usize;

unsafe extern "C" {
    fn pthread_attr_init(attributes: *mut Attributes) -> c_int;
    fn pthread_attr_setstack(attributes: *mut Attributes, stack: *mut c_void, size: usize)
    -> c_int;
    fn pthread_attr_destroy(attributes: *mut Attributes) -> c_int;
    fn pthread_create(
        thread: *mut Thread,
        attributes: *const Attributes,
        start: extern "C" fn(*mut c_void) -> *mut c_void,
        argument: *mut c_void,
    ) -> c_int;
    fn pthread_join(thread: Thread, result: *mut *mut c_void) -> c_int;
}

/// The bytes of stack that the call uses.
pub fn used(call: Runs) -> usize {
    depth(call).saturating_sub(depth(Box::new(|| ())))
}

extern "C" fn start(argument: *mut c_void) -> *mut c_void {
    // SAFETY: `depth` gives the address of a call that lives until this thread has ended.
    let call: &mut Option<Runs> = unsafe { &mut *argument.cast() };
    call.take().expect("it is started once")();
    null_mut()
}

fn depth(call: Runs) -> usize {
    let mut call = Some(call);
    let layout = Layout::from_size_align(SIZE, PAGE).expect("a layout");
    // SAFETY: the memory is allocated, filled, used by one thread as its stack, read after that thread has ended, and
    // freed. The attributes are made before they are used.
    unsafe {
        let stack = alloc(layout);
        assert!(!stack.is_null());
        write_bytes(stack, PAINT, SIZE);
        let mut attributes = Attributes([0; 16]);
        let mut thread = 0;
        assert_eq!(pthread_attr_init(&mut attributes), 0);
        assert_eq!(
            pthread_attr_setstack(&mut attributes, stack.cast(), SIZE),
            0
        );
        let argument = (&raw mut call).cast();
        assert_eq!(pthread_create(&mut thread, &attributes, start, argument), 0);
        assert_eq!(pthread_join(thread, null_mut()), 0);
        pthread_attr_destroy(&mut attributes);
        let painted = from_raw_parts(stack, SIZE).iter();
        let untouched = painted.take_while(|&&byte| byte == PAINT).count();
        dealloc(stack, layout);
        SIZE - untouched
    }
}
