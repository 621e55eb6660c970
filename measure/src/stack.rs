//! The deepest stack of a call: it runs on a thread whose stack was filled with one byte, and the bytes that changed are counted.
use std::ffi::c_void;
use std::mem::MaybeUninit;
use std::ptr;

const BYTES: usize = 1 << 20;
const FILL: u8 = 0xA5;

#[repr(C, align(16))]
struct Attributes([u8; 64]);

extern "C" {
    fn pthread_attr_init(attributes: *mut Attributes) -> i32;
    fn pthread_attr_setstack(attributes: *mut Attributes, low: *mut c_void, bytes: usize) -> i32;
    fn pthread_create(thread: *mut usize, attributes: *const Attributes, start: extern "C" fn(*mut c_void) -> *mut c_void, with: *mut c_void) -> i32;
    fn pthread_join(thread: usize, result: *mut *mut c_void) -> i32;
}

extern "C" fn start(with: *mut c_void) -> *mut c_void {
    let call = unsafe { &mut *with.cast::<&mut dyn FnMut()>() };
    call();
    ptr::null_mut()
}

/// How many bytes of its stack a thread touches that makes this call, from the top to the deepest.
pub fn touched(call: &mut dyn FnMut()) -> usize {
    let layout = std::alloc::Layout::from_size_align(BYTES, 4096).expect("a layout");
    unsafe {
        let low = std::alloc::alloc(layout);
        low.write_bytes(FILL, BYTES);
        let mut attributes = MaybeUninit::uninit();
        let mut call = call;
        let mut thread = 0;
        assert_eq!(pthread_attr_init(attributes.as_mut_ptr()), 0);
        assert_eq!(pthread_attr_setstack(attributes.as_mut_ptr(), low.cast(), BYTES), 0);
        assert_eq!(pthread_create(&mut thread, attributes.as_ptr(), start, ptr::addr_of_mut!(call).cast()), 0);
        assert_eq!(pthread_join(thread, ptr::null_mut()), 0);
        let untouched = (0..BYTES).take_while(|&at| *low.add(at) == FILL).count();
        std::alloc::dealloc(low, layout);
        BYTES - untouched
    }
}
