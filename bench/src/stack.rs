//! The stack that a call uses, by painting.
//!
//! A thread runs on a stack that is lent to it. Before each call everything
//! below its own frame is painted; after the call the lowest byte that is no
//! longer of that colour tells how deep the call went. The frames of the Rust
//! wrapper around the C function count too, some hundred bytes.

use std::collections::BTreeMap;
use std::ffi::c_void;
use std::ptr;

const STACK: usize = 1 << 20;
const PAINT: u64 = 0xa5a5_a5a5_a5a5_a5a5;
/// The most that is painted, far more than a call may use.
const PAINTED: usize = 512 << 10;

/// Room for the thread's attributes, more than any system asks for.
type Attributes = [u64; 32];

extern "C" {
    fn pthread_attr_init(attributes: *mut Attributes) -> i32;
    fn pthread_attr_setstack(attributes: *mut Attributes, lowest: *mut c_void, size: usize) -> i32;
    fn pthread_create(
        thread: *mut usize,
        attributes: *const Attributes,
        start: extern "C" fn(*mut c_void) -> *mut c_void,
        argument: *mut c_void,
    ) -> i32;
    fn pthread_join(thread: usize, answer: *mut *mut c_void) -> i32;
}

/// A call that is measured. It is made twice, on the same tables each time.
pub struct Measured {
    /// The function that is called.
    pub name: &'static str,
    /// The call, which needs little stack of its own.
    pub call: Box<dyn FnMut()>,
}

struct Job {
    calls: Vec<Measured>,
    most: BTreeMap<&'static str, usize>,
}

/// The most bytes used by each function over the calls.
pub fn used(calls: Vec<Measured>) -> BTreeMap<&'static str, usize> {
    let mut job = Job {
        calls,
        most: BTreeMap::new(),
    };
    let mut memory = vec![0_u128; STACK / 16];
    let mut attributes: Attributes = [0; 32];
    let mut thread = 0;
    // SAFETY: the stack and the job outlive the thread, which is joined here,
    // and are not touched by this thread until then.
    let answers = unsafe {
        [
            pthread_attr_init(&mut attributes),
            pthread_attr_setstack(&mut attributes, memory.as_mut_ptr().cast(), STACK),
            pthread_create(&mut thread, &attributes, measure, (&raw mut job).cast()),
            pthread_join(thread, ptr::null_mut()),
        ]
    };
    assert_eq!(answers, [0; 4], "a thread with a stack of its own");
    job.most
}

/// On the lent stack: each call, painted before and looked at after.
extern "C" fn measure(job: *mut c_void) -> *mut c_void {
    // SAFETY: `used` hands over a job that nobody else touches meanwhile.
    let job = unsafe { &mut *job.cast::<Job>() };
    for it in &mut job.calls {
        // The first time only warms up.
        (it.call)();
        let depth = depth_of(&mut it.call);
        let most = job.most.entry(it.name).or_insert(0);
        *most = depth.max(*most);
    }
    ptr::null_mut()
}

/// The bytes below this function's frame that one call has touched.
#[inline(never)]
fn depth_of(call: &mut dyn FnMut()) -> usize {
    let mut marker = 0_u64;
    let frame = (&raw mut marker).addr() & !7;
    // The painting keeps away from this function's own frame.
    let top = frame - 256;
    let lowest = top - PAINTED;
    for place in (lowest..top).step_by(8) {
        // SAFETY: the place lies in the lent stack, below all live frames.
        unsafe { ptr::with_exposed_provenance_mut::<u64>(place).write_volatile(PAINT) };
    }
    call();
    let touched = (lowest..top).step_by(8).find(|&place| {
        // SAFETY: as above.
        unsafe { ptr::with_exposed_provenance::<u64>(place).read_volatile() != PAINT }
    });
    touched.map_or(256, |place| frame - place)
}
