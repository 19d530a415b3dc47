//! The C export, and what a call needs: the processor's time, and stack, on a painted one. The one file with unsafe code.
//!
//! With the feature `export` the archive that the variable GEKUMOSARI_ARCHIVE names is linked (build.rs).
#![allow(unsafe_code)]

use std::ffi::{c_int, c_void};
use std::ptr;
use std::slice;

/// An entry as C sees it: a session and a slice for its answers; the length written, or -12.
pub type Entry = fn(&[u8], &mut [u8]) -> i64;

#[cfg(feature = "export")]
mod linked {
    use super::Entry;
    use crate::subject::Subject;
    use std::io;

    extern "C" {
        fn gekumosari_session(text: *const u8, len: usize, out: *mut u8, room: usize) -> i64;
    }

    /// The export.
    pub const ENTRY: Entry = |text, out| {
        // SAFETY: both slices are valid for their lengths, and `out` is borrowed for this call alone.
        unsafe { gekumosari_session(text.as_ptr(), text.len(), out.as_mut_ptr(), out.len()) }
    };

    /// The export, with every byte of the lent slice looked at.
    pub struct Export;

    impl Subject for Export {
        fn calendar(&self, _: &[u8]) -> Option<io::Result<Vec<u8>>> {
            None
        }

        fn dispatch(&self, text: &[u8]) -> io::Result<Vec<u8>> {
            super::whole_answer(ENTRY, text).map_err(io::Error::other)
        }
    }
}

#[cfg(feature = "export")]
pub use linked::{Export, ENTRY};

/// This implementation, under an entry of the same form, for the fuzzer in C.
///
/// # Safety
/// `text` is valid for `len` bytes and `out` for `room`, and nothing else uses `out` meanwhile.
#[no_mangle]
pub unsafe extern "C" fn harness_session(text: *const u8, len: usize, out: *mut u8, room: usize) -> i64 {
    crate::session(slice::from_raw_parts(text, len), slice::from_raw_parts_mut(out, room))
}

/// No answer is longer: GEKUMOSARI_MOST_BYTES of the header.
pub const ROOM: usize = 458_808;

/// The answer to a session. 'Bytes past that length keep their values, and with -12 all bytes do.'
pub fn whole_answer(entry: Entry, text: &[u8]) -> Result<Vec<u8>, String> {
    // Room for any answer to a short text; for a long one an entry may have to measure its answer.
    let room = ROOM.min(4096 + 8 * text.len());
    let whole = answer_in(entry, text, room)?.ok_or(format!("-12 with {room} bytes lent"))?;
    if answer_in(entry, text, whole.len())?.as_ref() != Some(&whole) {
        return Err("another answer in a slice that just holds it".into());
    }
    if !whole.is_empty() && answer_in(entry, text, whole.len() - 1)?.is_some() {
        return Err("no -12 in a slice one byte too short".into());
    }
    Ok(whole)
}

/// The answer in a slice of so many bytes that stands in a longer one; none for -12.
fn answer_in(entry: Entry, text: &[u8], room: usize) -> Result<Option<Vec<u8>>, String> {
    const PAST: usize = 64;
    let paint = |at: usize| (at * 7 + 13) as u8;
    let mut lent: Vec<u8> = (0..room + PAST).map(paint).collect();
    let length = entry(text, &mut lent[..room]);
    let written = match length {
        -12 => 0,
        0.. if length as usize <= room => length as usize,
        _ => return Err(format!("{length} with {room} bytes lent")),
    };
    if let Some(at) = (written..lent.len()).find(|&at| lent[at] != paint(at)) {
        return Err(format!("byte {at} of {room} lent is changed, the answer is {length}"));
    }
    lent.truncate(written);
    Ok((length >= 0).then_some(lent))
}

// ---- the processor's time

#[repr(C)]
struct Timespec {
    seconds: i64,
    nanos: i64,
}

extern "C" {
    fn clock_gettime(clock: c_int, time: *mut Timespec) -> c_int;
}

/// Nanoseconds of the processor that this thread has used so far: what other processes take does not count. Linux only.
pub fn thread_nanos() -> u128 {
    const CLOCK_THREAD_CPUTIME_ID: c_int = 3;
    let mut time = Timespec { seconds: 0, nanos: 0 };
    // SAFETY: `time` is the struct of 64-bit Linux, and lives through the call.
    assert_eq!(unsafe { clock_gettime(CLOCK_THREAD_CPUTIME_ID, &mut time) }, 0);
    time.seconds as u128 * 1_000_000_000 + time.nanos as u128
}

// ---- the painted stack

const STACK: usize = 4 << 20;
const PAINT: u8 = 0xA5;

extern "C" {
    fn pthread_attr_init(attributes: *mut Attributes) -> c_int;
    fn pthread_attr_setstack(attributes: *mut Attributes, stack: *mut c_void, size: usize) -> c_int;
    fn pthread_attr_destroy(attributes: *mut Attributes) -> c_int;
    fn pthread_create(
        thread: *mut usize,
        attributes: *const Attributes,
        body: extern "C" fn(*mut c_void) -> *mut c_void,
        argument: *mut c_void,
    ) -> c_int;
    fn pthread_join(thread: usize, answer: *mut *mut c_void) -> c_int;
}

/// Room for glibc's pthread_attr_t.
#[repr(C, align(16))]
struct Attributes([u64; 16]);

#[repr(C, align(4096))]
struct Page([u8; 4096]);

struct Call<'c> {
    entry: Entry,
    text: &'c [u8],
    out: &'c mut [u8],
    /// Where the stack stood when the call was made.
    from: usize,
}

extern "C" fn make_call(argument: *mut c_void) -> *mut c_void {
    // SAFETY: `stack_use` hands over a Call, and waits for this thread before it looks at it again.
    let call = unsafe { &mut *argument.cast::<Call>() };
    let mark = 0u8;
    call.from = ptr::addr_of!(mark) as usize;
    (call.entry)(call.text, call.out);
    ptr::null_mut()
}

/// Bytes of stack that a call needs: it runs on a stack that is painted before, and the lowest byte that it changed is looked up.
/// Linux only, where stacks grow down.
pub fn stack_use(entry: Entry, text: &[u8], room: usize) -> usize {
    let mut out = vec![0; room];
    let mut call = Call { entry, text, out: &mut out, from: 0 };
    let mut stack: Vec<Page> = (0..STACK / 4096).map(|_| Page([PAINT; 4096])).collect();
    let bottom: *mut Page = stack.as_mut_ptr();
    let mut attributes = Attributes([0; 16]);
    let mut thread = 0;
    // SAFETY: the stack and the call outlive the thread, which is joined here, and nothing else touches them meanwhile.
    unsafe {
        assert_eq!(pthread_attr_init(&mut attributes), 0);
        assert_eq!(pthread_attr_setstack(&mut attributes, bottom.cast(), STACK), 0);
        assert_eq!(pthread_create(&mut thread, &attributes, make_call, ptr::addr_of_mut!(call).cast()), 0);
        assert_eq!(pthread_join(thread, ptr::null_mut()), 0);
        pthread_attr_destroy(&mut attributes);
    }
    let untouched = stack.iter().flat_map(|page| page.0.iter()).take_while(|&&byte| byte == PAINT).count();
    call.from - (bottom as usize + untouched)
}

#[cfg(test)]
mod tests {
    use super::*;

    #[test]
    fn the_answer_is_whole_and_the_rest_untouched() {
        let plan = b"window=10\nrounds=100\nlast=1000\njobs=1\nmin=2\nmax=4\nrelease=0\ndeadline=10\nbounds=0\n";
        let text = [plan.as_slice(), b"ask=offer\n"].concat();
        assert_eq!(whole_answer(crate::session, &text).unwrap(), b"offer=0,6\n");
        assert_eq!(whole_answer(crate::session, plan).unwrap(), b"");
        assert!(whole_answer(|_, _| -12, &text).is_err());
        assert!(whole_answer(|_, _| 1 << 30, &text).is_err());
        let careless: Entry = |text, out| {
            let length = crate::session(text, out);
            if let Some(byte) = out.get_mut(length.max(0) as usize) {
                *byte = 0;
            }
            length
        };
        assert!(whole_answer(careless, &text).is_err());
    }

    #[test]
    fn stack_use_is_about_what_a_call_takes() {
        let small = stack_use(|_, _| 0, b"", ROOM);
        let large: Entry = |_, out| {
            let mut local = [0u8; 100_000];
            local.iter_mut().zip(out.iter_mut()).for_each(|(a, b)| *a = *b + 1);
            i64::from(std::hint::black_box(&mut local)[17])
        };
        let large = stack_use(large, b"", ROOM);
        assert!(small < 5_000 && (100_000..110_000).contains(&large), "{small} {large}");
    }
}
