//! The proved queue by way of its C interface, as safe functions. The only unsafe code of the package stands here.

/// A refusal's number and its place, or 0 and how many runs are running.
#[repr(C)]
#[derive(Clone, Copy, Debug, PartialEq, Eq)]
pub struct Answer {
    pub refusal: u64,
    pub value: u64,
}

impl Answer {
    pub fn taken(&self) -> bool {
        self.refusal == 0
    }
}

extern "C" {
    fn giltzomer_open(queue: *mut u64, length: usize, benches: u64, depth: u64) -> Answer;
    fn giltzomer_apply(
        queue: *mut u64,
        length: usize,
        event: *const u64,
        event_length: usize,
    ) -> Answer;
    fn giltzomer_next_event(
        bytes: *const u8,
        length: usize,
        event: *mut u64,
        event_length: usize,
    ) -> usize;
}

/// Writes an empty queue.
pub fn open(queue: &mut [u64], benches: u64, depth: u64) -> Answer {
    // SAFETY: the pointer and the length are those of a slice that nobody else holds.
    unsafe { giltzomer_open(queue.as_mut_ptr(), queue.len(), benches, depth) }
}

/// Applies an event.
pub fn apply(queue: &mut [u64], event: &[u64]) -> Answer {
    // SAFETY: both pointers and lengths are those of slices, and the queue's is held by nobody else.
    unsafe { giltzomer_apply(queue.as_mut_ptr(), queue.len(), event.as_ptr(), event.len()) }
}

/// Reads the first event of a day file's bytes into the first eleven numbers of `event`; answers how many bytes it
/// took, or 0 if there is none.
pub fn next_event(bytes: &[u8], event: &mut [u64]) -> usize {
    // SAFETY: both pointers and lengths are those of slices, and the event's is held by nobody else.
    unsafe { giltzomer_next_event(bytes.as_ptr(), bytes.len(), event.as_mut_ptr(), event.len()) }
}
