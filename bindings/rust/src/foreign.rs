//! What happens where the linked library is not the proved one.

/// Panics: the library answered something that the proved one never answers.
#[cold]
#[inline(never)]
#[track_caller]
pub fn foreign(answer: &str) -> ! {
    panic!("the linked library is not the proved scanner: it answered {answer}")
}
