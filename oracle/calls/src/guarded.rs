//! Words that end where memory ends: behind them lies a page that no one may read,
//! so that a read past a slice ends the program by a signal (SIGSEGV).

use std::cell::RefCell;
use std::ffi::c_void;

extern "C" {
    fn mmap(address: *mut c_void, length: usize, protection: i32, flags: i32, file: i32, offset: i64) -> *mut c_void;
    fn mprotect(address: *mut c_void, length: usize, protection: i32) -> i32;
    fn munmap(address: *mut c_void, length: usize) -> i32;
}

const PAGE: usize = 4_096;
const WORDS_OF_PAGE: usize = PAGE / size_of::<u32>();
const NONE: i32 = 0;
const READ_AND_WRITE: i32 = 3;
/// Private to this process and in no file, on x86-64 Linux.
const PRIVATE_ANONYMOUS: i32 = 0x22;

/// Memory for one slice, made larger where one does not fit. A slice given twice
/// in a row is copied once.
#[derive(Default)]
pub struct Guarded(RefCell<Option<Room>>);

struct Room {
    start: *mut u32,
    words: usize,
    /// How many words were copied last.
    held: usize,
}

impl Guarded {
    /// Calls with a copy of the slice that ends where memory ends.
    pub fn with<T>(&self, slice: &[u32], call: impl FnOnce(&[u32]) -> T) -> T {
        let mut room = self.0.borrow_mut();
        if room.as_ref().is_none_or(|room| room.words < slice.len()) {
            *room = Some(Room::new(slice.len()));
        }
        call(room.as_mut().expect("just made").holding(slice))
    }
}

impl Room {
    fn new(words: usize) -> Room {
        let words = words.next_multiple_of(WORDS_OF_PAGE).max(WORDS_OF_PAGE);
        let bytes = size_of::<u32>() * words;
        // SAFETY: new memory of whole pages; only its last page is closed.
        unsafe {
            let start = mmap(std::ptr::null_mut(), bytes + PAGE, READ_AND_WRITE, PRIVATE_ANONYMOUS, -1, 0);
            assert_ne!(start as isize, -1, "memory for a slice");
            assert_eq!(mprotect(start.byte_add(bytes), PAGE, NONE), 0, "a page that no one may read");
            Room { start: start.cast(), words, held: 0 }
        }
    }

    fn holding(&mut self, slice: &[u32]) -> &[u32] {
        // SAFETY: the room has as many words, no other reference to them is alive, and the memory is never without a value.
        let room = unsafe { std::slice::from_raw_parts_mut(self.start, self.words) };
        let end = &mut room[self.words - slice.len()..];
        if self.held != slice.len() || end != slice {
            end.copy_from_slice(slice);
            self.held = slice.len();
        }
        end
    }
}

impl Drop for Room {
    fn drop(&mut self) {
        // SAFETY: as it was made; nothing refers to it any more.
        unsafe { munmap(self.start.cast(), size_of::<u32>() * self.words + PAGE) };
    }
}

#[cfg(test)]
mod tests {
    use super::Guarded;
    use std::os::unix::process::ExitStatusExt;
    use std::process::Command;

    /// Tried in a process of its own, which is ended by the signal.
    #[test]
    fn a_word_past_the_end_cannot_be_read() {
        const TRIES: &str = "GUARDED_READS_PAST_THE_END";
        const SIGSEGV: i32 = 11;
        if std::env::var_os(TRIES).is_some() {
            // SAFETY: none; this is the read that must not be possible.
            Guarded::default().with(&[1, 2, 3], |held| unsafe { held.as_ptr().add(held.len()).read_volatile() });
            return;
        }
        let test = ["guarded::tests::a_word_past_the_end_cannot_be_read", "--exact"];
        let status = Command::new(std::env::current_exe().expect("this test")).args(test).env(TRIES, "1").status();
        assert_eq!(status.expect("a process").signal(), Some(SIGSEGV));
    }

    #[test]
    fn slices_are_held_whole_and_end_at_a_page() {
        let guarded = Guarded::default();
        for length in [0, 1, 5, 1_023, 1_024, 1_025, 3, 5_000, 0] {
            let words: Vec<u32> = (0..length).collect();
            guarded.with(&words, |held| {
                assert_eq!(held, words);
                assert_eq!(held.as_ptr_range().end as usize % super::PAGE, 0);
            });
        }
    }
}
