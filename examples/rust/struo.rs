//! The library's calls behind safe functions over slices. What include/struo.h asks of pointers and lengths, references and slices
//! have by their types: they are valid, aligned, apart where one is `&mut`, and below 2^63 bytes. The stack is the caller's to give: that of
//! the main thread by `ulimit -s`, that of others by `Builder::stack_size`. The package oracle/port, and with it ./lower and the
//! comparisons, calls the library through this file too.

mod library {
    extern "C" {
        pub fn struo_check(
            image: *const u8,
            image_len: usize,
            n: u32,
            p: u32,
            netlist_words: usize,
            scratch_words: usize,
            answer: *mut [u32; 3],
        );
        pub fn struo_lower(
            image: *const u8,
            image_len: usize,
            n: u32,
            p: u32,
            netlist: *mut u32,
            netlist_len: usize,
            scratch: *mut u32,
            scratch_len: usize,
            answer: *mut [u32; 3],
        );
        pub fn struo_netlist_check(netlist: *const u32, netlist_len: usize, answer: *mut [u32; 3]);
        pub fn struo_netlist_node(netlist: *const u32, netlist_len: usize, net: u32, node: *mut [u32; 6]) -> u32;
        pub fn struo_netlist_record(netlist: *const u32, netlist_len: usize, at: u32, record: *mut [u32; 3]) -> u32;
    }
}

/// A refusal's number and its two places; all 0 for acceptance. include/struo.h says what each number means.
pub type Answer = [u32; 3];

pub const ACCEPTED: Answer = [0, 0, 0];

/// What each word that a call writes holds before it, so that one left unwritten shows.
const UNWRITTEN: u32 = 0xdead_beef;

/// Words that the netlist buffer must have.
pub fn netlist_words(n: u32, p: u32) -> usize {
    16 + 6 * n as usize + p as usize
}

/// Words of scratch that serve every image.
pub fn most_scratch_words(n: u32) -> usize {
    4 * 4_096 + 32_768 + 8 * 2_048 + 4 * n as usize + 64
}

/// Refusals 1 to 5, for buffers of so many words.
pub fn check(image: &[u8], n: u32, p: u32, netlist_words: usize, scratch_words: usize) -> Answer {
    let mut answer = [UNWRITTEN; 3];
    // SAFETY: `image` is read for its length and `answer` is written.
    unsafe { library::struo_check(image.as_ptr(), image.len(), n, p, netlist_words, scratch_words, &mut answer) };
    answer
}

/// Refusals 1 to 10; after acceptance `netlist` begins with the netlist image.
pub fn lower(image: &[u8], n: u32, p: u32, netlist: &mut [u32], scratch: &mut [u32]) -> Answer {
    let mut answer = [UNWRITTEN; 3];
    // SAFETY: `image` is read, the two buffers are read and written, each for its length, and `answer` is written.
    unsafe {
        library::struo_lower(
            image.as_ptr(),
            image.len(),
            n,
            p,
            netlist.as_mut_ptr(),
            netlist.len(),
            scratch.as_mut_ptr(),
            scratch.len(),
            &mut answer,
        )
    };
    answer
}

/// Refusal 11 of a stored netlist image.
pub fn netlist_check(netlist: &[u32]) -> Answer {
    let mut answer = [UNWRITTEN; 3];
    // SAFETY: `netlist` is read for its length and `answer` is written.
    unsafe { library::struo_netlist_check(netlist.as_ptr(), netlist.len(), &mut answer) };
    answer
}

/// The six words of a net's node: kind, owner or value, bit, three inputs.
pub fn netlist_node(netlist: &[u32], net: u32) -> Option<[u32; 6]> {
    let (given, node) = netlist_node_numbers(netlist, net);
    (given == 1).then_some(node)
}

/// The record that begins at list word `at`: its sort, its length, the list word at which the next one begins.
pub fn netlist_record(netlist: &[u32], at: u32) -> Option<[u32; 3]> {
    let (given, record) = netlist_record_numbers(netlist, at);
    (given == 1).then_some(record)
}

/// All numbers that struo_netlist_node gives, for tests: 1 and the node's words, or 0 and zeros.
pub fn netlist_node_numbers(netlist: &[u32], net: u32) -> (u32, [u32; 6]) {
    let mut node = [UNWRITTEN; 6];
    // SAFETY: `netlist` is read for its length and `node` is written.
    let given = unsafe { library::struo_netlist_node(netlist.as_ptr(), netlist.len(), net, &mut node) };
    (given, node)
}

/// All numbers that struo_netlist_record gives, likewise.
pub fn netlist_record_numbers(netlist: &[u32], at: u32) -> (u32, [u32; 3]) {
    let mut record = [UNWRITTEN; 3];
    // SAFETY: `netlist` is read for its length and `record` is written.
    let given = unsafe { library::struo_netlist_record(netlist.as_ptr(), netlist.len(), at, &mut record) };
    (given, record)
}
