//! The C declarations of the library, as `include/woodcrock.h` has them, for callers that want the
//! calls themselves. What a caller owes stands in the header; the functions of the crate owe it for
//! you.

/// The answer of a lister.
#[repr(C)]
#[derive(Clone, Copy, PartialEq, Eq, Debug)]
pub struct Answer {
    pub ground: u32,
    pub place: u32,
    pub pairs: u32,
    pub peak: u32,
}

/// The answer of the value finder.
#[repr(C)]
#[derive(Clone, Copy, PartialEq, Eq, Debug)]
pub struct Value {
    pub ground: u32,
    pub place: usize,
    pub end: usize,
}

/// The answer of the writer of a path.
#[repr(C)]
#[derive(Clone, Copy, PartialEq, Eq, Debug)]
pub struct Written {
    pub ground: u32,
    pub place: usize,
    pub length: usize,
}

/// The answer of the bound on the pile.
#[repr(C)]
#[derive(Clone, Copy, PartialEq, Eq, Debug)]
pub struct Bound {
    pub ground: u32,
    pub place: usize,
    pub bounded: bool,
    pub frames: u32,
}

/// The words of a block and the two facts for the next one.
#[repr(C)]
#[derive(Clone, Copy, PartialEq, Eq, Hash, Debug)]
pub struct Words {
    /// Real quotes: an even run of backslashes stands before them.
    pub quotes: u64,
    /// The real quotes up to and with this byte are odd in number.
    pub strings: u64,
    /// `[` and `{` outside strings.
    pub opening: u64,
    /// `]` and `}` outside strings.
    pub closing: u64,
    /// The next block begins inside a string.
    pub inside: bool,
    /// An odd run of backslashes stands just before the next block.
    pub odd: bool,
}

/// The declaration of a lister.
pub type Lister = unsafe extern "C" fn(
    query: *const u8,
    query_len: usize,
    record: *const u8,
    record_len: usize,
    list: *mut u32,
    list_len: usize,
) -> Answer;

extern "C" {
    /// The plain walk.
    pub fn woodcrock_list_plain(
        query: *const u8,
        query_len: usize,
        record: *const u8,
        record_len: usize,
        list: *mut u32,
        list_len: usize,
    ) -> Answer;
    /// The jumping walk.
    pub fn woodcrock_list_jumping(
        query: *const u8,
        query_len: usize,
        record: *const u8,
        record_len: usize,
        list: *mut u32,
        list_len: usize,
    ) -> Answer;
    /// The value finder.
    pub fn woodcrock_find_value(record: *const u8, record_len: usize, offset: usize) -> Value;
    /// The writer of a path.
    pub fn woodcrock_write_path(
        record: *const u8,
        record_len: usize,
        offset: usize,
        buffer: *mut u8,
        buffer_len: usize,
    ) -> Written;
    /// The bound on the pile.
    pub fn woodcrock_bound_pile(query: *const u8, query_len: usize) -> Bound;
    /// The block sorter.
    pub fn woodcrock_sort_block(rest: *const u8, rest_len: usize, inside: bool, odd: bool)
        -> Words;
}
