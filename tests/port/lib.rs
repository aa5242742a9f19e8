//! The calls of the static library `libresource_manager.a`, for Rust.

/// A slice as it stands in memory.
#[repr(C)]
struct Bytes {
    start: *const u8,
    length: usize,
}

/// The queries that a board watches, at the most.
const QUERIES: usize = 32;

// A slice passes as a pointer and a count of elements, an array as a pointer.
extern "C" {
    fn resource_manager_read(
        text: *const u8,
        text_length: usize,
        shelf: *const u8,
        shelf_length: usize,
        contents: *mut u16,
        contents_length: usize,
        bodies: *mut u8,
        bodies_length: usize,
    ) -> u64;
    fn resource_manager_read_depth(
        text: *const u8,
        text_length: usize,
        shelf: *const u8,
        shelf_length: usize,
        depth: u64,
        contents: *mut u16,
        contents_length: usize,
        bodies: *mut u8,
        bodies_length: usize,
    ) -> u64;
    fn resource_manager_read_default_depth(
        property_format: u8,
        property: *const u8,
        property_length: usize,
        xresources_read: u8,
        xresources: *const u8,
        xresources_length: usize,
        xdefaults_read: u8,
        xdefaults: *const u8,
        xdefaults_length: usize,
        xenvironment_set: u8,
        xenvironment_read: u8,
        xenvironment: *const u8,
        xenvironment_length: usize,
        host_read: u8,
        host: *const u8,
        host_length: usize,
        shelf: *const u8,
        shelf_length: usize,
        depth: u64,
        contents: *mut u16,
        contents_length: usize,
        bodies: *mut u8,
        bodies_length: usize,
    ) -> u64;
    fn resource_manager_compare_without_depth(
        text: *const u8,
        text_length: usize,
        shelf: *const u8,
        shelf_length: usize,
        depth: u64,
        file: usize,
        name: *const u8,
        name_length: usize,
        class: *const u8,
        class_length: usize,
        struck: *mut u8,
        struck_length: usize,
        contents: *mut u16,
        contents_length: usize,
        bodies: *mut u8,
        bodies_length: usize,
        contents_without: *mut u16,
        contents_without_length: usize,
        bodies_without: *mut u8,
        bodies_without_length: usize,
        with_it: *mut u64,
        without: *mut u64,
    ) -> u64;

    fn resource_manager_read_default(
        property_format: u8,
        property: *const u8,
        property_length: usize,
        xresources_read: u8,
        xresources: *const u8,
        xresources_length: usize,
        xdefaults_read: u8,
        xdefaults: *const u8,
        xdefaults_length: usize,
        xenvironment_set: u8,
        xenvironment_read: u8,
        xenvironment: *const u8,
        xenvironment_length: usize,
        host_read: u8,
        host: *const u8,
        host_length: usize,
        shelf: *const u8,
        shelf_length: usize,
        contents: *mut u16,
        contents_length: usize,
        bodies: *mut u8,
        bodies_length: usize,
    ) -> u64;

    fn resource_manager_migrate(
        old_contents: *const u16,
        old_contents_length: usize,
        old_bodies: *const u8,
        old_bodies_length: usize,
        contents: *mut u16,
        contents_length: usize,
        bodies: *mut u8,
        bodies_length: usize,
    ) -> u64;

    fn resource_manager_get_bytes(
        contents: *const u16,
        contents_length: usize,
        bodies: *const u8,
        bodies_length: usize,
        name: *const u8,
        name_length: usize,
        class: *const u8,
        class_length: usize,
    ) -> u64;

    fn resource_manager_show(
        contents: *const u16,
        contents_length: usize,
        bodies: *const u8,
        bodies_length: usize,
        name: *const u8,
        name_length: usize,
        class: *const u8,
        class_length: usize,
        shown: *mut Bytes,
    ) -> u64;

    fn resource_manager_get_string(
        contents: *const u16,
        contents_length: usize,
        bodies: *const u8,
        bodies_length: usize,
        name: *const u8,
        name_length: usize,
        class: *const u8,
        class_length: usize,
    ) -> u64;

    fn resource_manager_get_bool(
        contents: *const u16,
        contents_length: usize,
        bodies: *const u8,
        bodies_length: usize,
        name: *const u8,
        name_length: usize,
        class: *const u8,
        class_length: usize,
    ) -> u64;

    fn resource_manager_get_value(
        contents: *const u16,
        contents_length: usize,
        bodies: *const u8,
        bodies_length: usize,
        name: *const u8,
        name_length: usize,
        class: *const u8,
        class_length: usize,
        out: *mut i64,
    ) -> u64;

    fn resource_manager_window_get_bytes(
        contents: *const u16,
        contents_length: usize,
        bodies: *const u8,
        bodies_length: usize,
        name: *const u8,
        name_length: usize,
        class: *const u8,
        class_length: usize,
    ) -> u64;

    fn resource_manager_window_show(
        contents: *const u16,
        contents_length: usize,
        bodies: *const u8,
        bodies_length: usize,
        name: *const u8,
        name_length: usize,
        class: *const u8,
        class_length: usize,
        shown: *mut Bytes,
    ) -> u64;

    fn resource_manager_window_get_string(
        contents: *const u16,
        contents_length: usize,
        bodies: *const u8,
        bodies_length: usize,
        name: *const u8,
        name_length: usize,
        class: *const u8,
        class_length: usize,
    ) -> u64;

    fn resource_manager_window_get_bool(
        contents: *const u16,
        contents_length: usize,
        bodies: *const u8,
        bodies_length: usize,
        name: *const u8,
        name_length: usize,
        class: *const u8,
        class_length: usize,
    ) -> u64;

    fn resource_manager_window_get_value(
        contents: *const u16,
        contents_length: usize,
        bodies: *const u8,
        bodies_length: usize,
        name: *const u8,
        name_length: usize,
        class: *const u8,
        class_length: usize,
        out: *mut i64,
    ) -> u64;

    fn resource_manager_write(
        contents: *const u16,
        contents_length: usize,
        bodies: *const u8,
        bodies_length: usize,
        text: *mut u8,
        text_length: usize,
    ) -> u64;

    fn resource_manager_walk_start(
        contents: *const u16,
        contents_count: usize,
        bodies: *const u8,
        bodies_count: usize,
        name: *const u8,
        name_count: usize,
        class: *const u8,
        class_count: usize,
        next: *mut u16,
        count: *mut u16,
    ) -> u64;
    fn resource_manager_walk_step(
        contents: *const u16,
        contents_count: usize,
        bodies: *const u8,
        bodies_count: usize,
        name: *const u8,
        name_count: usize,
        class: *const u8,
        class_count: usize,
        next: *mut u16,
        count: u16,
    ) -> u64;
    fn resource_manager_add(
        contents: *mut u16,
        contents_count: usize,
        bodies: *mut u8,
        bodies_count: usize,
        text: *const u8,
        text_count: usize,
    ) -> u64;
    fn resource_manager_board_make(words: *mut u16, words_count: usize, bytes: *mut u8, bytes_count: usize) -> u64;
    fn resource_manager_board_watch(
        words: *mut u16,
        words_count: usize,
        bytes: *mut u8,
        bytes_count: usize,
        name: *const u8,
        name_count: usize,
        class: *const u8,
        class_count: usize,
    ) -> u64;
    fn resource_manager_board_arrive(
        words: *mut u16,
        words_count: usize,
        bytes: *mut u8,
        bytes_count: usize,
        number: u16,
        contents: *const u16,
        contents_count: usize,
        bodies: *const u8,
        bodies_count: usize,
    ) -> u64;
    fn resource_manager_board_leave(words: *mut u16, words_count: usize, bytes: *mut u8, bytes_count: usize, number: u16) -> u64;
    fn resource_manager_board_answer(
        words: *const u16,
        words_count: usize,
        bytes: *const u8,
        bytes_count: usize,
        query: u16,
        pack: *mut u16,
    ) -> u64;
    fn resource_manager_board_answers(
        words: *const u16,
        words_count: usize,
        bytes: *const u8,
        bytes_count: usize,
        answers: *mut [u64; QUERIES],
        packs: *mut [u16; QUERIES],
    ) -> u64;
    fn resource_manager_board_report(
        words: *const u16,
        words_count: usize,
        bytes: *const u8,
        bytes_count: usize,
        number: u16,
    ) -> u64;
    fn resource_manager_compare_without(
        text: *const u8,
        text_length: usize,
        shelf: *const u8,
        shelf_length: usize,
        file: usize,
        name: *const u8,
        name_length: usize,
        class: *const u8,
        class_length: usize,
        struck: *mut u8,
        struck_length: usize,
        contents: *mut u16,
        contents_length: usize,
        bodies: *mut u8,
        bodies_length: usize,
        contents_without: *mut u16,
        contents_without_length: usize,
        bodies_without: *mut u8,
        bodies_without_length: usize,
        with_it: *mut u64,
        without: *mut u64,
    ) -> u64;

    fn resource_manager_compare_default_without(
        property_format: u8,
        property: *const u8,
        property_length: usize,
        xresources_read: u8,
        xresources: *const u8,
        xresources_length: usize,
        xdefaults_read: u8,
        xdefaults: *const u8,
        xdefaults_length: usize,
        xenvironment_set: u8,
        xenvironment_read: u8,
        xenvironment: *const u8,
        xenvironment_length: usize,
        host_read: u8,
        host: *const u8,
        host_length: usize,
        shelf: *const u8,
        shelf_length: usize,
        file: usize,
        name: *const u8,
        name_length: usize,
        class: *const u8,
        class_length: usize,
        struck: *mut u8,
        struck_length: usize,
        contents: *mut u16,
        contents_length: usize,
        bodies: *mut u8,
        bodies_length: usize,
        contents_without: *mut u16,
        contents_without_length: usize,
        bodies_without: *mut u8,
        bodies_without_length: usize,
        with_it: *mut u64,
        without: *mut u64,
    ) -> u64;
}

/// The depth of x11rb, which `read` and `read_word` give.
pub const RUSTS_DEPTH: u64 = 100;

/// Reads a main text with a shelf into a database image, at the Rust's depth: entries and opens, or the number of the refusal.
pub fn read(text: &[u8], shelf: &[u8], contents: &mut [u16], bodies: &mut [u8]) -> Result<(usize, usize), u16> {
    let word = read_word(text, shelf, contents, bodies);
    let bits = |from: u32| (word >> from) as u16;
    match bits(0) {
        0 => Ok((bits(16).into(), bits(32).into())),
        number => Err(number),
    }
}

/// As `read`, with the word that the call returns: 0 or the refusal's number in bits 0 to 15, entries
/// in bits 16 to 31, opens in bits 32 to 47.
pub fn read_word(text: &[u8], shelf: &[u8], contents: &mut [u16], bodies: &mut [u8]) -> u64 {
    read_depth_word(text, shelf, RUSTS_DEPTH, contents, bodies)
}

/// The same at a depth.
pub fn read_depth_word(text: &[u8], shelf: &[u8], depth: u64, contents: &mut [u16], bodies: &mut [u8]) -> u64 {
    // SAFETY: each pointer and count are those of a slice that is borrowed for the call, the last two
    // for writing. The call is proved to stay within them and to keep nothing.
    unsafe {
        resource_manager_read_depth(
            text.as_ptr(),
            text.len(),
            shelf.as_ptr(),
            shelf.len(),
            depth,
            contents.as_mut_ptr(),
            contents.len(),
            bodies.as_mut_ptr(),
            bodies.len(),
        )
    }
}

/// The same by the call that is given no depth.
pub fn read_plain_word(text: &[u8], shelf: &[u8], contents: &mut [u16], bodies: &mut [u8]) -> u64 {
    // SAFETY: as for `read_depth_word`.
    unsafe {
        resource_manager_read(
            text.as_ptr(),
            text.len(),
            shelf.as_ptr(),
            shelf.len(),
            contents.as_mut_ptr(),
            contents.len(),
            bodies.as_mut_ptr(),
            bodies.len(),
        )
    }
}

/// A text of a start-up, and whether it could be read: a flag, which is no if it is 0, and yes otherwise.
#[derive(Clone, Copy, Debug, Default)]
pub struct Text<'a> {
    pub read: u8,
    pub bytes: &'a [u8],
}

/// What a start-up lends.
#[derive(Clone, Copy, Debug, Default)]
pub struct StartUp<'a> {
    pub format: u8,
    pub property: &'a [u8],
    pub xresources: Text<'a>,
    pub xdefaults: Text<'a>,
    pub xenvironment_set: u8,
    pub xenvironment: Text<'a>,
    pub host: Text<'a>,
}

/// As `read_word`, of the texts that a start-up uses, by the call that is given no depth.
pub fn read_default_word(start_up: &StartUp, shelf: &[u8], contents: &mut [u16], bodies: &mut [u8]) -> u64 {
    let StartUp { format, property, xresources, xdefaults, xenvironment_set, xenvironment, host } = *start_up;
    // SAFETY: as for `read_word`.
    unsafe {
        resource_manager_read_default(
            format,
            property.as_ptr(),
            property.len(),
            xresources.read,
            xresources.bytes.as_ptr(),
            xresources.bytes.len(),
            xdefaults.read,
            xdefaults.bytes.as_ptr(),
            xdefaults.bytes.len(),
            xenvironment_set,
            xenvironment.read,
            xenvironment.bytes.as_ptr(),
            xenvironment.bytes.len(),
            host.read,
            host.bytes.as_ptr(),
            host.bytes.len(),
            shelf.as_ptr(),
            shelf.len(),
            contents.as_mut_ptr(),
            contents.len(),
            bodies.as_mut_ptr(),
            bodies.len(),
        )
    }
}

/// The same at a depth.
pub fn read_default_depth_word(start_up: &StartUp, shelf: &[u8], depth: u64, contents: &mut [u16], bodies: &mut [u8]) -> u64 {
    let StartUp { format, property, xresources, xdefaults, xenvironment_set, xenvironment, host } = *start_up;
    // SAFETY: as for `read_word`.
    unsafe {
        resource_manager_read_default_depth(
            format,
            property.as_ptr(),
            property.len(),
            xresources.read,
            xresources.bytes.as_ptr(),
            xresources.bytes.len(),
            xdefaults.read,
            xdefaults.bytes.as_ptr(),
            xdefaults.bytes.len(),
            xenvironment_set,
            xenvironment.read,
            xenvironment.bytes.as_ptr(),
            xenvironment.bytes.len(),
            host.read,
            host.bytes.as_ptr(),
            host.bytes.len(),
            shelf.as_ptr(),
            shelf.len(),
            depth,
            contents.as_mut_ptr(),
            contents.len(),
            bodies.as_mut_ptr(),
            bodies.len(),
        )
    }
}

/// Declares a lookup that takes four slices for reading, with the word that the call returns.
macro_rules! lookup {
    ($(#[$said:meta])* $name:ident, $call:ident) => {
        $(#[$said])*
        pub fn $name(contents: &[u16], bodies: &[u8], name: &[u8], class: &[u8]) -> u64 {
            // SAFETY: each pointer and count are those of a slice that is borrowed for the call. The
            // call is proved to stay within them, to write nothing and to keep nothing.
            unsafe {
                $call(
                    contents.as_ptr(),
                    contents.len(),
                    bodies.as_ptr(),
                    bodies.len(),
                    name.as_ptr(),
                    name.len(),
                    class.as_ptr(),
                    class.len(),
                )
            }
        }
    };
}

lookup! {
    /// The value of a query: its place in bits 16 to 31 and its length from bit 32 on; 65535 for none,
    /// or the refusal's number.
    get_bytes_word, resource_manager_get_bytes
}

lookup! {
    /// The same for a value that is well-formed UTF-8; else 65535.
    get_string_word, resource_manager_get_string
}

lookup! {
    /// 65536 for true, 0 for false, 65535 for none, or the refusal's number.
    get_bool_word, resource_manager_get_bool
}

lookup! {
    /// As `get_bytes_word`, at the dictionary window's bounds. So are the others whose name begins with its.
    window_get_bytes_word, resource_manager_window_get_bytes
}

lookup! {
    window_get_string_word, resource_manager_window_get_string
}

lookup! {
    window_get_bool_word, resource_manager_window_get_bool
}

/// Declares a lookup that shows a value or a default.
macro_rules! show {
    ($(#[$said:meta])* $name:ident, $call:ident) => {
        $(#[$said])*
        pub fn $name<'a>(contents: &[u16], bodies: &'a [u8], name: &[u8], class: &[u8], shown: &mut &'a [u8]) -> u64 {
            let mut part = Bytes { start: shown.as_ptr(), length: shown.len() };
            // SAFETY: as for the other lookups; `part` is lent for writing. The call is proved to leave the default there or
            // a part of the bodies, and both live as long as `shown` says.
            unsafe {
                let word = $call(
                    contents.as_ptr(),
                    contents.len(),
                    bodies.as_ptr(),
                    bodies.len(),
                    name.as_ptr(),
                    name.len(),
                    class.as_ptr(),
                    class.len(),
                    &mut part,
                );
                *shown = std::slice::from_raw_parts(part.start, part.length);
                word
            }
        }
    };
}

show! {
    /// The word of `get_bytes_word`; `shown`, which is lent as the default, is the value's bytes afterwards if
    /// there is a value.
    show_word, resource_manager_show
}

show! {
    window_show_word, resource_manager_window_show
}

/// Declares a lookup that gives a number.
macro_rules! value {
    ($(#[$said:meta])* $name:ident, $call:ident) => {
        $(#[$said])*
        pub fn $name(contents: &[u16], bodies: &[u8], name: &[u8], class: &[u8], out: &mut i64) -> u64 {
            // SAFETY: as for the other lookups; `out` is borrowed for writing.
            unsafe {
                $call(
                    contents.as_ptr(),
                    contents.len(),
                    bodies.as_ptr(),
                    bodies.len(),
                    name.as_ptr(),
                    name.len(),
                    class.as_ptr(),
                    class.len(),
                    out,
                )
            }
        }
    };
}

value! {
    /// 0 with the number in `out`; or, with `out` as it was, 65534 if the value is not a number, 65535 for
    /// none, or the refusal's number.
    get_value_word, resource_manager_get_value
}

value! {
    window_get_value_word, resource_manager_window_get_value
}

/// Writes an image out into a lent buffer: the text's length from bit 32 on; or, with the buffer as it was, 8 if there is no image,
/// 11 if the buffer is shorter than the text.
pub fn write_word(contents: &[u16], bodies: &[u8], text: &mut [u8]) -> u64 {
    // SAFETY: as for the lookups; `text` is borrowed for writing.
    unsafe {
        resource_manager_write(contents.as_ptr(), contents.len(), bodies.as_ptr(), bodies.len(), text.as_mut_ptr(), text.len())
    }
}

/// Carries an old image over into new buffers: the entry count from bit 16 on; or, with the buffers as they were, 8 if there is no
/// old image, 1 if they are too short.
pub fn migrate_word(old_contents: &[u16], old_bodies: &[u8], contents: &mut [u16], bodies: &mut [u8]) -> u64 {
    // SAFETY: as for the reading; the old image is borrowed for reading.
    unsafe {
        resource_manager_migrate(
            old_contents.as_ptr(),
            old_contents.len(),
            old_bodies.as_ptr(),
            old_bodies.len(),
            contents.as_mut_ptr(),
            contents.len(),
            bodies.as_mut_ptr(),
            bodies.len(),
        )
    }
}

/// Begins a walk: 0 with 0 in `next` and the image's entry count in `count`; or the refusal's number, with both as they were.
pub fn walk_start_word(contents: &[u16], bodies: &[u8], name: &[u8], class: &[u8], next: &mut u16, count: &mut u16) -> u64 {
    // SAFETY: as for the lookups; `next` and `count` are borrowed for writing.
    unsafe {
        resource_manager_walk_start(
            contents.as_ptr(),
            contents.len(),
            bodies.as_ptr(),
            bodies.len(),
            name.as_ptr(),
            name.len(),
            class.as_ptr(),
            class.len(),
            next,
            count,
        )
    }
}

/// A step of a walk: the number of an entry from bit 16 on, with one more in `next`; or, with `next` as it was, 65535 at the end,
/// or the refusal's number.
pub fn walk_step_word(contents: &[u16], bodies: &[u8], name: &[u8], class: &[u8], next: &mut u16, count: u16) -> u64 {
    // SAFETY: as for the lookups; `next` is borrowed for writing.
    unsafe {
        resource_manager_walk_step(
            contents.as_ptr(),
            contents.len(),
            bodies.as_ptr(),
            bodies.len(),
            name.as_ptr(),
            name.len(),
            class.as_ptr(),
            class.len(),
            next,
            count,
        )
    }
}

/// Adds the entry that a text makes to an image: its number from bit 16 on; or the refusal's number, with both buffers as they
/// were.
pub fn add_word(contents: &mut [u16], bodies: &mut [u8], text: &[u8]) -> u64 {
    // SAFETY: as for the reading; the buffers are borrowed for writing.
    unsafe {
        resource_manager_add(contents.as_mut_ptr(), contents.len(), bodies.as_mut_ptr(), bodies.len(), text.as_ptr(), text.len())
    }
}

/// Makes an empty board: 0, or 1.
pub fn board_make_word(words: &mut [u16], bytes: &mut [u8]) -> u64 {
    // SAFETY: as for the reading; the buffers are borrowed for writing. So are those of the other calls of a board.
    unsafe { resource_manager_board_make(words.as_mut_ptr(), words.len(), bytes.as_mut_ptr(), bytes.len()) }
}

/// The number of the query that is watched from now on, from bit 16 on; or the refusal's number.
pub fn board_watch_word(words: &mut [u16], bytes: &mut [u8], name: &[u8], class: &[u8]) -> u64 {
    // SAFETY: as above.
    unsafe {
        resource_manager_board_watch(
            words.as_mut_ptr(),
            words.len(),
            bytes.as_mut_ptr(),
            bytes.len(),
            name.as_ptr(),
            name.len(),
            class.as_ptr(),
            class.len(),
        )
    }
}

/// A pack arrives: 0, or the refusal's number.
pub fn board_arrive_word(words: &mut [u16], bytes: &mut [u8], number: u16, contents: &[u16], bodies: &[u8]) -> u64 {
    // SAFETY: as above.
    unsafe {
        resource_manager_board_arrive(
            words.as_mut_ptr(),
            words.len(),
            bytes.as_mut_ptr(),
            bytes.len(),
            number,
            contents.as_ptr(),
            contents.len(),
            bodies.as_ptr(),
            bodies.len(),
        )
    }
}

/// A pack leaves: 0, or the refusal's number.
pub fn board_leave_word(words: &mut [u16], bytes: &mut [u8], number: u16) -> u64 {
    // SAFETY: as above.
    unsafe { resource_manager_board_leave(words.as_mut_ptr(), words.len(), bytes.as_mut_ptr(), bytes.len(), number) }
}

/// The answer of a watched query, as `get_bytes_word` gives it, with the pack's number in `pack` where there is a value.
pub fn board_answer_word(words: &[u16], bytes: &[u8], query: u16, pack: &mut u16) -> u64 {
    // SAFETY: as for the lookups; the pack's number is borrowed for writing.
    unsafe { resource_manager_board_answer(words.as_ptr(), words.len(), bytes.as_ptr(), bytes.len(), query, pack) }
}

/// All watched answers: how many, from bit 16 on, with what `board_answer_word` gives and leaves for each number in both arrays; or the refusal's
/// number.
pub fn board_answers_word(words: &[u16], bytes: &[u8], answers: &mut [u64; QUERIES], packs: &mut [u16; QUERIES]) -> u64 {
    // SAFETY: as for the lookups; both arrays are borrowed for writing.
    unsafe { resource_manager_board_answers(words.as_ptr(), words.len(), bytes.as_ptr(), bytes.len(), answers, packs) }
}

/// Which answers the leaving of a pack would change, a bit for each query from bit 32 on; or the refusal's number.
pub fn board_report_word(words: &[u16], bytes: &[u8], number: u16) -> u64 {
    // SAFETY: as for the lookups.
    unsafe { resource_manager_board_report(words.as_ptr(), words.len(), bytes.as_ptr(), bytes.len(), number) }
}

/// What `compare_without_word` writes: the shelf with the file struck off, an image with the file and
/// one without it, and the words of both lookups.
pub struct Lent<'a> {
    pub struck: &'a mut [u8],
    pub contents: &'a mut [u16],
    pub bodies: &'a mut [u8],
    pub contents_without: &'a mut [u16],
    pub bodies_without: &'a mut [u8],
    pub with_it: &'a mut u64,
    pub without: &'a mut u64,
}

/// Reads a main text with a shelf at a depth and again with one of its files struck off, and looks a query up in
/// both images: 0 with the words of both lookups; or, with these as they were, 65535 if the shelf has no
/// such file, or the refusal's number.
pub fn compare_without_word(text: &[u8], shelf: &[u8], depth: u64, file: usize, name: &[u8], class: &[u8], lent: Lent) -> u64 {
    // SAFETY: as for the other calls; all that `lent` has is borrowed for writing.
    unsafe {
        resource_manager_compare_without_depth(
            text.as_ptr(),
            text.len(),
            shelf.as_ptr(),
            shelf.len(),
            depth,
            file,
            name.as_ptr(),
            name.len(),
            class.as_ptr(),
            class.len(),
            lent.struck.as_mut_ptr(),
            lent.struck.len(),
            lent.contents.as_mut_ptr(),
            lent.contents.len(),
            lent.bodies.as_mut_ptr(),
            lent.bodies.len(),
            lent.contents_without.as_mut_ptr(),
            lent.contents_without.len(),
            lent.bodies_without.as_mut_ptr(),
            lent.bodies_without.len(),
            lent.with_it,
            lent.without,
        )
    }
}

/// The same by the call that is given no depth.
pub fn compare_plain_without_word(text: &[u8], shelf: &[u8], file: usize, name: &[u8], class: &[u8], lent: Lent) -> u64 {
    // SAFETY: as for the other calls; all that `lent` has is borrowed for writing.
    unsafe {
        resource_manager_compare_without(
            text.as_ptr(),
            text.len(),
            shelf.as_ptr(),
            shelf.len(),
            file,
            name.as_ptr(),
            name.len(),
            class.as_ptr(),
            class.len(),
            lent.struck.as_mut_ptr(),
            lent.struck.len(),
            lent.contents.as_mut_ptr(),
            lent.contents.len(),
            lent.bodies.as_mut_ptr(),
            lent.bodies.len(),
            lent.contents_without.as_mut_ptr(),
            lent.contents_without.len(),
            lent.bodies_without.as_mut_ptr(),
            lent.bodies_without.len(),
            lent.with_it,
            lent.without,
        )
    }
}

/// As `compare_without_word`, of the texts that a start-up uses.
pub fn compare_default_without_word(start_up: &StartUp, shelf: &[u8], file: usize, name: &[u8], class: &[u8], lent: Lent) -> u64 {
    let StartUp { format, property, xresources, xdefaults, xenvironment_set, xenvironment, host } = *start_up;
    // SAFETY: as for `compare_without_word`.
    unsafe {
        resource_manager_compare_default_without(
            format,
            property.as_ptr(),
            property.len(),
            xresources.read,
            xresources.bytes.as_ptr(),
            xresources.bytes.len(),
            xdefaults.read,
            xdefaults.bytes.as_ptr(),
            xdefaults.bytes.len(),
            xenvironment_set,
            xenvironment.read,
            xenvironment.bytes.as_ptr(),
            xenvironment.bytes.len(),
            host.read,
            host.bytes.as_ptr(),
            host.bytes.len(),
            shelf.as_ptr(),
            shelf.len(),
            file,
            name.as_ptr(),
            name.len(),
            class.as_ptr(),
            class.len(),
            lent.struck.as_mut_ptr(),
            lent.struck.len(),
            lent.contents.as_mut_ptr(),
            lent.contents.len(),
            lent.bodies.as_mut_ptr(),
            lent.bodies.len(),
            lent.contents_without.as_mut_ptr(),
            lent.contents_without.len(),
            lent.bodies_without.as_mut_ptr(),
            lent.bodies_without.len(),
            lent.with_it,
            lent.without,
        )
    }
}
