//! The calls of the static library, as `include/resource_manager.h` declares them. All unsafe code of the crate is here.

#![allow(unsafe_code)]

use crate::limits::QUERIES;
use crate::StartUp;

/// A lookup but `resource_manager_get_value`. A slice passes as a pointer and a count of elements.
type Lookup = unsafe extern "C" fn(
    contents: *const u16,
    contents_count: usize,
    bodies: *const u8,
    bodies_count: usize,
    name: *const u8,
    name_count: usize,
    class: *const u8,
    class_count: usize,
) -> u64;

/// `resource_manager_show`, and the dictionary window's.
type Show = unsafe extern "C" fn(
    contents: *const u16,
    contents_count: usize,
    bodies: *const u8,
    bodies_count: usize,
    name: *const u8,
    name_count: usize,
    class: *const u8,
    class_count: usize,
    shown: *mut Bytes,
) -> u64;

/// `resource_manager_get_value`, and the dictionary window's.
type Number = unsafe extern "C" fn(
    contents: *const u16,
    contents_count: usize,
    bodies: *const u8,
    bodies_count: usize,
    name: *const u8,
    name_count: usize,
    class: *const u8,
    class_count: usize,
    out: *mut i64,
) -> u64;

/// A slice as it stands in memory.
#[repr(C)]
struct Bytes {
    start: *const u8,
    count: usize,
}

extern "C" {
    fn resource_manager_migrate(
        old_contents: *const u16,
        old_contents_count: usize,
        old_bodies: *const u8,
        old_bodies_count: usize,
        contents: *mut u16,
        contents_count: usize,
        bodies: *mut u8,
        bodies_count: usize,
    ) -> u64;
    fn resource_manager_read(
        text: *const u8,
        text_count: usize,
        shelf: *const u8,
        shelf_count: usize,
        contents: *mut u16,
        contents_count: usize,
        bodies: *mut u8,
        bodies_count: usize,
    ) -> u64;

    fn resource_manager_read_depth(
        text: *const u8,
        text_count: usize,
        shelf: *const u8,
        shelf_count: usize,
        depth: u64,
        contents: *mut u16,
        contents_count: usize,
        bodies: *mut u8,
        bodies_count: usize,
    ) -> u64;

    fn resource_manager_get_bytes(
        contents: *const u16,
        contents_count: usize,
        bodies: *const u8,
        bodies_count: usize,
        name: *const u8,
        name_count: usize,
        class: *const u8,
        class_count: usize,
    ) -> u64;

    fn resource_manager_show(
        contents: *const u16,
        contents_count: usize,
        bodies: *const u8,
        bodies_count: usize,
        name: *const u8,
        name_count: usize,
        class: *const u8,
        class_count: usize,
        shown: *mut Bytes,
    ) -> u64;

    fn resource_manager_get_string(
        contents: *const u16,
        contents_count: usize,
        bodies: *const u8,
        bodies_count: usize,
        name: *const u8,
        name_count: usize,
        class: *const u8,
        class_count: usize,
    ) -> u64;

    fn resource_manager_get_bool(
        contents: *const u16,
        contents_count: usize,
        bodies: *const u8,
        bodies_count: usize,
        name: *const u8,
        name_count: usize,
        class: *const u8,
        class_count: usize,
    ) -> u64;

    fn resource_manager_get_value(
        contents: *const u16,
        contents_count: usize,
        bodies: *const u8,
        bodies_count: usize,
        name: *const u8,
        name_count: usize,
        class: *const u8,
        class_count: usize,
        out: *mut i64,
    ) -> u64;

    fn resource_manager_window_get_bytes(
        contents: *const u16,
        contents_count: usize,
        bodies: *const u8,
        bodies_count: usize,
        name: *const u8,
        name_count: usize,
        class: *const u8,
        class_count: usize,
    ) -> u64;

    fn resource_manager_window_show(
        contents: *const u16,
        contents_count: usize,
        bodies: *const u8,
        bodies_count: usize,
        name: *const u8,
        name_count: usize,
        class: *const u8,
        class_count: usize,
        shown: *mut Bytes,
    ) -> u64;

    fn resource_manager_window_get_string(
        contents: *const u16,
        contents_count: usize,
        bodies: *const u8,
        bodies_count: usize,
        name: *const u8,
        name_count: usize,
        class: *const u8,
        class_count: usize,
    ) -> u64;

    fn resource_manager_window_get_bool(
        contents: *const u16,
        contents_count: usize,
        bodies: *const u8,
        bodies_count: usize,
        name: *const u8,
        name_count: usize,
        class: *const u8,
        class_count: usize,
    ) -> u64;

    fn resource_manager_window_get_value(
        contents: *const u16,
        contents_count: usize,
        bodies: *const u8,
        bodies_count: usize,
        name: *const u8,
        name_count: usize,
        class: *const u8,
        class_count: usize,
        out: *mut i64,
    ) -> u64;

    fn resource_manager_write(
        contents: *const u16,
        contents_count: usize,
        bodies: *const u8,
        bodies_count: usize,
        text: *mut u8,
        text_count: usize,
    ) -> u64;

    fn resource_manager_walk_start(
        contents: *const u16,
        contents_count: usize,
        bodies: *const u8,
        bodies_count: usize,
        name: *const u8,
        name_count: usize,
        class: *const u8,
        class_count: usize,
        next: *mut u16,
        count: *mut u16,
    ) -> u64;

    fn resource_manager_walk_step(
        contents: *const u16,
        contents_count: usize,
        bodies: *const u8,
        bodies_count: usize,
        name: *const u8,
        name_count: usize,
        class: *const u8,
        class_count: usize,
        next: *mut u16,
        count: u16,
    ) -> u64;

    fn resource_manager_add(
        contents: *mut u16,
        contents_count: usize,
        bodies: *mut u8,
        bodies_count: usize,
        text: *const u8,
        text_count: usize,
    ) -> u64;

    fn resource_manager_board_make(words: *mut u16, words_count: usize, bytes: *mut u8, bytes_count: usize) -> u64;

    fn resource_manager_board_watch(
        words: *mut u16,
        words_count: usize,
        bytes: *mut u8,
        bytes_count: usize,
        name: *const u8,
        name_count: usize,
        class: *const u8,
        class_count: usize,
    ) -> u64;

    fn resource_manager_board_arrive(
        words: *mut u16,
        words_count: usize,
        bytes: *mut u8,
        bytes_count: usize,
        number: u16,
        contents: *const u16,
        contents_count: usize,
        bodies: *const u8,
        bodies_count: usize,
    ) -> u64;

    fn resource_manager_board_leave(words: *mut u16, words_count: usize, bytes: *mut u8, bytes_count: usize, number: u16) -> u64;

    fn resource_manager_board_answer(
        words: *const u16,
        words_count: usize,
        bytes: *const u8,
        bytes_count: usize,
        query: u16,
        pack: *mut u16,
    ) -> u64;

    fn resource_manager_board_answers(
        words: *const u16,
        words_count: usize,
        bytes: *const u8,
        bytes_count: usize,
        answers: *mut [u64; QUERIES],
        packs: *mut [u16; QUERIES],
    ) -> u64;

    fn resource_manager_board_report(
        words: *const u16,
        words_count: usize,
        bytes: *const u8,
        bytes_count: usize,
        number: u16,
    ) -> u64;

    fn resource_manager_compare_without(
        text: *const u8,
        text_count: usize,
        shelf: *const u8,
        shelf_count: usize,
        file: usize,
        name: *const u8,
        name_count: usize,
        class: *const u8,
        class_count: usize,
        struck: *mut u8,
        struck_count: usize,
        contents: *mut u16,
        contents_count: usize,
        bodies: *mut u8,
        bodies_count: usize,
        contents_without: *mut u16,
        contents_without_count: usize,
        bodies_without: *mut u8,
        bodies_without_count: usize,
        with_it: *mut u64,
        without: *mut u64,
    ) -> u64;

    fn resource_manager_compare_without_depth(
        text: *const u8,
        text_count: usize,
        shelf: *const u8,
        shelf_count: usize,
        depth: u64,
        file: usize,
        name: *const u8,
        name_count: usize,
        class: *const u8,
        class_count: usize,
        struck: *mut u8,
        struck_count: usize,
        contents: *mut u16,
        contents_count: usize,
        bodies: *mut u8,
        bodies_count: usize,
        contents_without: *mut u16,
        contents_without_count: usize,
        bodies_without: *mut u8,
        bodies_without_count: usize,
        with_it: *mut u64,
        without: *mut u64,
    ) -> u64;

    fn resource_manager_read_default(
        property_format: u8,
        property: *const u8,
        property_count: usize,
        xresources_read: u8,
        xresources: *const u8,
        xresources_count: usize,
        xdefaults_read: u8,
        xdefaults: *const u8,
        xdefaults_count: usize,
        xenvironment_set: u8,
        xenvironment_read: u8,
        xenvironment: *const u8,
        xenvironment_count: usize,
        host_read: u8,
        host: *const u8,
        host_count: usize,
        shelf: *const u8,
        shelf_count: usize,
        contents: *mut u16,
        contents_count: usize,
        bodies: *mut u8,
        bodies_count: usize,
    ) -> u64;

    fn resource_manager_read_default_depth(
        property_format: u8,
        property: *const u8,
        property_count: usize,
        xresources_read: u8,
        xresources: *const u8,
        xresources_count: usize,
        xdefaults_read: u8,
        xdefaults: *const u8,
        xdefaults_count: usize,
        xenvironment_set: u8,
        xenvironment_read: u8,
        xenvironment: *const u8,
        xenvironment_count: usize,
        host_read: u8,
        host: *const u8,
        host_count: usize,
        shelf: *const u8,
        shelf_count: usize,
        depth: u64,
        contents: *mut u16,
        contents_count: usize,
        bodies: *mut u8,
        bodies_count: usize,
    ) -> u64;

    fn resource_manager_compare_default_without(
        property_format: u8,
        property: *const u8,
        property_count: usize,
        xresources_read: u8,
        xresources: *const u8,
        xresources_count: usize,
        xdefaults_read: u8,
        xdefaults: *const u8,
        xdefaults_count: usize,
        xenvironment_set: u8,
        xenvironment_read: u8,
        xenvironment: *const u8,
        xenvironment_count: usize,
        host_read: u8,
        host: *const u8,
        host_count: usize,
        shelf: *const u8,
        shelf_count: usize,
        file: usize,
        name: *const u8,
        name_count: usize,
        class: *const u8,
        class_count: usize,
        struck: *mut u8,
        struck_count: usize,
        contents: *mut u16,
        contents_count: usize,
        bodies: *mut u8,
        bodies_count: usize,
        contents_without: *mut u16,
        contents_without_count: usize,
        bodies_without: *mut u8,
        bodies_without_count: usize,
        with_it: *mut u64,
        without: *mut u64,
    ) -> u64;
}

/// The two buffers of a database image.
#[derive(Clone, Copy)]
pub(crate) struct Image<'a> {
    pub(crate) contents: &'a [u16],
    pub(crate) bodies: &'a [u8],
}

/// The two buffers that a reading writes.
pub(crate) struct ImageMut<'a> {
    pub(crate) contents: &'a mut [u16],
    pub(crate) bodies: &'a mut [u8],
}

/// What a comparison takes beside texts: an archive, the number of a file in it, and a query.
#[derive(Clone, Copy)]
pub(crate) struct Question<'a> {
    pub(crate) archive: &'a [u8],
    pub(crate) file: usize,
    pub(crate) name: &'a [u8],
    pub(crate) class: &'a [u8],
}

/// What a comparison writes: the archive without the file, the images of both readings, and the answers of both lookups.
pub(crate) struct Room<'a> {
    pub(crate) struck: &'a mut [u8],
    pub(crate) first: ImageMut<'a>,
    pub(crate) second: ImageMut<'a>,
    pub(crate) with_it: &'a mut u64,
    pub(crate) without: &'a mut u64,
}

/// A text as it is lent; an empty one if it could not be read.
fn lent(text: &Option<Vec<u8>>) -> &[u8] {
    text.as_deref().unwrap_or_default()
}

/// A flag: whether a text could be read.
fn is_read(text: &Option<Vec<u8>>) -> u8 {
    u8::from(text.is_some())
}

/// 0 in bits 0 to 15, entries in bits 16 to 31 and opens from bit 32 on; or the refusal's number alone.
pub(crate) fn read(text: &[u8], archive: &[u8], contents: &mut [u16], bodies: &mut [u8]) -> u64 {
    // SAFETY: each pointer and count are those of a slice that is borrowed for the call, the last two for writing. The
    // call is proved to stay within them and to keep nothing.
    unsafe {
        resource_manager_read(
            text.as_ptr(),
            text.len(),
            archive.as_ptr(),
            archive.len(),
            contents.as_mut_ptr(),
            contents.len(),
            bodies.as_mut_ptr(),
            bodies.len(),
        )
    }
}

/// The same at a depth.
pub(crate) fn read_depth(text: &[u8], archive: &[u8], depth: u64, contents: &mut [u16], bodies: &mut [u8]) -> u64 {
    // SAFETY: as for `read`.
    unsafe {
        resource_manager_read_depth(
            text.as_ptr(),
            text.len(),
            archive.as_ptr(),
            archive.len(),
            depth,
            contents.as_mut_ptr(),
            contents.len(),
            bodies.as_mut_ptr(),
            bodies.len(),
        )
    }
}

/// The answer of `read` for an old image that is carried over, with no opens.
pub(crate) fn migrate(old_contents: &[u16], old_bodies: &[u8], contents: &mut [u16], bodies: &mut [u8]) -> u64 {
    // SAFETY: as for `read`.
    unsafe {
        resource_manager_migrate(
            old_contents.as_ptr(),
            old_contents.len(),
            old_bodies.as_ptr(),
            old_bodies.len(),
            contents.as_mut_ptr(),
            contents.len(),
            bodies.as_mut_ptr(),
            bodies.len(),
        )
    }
}

/// Whose bounds a query has: the shell's, or the dictionary window's.
#[derive(Clone, Copy, Debug, PartialEq, Eq)]
pub(crate) enum Bounds {
    Shell,
    Window,
}

/// 0 in bits 0 to 15, the value's place in the bodies in bits 16 to 31 and its length from bit 32 on; 65535 for none; or
/// the refusal's number.
pub(crate) fn get_bytes(bounds: Bounds, image: Image, name: &[u8], class: &[u8]) -> u64 {
    let call = match bounds {
        Bounds::Shell => resource_manager_get_bytes as Lookup,
        Bounds::Window => resource_manager_window_get_bytes,
    };
    // SAFETY: these are lookups of the library.
    unsafe { look_up(call, image, name, class) }
}

/// The value's bytes, a part of the bodies; or else the default, for none and for a refusal.
pub(crate) fn show<'a>(
    bounds: Bounds,
    Image { contents, bodies }: Image<'a>,
    name: &[u8],
    class: &[u8],
    default: &'a [u8],
) -> &'a [u8] {
    let call = match bounds {
        Bounds::Shell => resource_manager_show as Show,
        Bounds::Window => resource_manager_window_show,
    };
    let mut shown = Bytes { start: default.as_ptr(), count: default.len() };
    // SAFETY: as for the other lookups; `shown` is lent for writing. The calls are proved to leave the default there, or a part
    // of the bodies, and both live for 'a.
    unsafe {
        call(
            contents.as_ptr(),
            contents.len(),
            bodies.as_ptr(),
            bodies.len(),
            name.as_ptr(),
            name.len(),
            class.as_ptr(),
            class.len(),
            &mut shown,
        );
        std::slice::from_raw_parts(shown.start, shown.count)
    }
}

/// As `get_bytes`, and none for a value that is not UTF-8.
pub(crate) fn get_string(bounds: Bounds, image: Image, name: &[u8], class: &[u8]) -> u64 {
    let call = match bounds {
        Bounds::Shell => resource_manager_get_string as Lookup,
        Bounds::Window => resource_manager_window_get_string,
    };
    // SAFETY: these are lookups of the library.
    unsafe { look_up(call, image, name, class) }
}

/// 65536 for true, 0 for false, 65535 for none, or the refusal's number.
pub(crate) fn get_bool(bounds: Bounds, image: Image, name: &[u8], class: &[u8]) -> u64 {
    let call = match bounds {
        Bounds::Shell => resource_manager_get_bool as Lookup,
        Bounds::Window => resource_manager_window_get_bool,
    };
    // SAFETY: these are lookups of the library.
    unsafe { look_up(call, image, name, class) }
}

/// # Safety
/// `call` must be one of the library's lookups.
unsafe fn look_up(call: Lookup, Image { contents, bodies }: Image, name: &[u8], class: &[u8]) -> u64 {
    // SAFETY: each pointer and count are those of a slice that is borrowed for the call. The lookups are proved to stay
    // within them, to write nothing and to keep nothing.
    unsafe {
        call(
            contents.as_ptr(),
            contents.len(),
            bodies.as_ptr(),
            bodies.len(),
            name.as_ptr(),
            name.len(),
            class.as_ptr(),
            class.len(),
        )
    }
}

/// 0 with the number in `out`; 65534 if the value is not a number, 65535 for none, or the refusal's number, with `out` as
/// it was.
pub(crate) fn get_value(bounds: Bounds, Image { contents, bodies }: Image, name: &[u8], class: &[u8], out: &mut i64) -> u64 {
    let call = match bounds {
        Bounds::Shell => resource_manager_get_value as Number,
        Bounds::Window => resource_manager_window_get_value,
    };
    // SAFETY: as for the other lookups; `out` is borrowed for writing, and is all that the calls write.
    unsafe {
        call(
            contents.as_ptr(),
            contents.len(),
            bodies.as_ptr(),
            bodies.len(),
            name.as_ptr(),
            name.len(),
            class.as_ptr(),
            class.len(),
            out,
        )
    }
}

/// 0 in bits 0 to 15 and the length of the text, which stands at the front of `text`, from bit 32 on; or the refusal's number,
/// with `text` as it was.
pub(crate) fn write(Image { contents, bodies }: Image, text: &mut [u8]) -> u64 {
    // SAFETY: as for the lookups; `text` is borrowed for writing, and is all that the call writes.
    unsafe {
        resource_manager_write(contents.as_ptr(), contents.len(), bodies.as_ptr(), bodies.len(), text.as_mut_ptr(), text.len())
    }
}

/// The state of a walk: the number that it comes to next, and the entry count from its start.
#[derive(Clone, Copy, Debug, Default, PartialEq, Eq)]
pub(crate) struct State {
    pub next: u16,
    pub count: u16,
}

/// 0 with the state of a walk that begins; or the refusal's number, with the state as it was.
pub(crate) fn walk_start(Image { contents, bodies }: Image, name: &[u8], class: &[u8], state: &mut State) -> u64 {
    // SAFETY: as for the lookups; both numbers of the state are borrowed for writing.
    unsafe {
        resource_manager_walk_start(
            contents.as_ptr(),
            contents.len(),
            bodies.as_ptr(),
            bodies.len(),
            name.as_ptr(),
            name.len(),
            class.as_ptr(),
            class.len(),
            &mut state.next,
            &mut state.count,
        )
    }
}

/// 0 in bits 0 to 15 and the entry's number from bit 16 on, with one more in the state; or, with the state as it was, 65535 at the
/// end, or the refusal's number.
pub(crate) fn walk_step(Image { contents, bodies }: Image, name: &[u8], class: &[u8], state: &mut State) -> u64 {
    // SAFETY: as for the lookups; the next number is borrowed for writing.
    unsafe {
        resource_manager_walk_step(
            contents.as_ptr(),
            contents.len(),
            bodies.as_ptr(),
            bodies.len(),
            name.as_ptr(),
            name.len(),
            class.as_ptr(),
            class.len(),
            &mut state.next,
            state.count,
        )
    }
}

/// 0 in bits 0 to 15 and the new entry's number from bit 16 on; or the refusal's number, with both buffers as they were.
pub(crate) fn add(ImageMut { contents, bodies }: ImageMut, text: &[u8]) -> u64 {
    // SAFETY: each pointer and count are those of a slice that is borrowed for the call, the first two for writing. The call is
    // proved to stay within them and to keep nothing.
    unsafe {
        resource_manager_add(contents.as_mut_ptr(), contents.len(), bodies.as_mut_ptr(), bodies.len(), text.as_ptr(), text.len())
    }
}

/// 0, for an empty board; or the refusal's number. The words and the bytes of a board are lent as those of an image are.
pub(crate) fn board_make(ImageMut { contents, bodies }: ImageMut) -> u64 {
    // SAFETY: as for `add`.
    unsafe { resource_manager_board_make(contents.as_mut_ptr(), contents.len(), bodies.as_mut_ptr(), bodies.len()) }
}

/// 0 in bits 0 to 15 and the query's number from bit 16 on; or the refusal's number, with the board as it was.
pub(crate) fn board_watch(ImageMut { contents, bodies }: ImageMut, name: &[u8], class: &[u8]) -> u64 {
    // SAFETY: as for `add`.
    unsafe {
        resource_manager_board_watch(
            contents.as_mut_ptr(),
            contents.len(),
            bodies.as_mut_ptr(),
            bodies.len(),
            name.as_ptr(),
            name.len(),
            class.as_ptr(),
            class.len(),
        )
    }
}

/// 0; or the refusal's number, with the board as it was.
pub(crate) fn board_arrive(ImageMut { contents, bodies }: ImageMut, number: u16, pack: Image) -> u64 {
    // SAFETY: as for `add`.
    unsafe {
        resource_manager_board_arrive(
            contents.as_mut_ptr(),
            contents.len(),
            bodies.as_mut_ptr(),
            bodies.len(),
            number,
            pack.contents.as_ptr(),
            pack.contents.len(),
            pack.bodies.as_ptr(),
            pack.bodies.len(),
        )
    }
}

/// 0; or the refusal's number, with the board as it was.
pub(crate) fn board_leave(ImageMut { contents, bodies }: ImageMut, number: u16) -> u64 {
    // SAFETY: as for `add`.
    unsafe { resource_manager_board_leave(contents.as_mut_ptr(), contents.len(), bodies.as_mut_ptr(), bodies.len(), number) }
}

/// 0 in bits 0 to 15, the place in bits 16 to 31 and the length from bit 32 on, with the pack's number in `pack`; 65535 for none, or
/// the refusal's number, with `pack` as it was.
pub(crate) fn board_answer(Image { contents, bodies }: Image, query: u16, pack: &mut u16) -> u64 {
    // SAFETY: as for the lookups; the pack's number is borrowed for writing.
    unsafe { resource_manager_board_answer(contents.as_ptr(), contents.len(), bodies.as_ptr(), bodies.len(), query, pack) }
}

/// 0 in bits 0 to 15 and the number of queries from bit 16 on, with an answer for each number in `answers` and `packs`, as `board_answer`
/// gives it; or the refusal's number, with both as they were.
pub(crate) fn board_answers(Image { contents, bodies }: Image, answers: &mut [u64; QUERIES], packs: &mut [u16; QUERIES]) -> u64 {
    // SAFETY: as for the lookups; both arrays are borrowed for writing.
    unsafe { resource_manager_board_answers(contents.as_ptr(), contents.len(), bodies.as_ptr(), bodies.len(), answers, packs) }
}

/// 0 in bits 0 to 15 and a bit for each query from bit 32 on; or the refusal's number.
pub(crate) fn board_report(Image { contents, bodies }: Image, number: u16) -> u64 {
    // SAFETY: as for the lookups.
    unsafe { resource_manager_board_report(contents.as_ptr(), contents.len(), bodies.as_ptr(), bodies.len(), number) }
}

/// 0 with the answers of both lookups, as `get_bytes` gives them, in `with_it` and `without`; 65535 if there is no such
/// file, or the refusal's number, with both as they were.
pub(crate) fn compare_without(text: &[u8], Question { archive, file, name, class }: Question, room: Room) -> u64 {
    let Room { struck, first, second, with_it, without } = room;
    // SAFETY: each pointer and count are those of a slice that is borrowed for the call, from `struck` on for writing, and
    // the last two are numbers that are so borrowed. The call is proved to stay within them and to keep nothing.
    unsafe {
        resource_manager_compare_without(
            text.as_ptr(),
            text.len(),
            archive.as_ptr(),
            archive.len(),
            file,
            name.as_ptr(),
            name.len(),
            class.as_ptr(),
            class.len(),
            struck.as_mut_ptr(),
            struck.len(),
            first.contents.as_mut_ptr(),
            first.contents.len(),
            first.bodies.as_mut_ptr(),
            first.bodies.len(),
            second.contents.as_mut_ptr(),
            second.contents.len(),
            second.bodies.as_mut_ptr(),
            second.bodies.len(),
            with_it,
            without,
        )
    }
}

/// The same at a depth.
pub(crate) fn compare_without_depth(
    text: &[u8],
    depth: u64,
    Question { archive, file, name, class }: Question,
    room: Room,
) -> u64 {
    let Room { struck, first, second, with_it, without } = room;
    // SAFETY: as for `compare_without`.
    unsafe {
        resource_manager_compare_without_depth(
            text.as_ptr(),
            text.len(),
            archive.as_ptr(),
            archive.len(),
            depth,
            file,
            name.as_ptr(),
            name.len(),
            class.as_ptr(),
            class.len(),
            struck.as_mut_ptr(),
            struck.len(),
            first.contents.as_mut_ptr(),
            first.contents.len(),
            first.bodies.as_mut_ptr(),
            first.bodies.len(),
            second.contents.as_mut_ptr(),
            second.contents.len(),
            second.bodies.as_mut_ptr(),
            second.bodies.len(),
            with_it,
            without,
        )
    }
}

/// As `read`, of the texts that a start-up uses.
pub(crate) fn read_default(start_up: &StartUp, archive: &[u8], contents: &mut [u16], bodies: &mut [u8]) -> u64 {
    let StartUp { property, xresources, xdefaults, xenvironment_set, xenvironment, host } = start_up;
    // SAFETY: as for `read`.
    unsafe {
        resource_manager_read_default(
            property.format,
            property.value.as_ptr(),
            property.value.len(),
            is_read(xresources),
            lent(xresources).as_ptr(),
            lent(xresources).len(),
            is_read(xdefaults),
            lent(xdefaults).as_ptr(),
            lent(xdefaults).len(),
            u8::from(*xenvironment_set),
            is_read(xenvironment),
            lent(xenvironment).as_ptr(),
            lent(xenvironment).len(),
            is_read(host),
            lent(host).as_ptr(),
            lent(host).len(),
            archive.as_ptr(),
            archive.len(),
            contents.as_mut_ptr(),
            contents.len(),
            bodies.as_mut_ptr(),
            bodies.len(),
        )
    }
}

/// The same at a depth.
pub(crate) fn read_default_depth(start_up: &StartUp, archive: &[u8], depth: u64, contents: &mut [u16], bodies: &mut [u8]) -> u64 {
    let StartUp { property, xresources, xdefaults, xenvironment_set, xenvironment, host } = start_up;
    // SAFETY: as for `read`.
    unsafe {
        resource_manager_read_default_depth(
            property.format,
            property.value.as_ptr(),
            property.value.len(),
            is_read(xresources),
            lent(xresources).as_ptr(),
            lent(xresources).len(),
            is_read(xdefaults),
            lent(xdefaults).as_ptr(),
            lent(xdefaults).len(),
            u8::from(*xenvironment_set),
            is_read(xenvironment),
            lent(xenvironment).as_ptr(),
            lent(xenvironment).len(),
            is_read(host),
            lent(host).as_ptr(),
            lent(host).len(),
            archive.as_ptr(),
            archive.len(),
            depth,
            contents.as_mut_ptr(),
            contents.len(),
            bodies.as_mut_ptr(),
            bodies.len(),
        )
    }
}

/// As `compare_without`, of the texts that a start-up uses.
pub(crate) fn compare_default_without(start_up: &StartUp, Question { archive, file, name, class }: Question, room: Room) -> u64 {
    let StartUp { property, xresources, xdefaults, xenvironment_set, xenvironment, host } = start_up;
    let Room { struck, first, second, with_it, without } = room;
    // SAFETY: as for `compare_without`.
    unsafe {
        resource_manager_compare_default_without(
            property.format,
            property.value.as_ptr(),
            property.value.len(),
            is_read(xresources),
            lent(xresources).as_ptr(),
            lent(xresources).len(),
            is_read(xdefaults),
            lent(xdefaults).as_ptr(),
            lent(xdefaults).len(),
            u8::from(*xenvironment_set),
            is_read(xenvironment),
            lent(xenvironment).as_ptr(),
            lent(xenvironment).len(),
            is_read(host),
            lent(host).as_ptr(),
            lent(host).len(),
            archive.as_ptr(),
            archive.len(),
            file,
            name.as_ptr(),
            name.len(),
            class.as_ptr(),
            class.len(),
            struck.as_mut_ptr(),
            struck.len(),
            first.contents.as_mut_ptr(),
            first.contents.len(),
            first.bodies.as_mut_ptr(),
            first.bodies.len(),
            second.contents.as_mut_ptr(),
            second.contents.len(),
            second.bodies.as_mut_ptr(),
            second.bodies.len(),
            with_it,
            without,
        )
    }
}

#[cfg(test)]
mod tests {
    use super::*;
    use crate::limits::{BOARD_BYTES, BOARD_WORDS, BODIES_BYTES, CONTENTS_WORDS};

    const NO_FILES: &[u8] = b"\0\0";

    /// Buffers that end with the memory they stand in, full of garbage.
    fn buffers(words: usize, bytes: usize) -> (Box<[u16]>, Box<[u8]>) {
        (vec![0xA5A5; words].into(), vec![0xA5; bytes].into())
    }

    #[test]
    fn buffers_just_long_enough_are_accepted() {
        let (mut contents, mut bodies) = buffers(CONTENTS_WORDS, BODIES_BYTES);
        assert_eq!(read(b"a:1\nb: -5", NO_FILES, &mut contents, &mut bodies), 2 << 16);
        assert_eq!(contents[..10], [2, 7, 0, 2, 1, 0, 3, 2, 2, 0]);
        assert_eq!(&bodies[..8], b".a1.b-5\0");
        let image = Image { contents: &contents, bodies: &bodies };
        for bounds in [Bounds::Shell, Bounds::Window] {
            assert_eq!(get_bytes(bounds, image, b"b", b""), 5 << 16 | 2 << 32);
            assert_eq!(get_string(bounds, image, b"a", b""), 2 << 16 | 1 << 32);
            assert_eq!(get_bool(bounds, image, b"", b"a"), 65536);
            let mut out = 7;
            assert_eq!((get_value(bounds, image, b"b", b"", &mut out), out), (0, -5));
        }
    }

    #[test]
    fn buffers_one_short_are_refused_and_left() {
        for (words, bytes) in [(CONTENTS_WORDS - 1, BODIES_BYTES), (CONTENTS_WORDS, BODIES_BYTES - 1), (0, 0)] {
            let (mut contents, mut bodies) = buffers(words, bytes);
            assert_eq!(read(b"a:1", NO_FILES, &mut contents, &mut bodies), 1);
            assert_eq!((&contents, &bodies), (&buffers(words, bytes).0, &buffers(words, bytes).1));
            contents.fill(0);
            no_image(Image { contents: &contents, bodies: &bodies });
        }
    }

    #[test]
    fn longer_buffers_are_left_beyond_an_image() {
        let (mut contents, mut bodies) = buffers(CONTENTS_WORDS + 1, BODIES_BYTES + 1);
        assert_eq!(read(b"a:1", NO_FILES, &mut contents, &mut bodies), 1 << 16);
        assert_eq!((contents[CONTENTS_WORDS - 1], contents[CONTENTS_WORDS]), (0, 0xA5A5));
        assert_eq!((bodies[BODIES_BYTES - 1], bodies[BODIES_BYTES]), (0, 0xA5));
    }

    #[test]
    fn garbage_is_no_image() {
        let (contents, bodies) = buffers(CONTENTS_WORDS, BODIES_BYTES);
        no_image(Image { contents: &contents, bodies: &bodies });
    }

    const ARCHIVE: &[u8] = b"\x01\0\x01\0\x03\0pa:1";

    /// Compares without the file, with buffers so much too short.
    fn compared(call: impl FnOnce(Question, Room) -> u64, file: usize, short: [usize; 5]) -> (u64, u64, u64) {
        let question = Question { archive: ARCHIVE, file, name: b"a", class: b"" };
        let (mut contents, mut bodies) = buffers(CONTENTS_WORDS - short[0], BODIES_BYTES - short[1]);
        let (mut contents_without, mut bodies_without) = buffers(CONTENTS_WORDS - short[2], BODIES_BYTES - short[3]);
        let mut struck = vec![0xA5; ARCHIVE.len() - short[4]];
        let (mut with_it, mut without) = (7, 7);
        let first = ImageMut { contents: &mut contents, bodies: &mut bodies };
        let second = ImageMut { contents: &mut contents_without, bodies: &mut bodies_without };
        let room = Room { struck: &mut struck, first, second, with_it: &mut with_it, without: &mut without };
        (call(question, room), with_it, without)
    }

    fn just_long_enough_and_one_short(compare: impl Fn(usize, [usize; 5]) -> (u64, u64, u64)) {
        assert_eq!(compare(0, [0; 5]), (0, 2 << 16 | 1 << 32, 65535));
        assert_eq!(compare(1, [0; 5]), (65535, 7, 7));
        assert_eq!(compare(usize::MAX, [0; 5]), (65535, 7, 7));
        for place in 0..5 {
            let mut short = [0; 5];
            short[place] = 1;
            assert_eq!(compare(0, short), (1, 7, 7), "{short:?}");
        }
    }

    #[test]
    fn a_comparison_in_buffers_just_long_enough_and_one_short() {
        let text = b"#include \"p\"\na*b:2";
        just_long_enough_and_one_short(|file, short| {
            compared(|question, room| compare_without(text, question, room), file, short)
        });
    }

    #[test]
    fn a_comparison_of_a_start_up_in_buffers_just_long_enough_and_one_short() {
        let start_up = start_up(b"#include \"p\"\na*b:2", b"b:3");
        let call = |question: Question, room: Room| compare_default_without(&start_up, question, room);
        just_long_enough_and_one_short(|file, short| compared(call, file, short));
    }

    fn start_up(xresources: &[u8], host: &[u8]) -> StartUp {
        StartUp { xresources: Some(xresources.to_vec()), host: Some(host.to_vec()), ..StartUp::default() }
    }

    #[test]
    fn a_start_up_in_buffers_just_long_enough_and_one_short() {
        let start_up = start_up(b"#include \"p\"\nb:2", b"#include \"p\"");
        for (words, bytes) in [(CONTENTS_WORDS - 1, BODIES_BYTES), (CONTENTS_WORDS, BODIES_BYTES - 1), (0, 0)] {
            let (mut contents, mut bodies) = buffers(words, bytes);
            assert_eq!(read_default(&start_up, ARCHIVE, &mut contents, &mut bodies), 1);
            assert_eq!((contents, bodies), buffers(words, bytes));
        }
        let (mut contents, mut bodies) = buffers(CONTENTS_WORDS + 1, BODIES_BYTES + 1);
        assert_eq!(read_default(&start_up, ARCHIVE, &mut contents, &mut bodies), 3 << 16 | 2 << 32);
        assert_eq!(contents[..15], [3, 9, 0, 2, 1, 1, 3, 2, 1, 0, 6, 2, 1, 1, 0]);
        assert_eq!(&bodies[..10], b".a1.b2.a1\0");
        assert_eq!((contents[CONTENTS_WORDS - 1], contents[CONTENTS_WORDS]), (0, 0xA5A5));
        assert_eq!((bodies[BODIES_BYTES - 1], bodies[BODIES_BYTES]), (0, 0xA5));
    }

    #[test]
    fn a_text_in_buffers_just_long_enough_and_one_short() {
        let (mut contents, mut bodies) = buffers(CONTENTS_WORDS, BODIES_BYTES);
        assert_eq!(read(b"a:\\ 1\nb:\\n", NO_FILES, &mut contents, &mut bodies), 2 << 16);
        let image = Image { contents: &contents, bodies: &bodies };
        let text = b".a: \\ 1\n.b: \\n\n";
        for short in [0, 1, text.len() - 1] {
            let mut buffer = vec![0xA5; short];
            assert_eq!((write(image, &mut buffer), buffer), (11, vec![0xA5; short]));
        }
        for more in [0, 1, 100] {
            let mut buffer = vec![0xA5; text.len() + more];
            assert_eq!(write(image, &mut buffer), (text.len() as u64) << 32);
            assert_eq!(buffer, [&text[..], &vec![0xA5; more]].concat());
        }
    }

    /// A walk from any state, with what it leaves.
    fn stepped(image: Image, name: &[u8], next: u16, count: u16) -> (u64, u16) {
        let mut state = State { next, count };
        let answer = walk_step(image, name, b"", &mut state);
        assert_eq!(state.count, count);
        (answer, state.next)
    }

    #[test]
    fn a_walk_from_any_state() {
        let (mut contents, mut bodies) = buffers(CONTENTS_WORDS, BODIES_BYTES);
        assert_eq!(read(b"a:\nb:\n*a:", NO_FILES, &mut contents, &mut bodies), 3 << 16);
        let image = Image { contents: &contents, bodies: &bodies };
        let mut state = State { next: 7, count: 7 };
        assert_eq!((walk_start(image, b"a", b"", &mut state), state), (0, State { next: 0, count: 3 }));
        assert_eq!(stepped(image, b"a", 0, 3), (0, 1));
        assert_eq!(stepped(image, b"a", 1, u16::MAX), (2 << 16, 3));
        for (next, count) in [(1, 2), (3, 3), (0, 0), (3, u16::MAX), (u16::MAX, u16::MAX)] {
            assert_eq!(stepped(image, b"a", next, count), (65_535, next));
        }
        let mut state = State { next: 7, count: 7 };
        for (name, number) in [(vec![b'a'; 1_025], 9), (b"a.".repeat(33), 10)] {
            assert_eq!((walk_start(image, &name, b"", &mut state), state), (number, State { next: 7, count: 7 }));
            assert_eq!(stepped(image, &name, 1, 3), (number, 1));
        }
    }

    #[test]
    fn an_addition_in_buffers_just_long_enough_and_longer() {
        for more in [0, 1, 100] {
            let (mut contents, mut bodies) = buffers(CONTENTS_WORDS + more, BODIES_BYTES + more);
            (contents[0], contents[1]) = (0, 0);
            let mut add = |text: &[u8]| add(ImageMut { contents: &mut contents, bodies: &mut bodies }, text);
            assert_eq!(add(b"a:1"), 0);
            assert_eq!(add(b"*b:22"), 1 << 16);
            assert_eq!(add(b"a:1\nb:"), 12);
            let (mut words, mut bytes) = buffers(CONTENTS_WORDS + more, BODIES_BYTES + more);
            words[..10].copy_from_slice(&[2, 7, 0, 2, 1, 65_535, 3, 2, 2, 65_535]);
            bytes[..7].copy_from_slice(b".a1*b22");
            assert_eq!((contents, bodies), (words, bytes));
        }
    }

    /// The words and bytes of a board of garbage, so much longer or shorter, and made.
    fn board(words: isize, bytes: isize) -> (u64, Box<[u16]>, Box<[u8]>) {
        let (mut words, mut bytes) =
            buffers(BOARD_WORDS.checked_add_signed(words).unwrap(), BOARD_BYTES.checked_add_signed(bytes).unwrap());
        let answer = board_make(ImageMut { contents: &mut words, bodies: &mut bytes });
        (answer, words, bytes)
    }

    /// All answers in arrays of garbage.
    fn all_answers(image: Image) -> (u64, [u64; QUERIES], [u16; QUERIES]) {
        let (mut answers, mut packs) = ([9; QUERIES], [7; QUERIES]);
        (board_answers(image, &mut answers, &mut packs), answers, packs)
    }

    #[test]
    fn a_board_in_buffers_just_long_enough_and_one_short() {
        for (words, bytes) in [(-1, 0), (0, -1), (-(BOARD_WORDS as isize), -(BOARD_BYTES as isize))] {
            let (answer, mut words, mut bytes) = board(words, bytes);
            assert_eq!(answer, 1);
            let as_it_was = (words.clone(), bytes.clone());
            assert_eq!(board_watch(ImageMut { contents: &mut words, bodies: &mut bytes }, b"a", b""), 1);
            assert_eq!(board_leave(ImageMut { contents: &mut words, bodies: &mut bytes }, 7), 1);
            assert_eq!((&words, &bytes), (&as_it_was.0, &as_it_was.1));
            let image = Image { contents: &words, bodies: &bytes };
            let mut pack = 7;
            assert_eq!((board_answer(image, 0, &mut pack), pack), (1, 7));
            assert_eq!(all_answers(image), (1, [9; QUERIES], [7; QUERIES]));
            assert_eq!(board_report(image, 7), 1);
        }
        for more in [0, 1, 100] {
            let (answer, mut words, mut bytes) = board(more, more);
            assert_eq!(answer, 0);
            let (mut contents, mut bodies) = buffers(CONTENTS_WORDS, BODIES_BYTES);
            assert_eq!(read(b"a:1\nb: -5", NO_FILES, &mut contents, &mut bodies), 2 << 16);
            let pack = Image { contents: &contents, bodies: &bodies };
            assert_eq!(board_watch(ImageMut { contents: &mut words, bodies: &mut bytes }, b"b", b"B"), 0);
            assert_eq!(board_watch(ImageMut { contents: &mut words, bodies: &mut bytes }, b".a", b""), 1 << 16);
            assert_eq!(board_arrive(ImageMut { contents: &mut words, bodies: &mut bytes }, 65_535, pack), 0);
            assert_eq!(board_arrive(ImageMut { contents: &mut words, bodies: &mut bytes }, 65_535, pack), 14);
            // What is written, in garbage that is not.
            let (mut expected, mut expected_bytes) = buffers(words.len(), bytes.len());
            expected[..6].copy_from_slice(&[1, 2, 1, 1, 2, 0]);
            expected[66..77].copy_from_slice(&[65_535, 2, 7, 0, 2, 1, 0, 3, 2, 2, 0]);
            expected_bytes[..2].copy_from_slice(b"bB");
            expected_bytes[2_048..2_050].copy_from_slice(b".a");
            expected_bytes[65_536..65_543].copy_from_slice(b".a1.b-5");
            assert_eq!((&words, &bytes), (&expected, &expected_bytes));
            let image = Image { contents: &words, bodies: &bytes };
            let mut number = 7;
            assert_eq!((board_answer(image, 0, &mut number), number), (5 << 16 | 2 << 32, 65_535));
            let mut number = 7;
            assert_eq!((board_answer(image, 1, &mut number), number), (65_535, 7));
            assert_eq!((board_answer(image, 2, &mut number), number), (65_535, 7));
            let (mut answers, mut packs) = ([65_535; QUERIES], [7; QUERIES]);
            (answers[0], packs[0]) = (5 << 16 | 2 << 32, 65_535);
            assert_eq!(all_answers(image), (2 << 16, answers, packs));
            assert_eq!((board_report(image, 65_535), board_report(image, 7)), (1 << 32, 14));
            assert_eq!(board_leave(ImageMut { contents: &mut words, bodies: &mut bytes }, 65_535), 0);
            expected[0] = 0;
            assert_eq!((&words, &bytes), (&expected, &expected_bytes));
        }
    }

    #[test]
    fn garbage_is_no_board() {
        let (mut words, mut bytes) = buffers(BOARD_WORDS, BOARD_BYTES);
        let (contents, bodies) = buffers(CONTENTS_WORDS, BODIES_BYTES);
        let pack = Image { contents: &contents, bodies: &bodies };
        assert_eq!(board_watch(ImageMut { contents: &mut words, bodies: &mut bytes }, b"a", b""), 8);
        assert_eq!(board_arrive(ImageMut { contents: &mut words, bodies: &mut bytes }, 7, pack), 8);
        assert_eq!(board_leave(ImageMut { contents: &mut words, bodies: &mut bytes }, 7), 8);
        assert_eq!((&words, &bytes), (&buffers(BOARD_WORDS, BOARD_BYTES).0, &buffers(BOARD_WORDS, BOARD_BYTES).1));
        let image = Image { contents: &words, bodies: &bytes };
        let mut number = 7;
        assert_eq!((board_answer(image, 0, &mut number), number), (8, 7));
        assert_eq!(all_answers(image), (8, [9; QUERIES], [7; QUERIES]));
        assert_eq!(board_report(image, 7), 8);
    }

    /// Neither is a walk begun, nor does it go on, nor is anything added.
    fn no_image_to_walk(image: Image) {
        let mut state = State { next: 7, count: 7 };
        assert_eq!((walk_start(image, b"a", b"", &mut state), state), (8, State { next: 7, count: 7 }));
        assert_eq!(stepped(image, b"a", 0, 7), (8, 0));
        let (mut contents, mut bodies) = (image.contents.to_vec(), image.bodies.to_vec());
        assert_eq!(add(ImageMut { contents: &mut contents, bodies: &mut bodies }, b"a:1"), 8);
        assert_eq!((&contents[..], &bodies[..]), (image.contents, image.bodies));
    }

    fn no_image(image: Image) {
        no_image_to_walk(image);
        let mut text = [0xA5; 3];
        assert_eq!((write(image, &mut text), text), (8, [0xA5; 3]));
        assert_eq!(write(image, &mut []), 8);
        let mut out = 7;
        for bounds in [Bounds::Shell, Bounds::Window] {
            assert_eq!(get_bytes(bounds, image, b"a", b""), 8);
            assert_eq!(get_string(bounds, image, b"a", b""), 8);
            assert_eq!(get_bool(bounds, image, b"a", b""), 8);
            assert_eq!((get_value(bounds, image, b"a", b"", &mut out), out), (8, 7));
        }
    }
}
