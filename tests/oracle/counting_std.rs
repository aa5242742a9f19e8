//! The standard library as the Rust under test sees it, with two things watched: each file read, and
//! how deep in includes it was read.
//!
//! The Rust makes one `PathBuf` of a `Path` for each include it meets and keeps it until the included
//! text has been read. So the number of these alive at a read is the depth of the text that is read. A
//! start-up's own texts are read at depth 0; the `PathBuf`s of those are made of an `OsString`.

pub use std::*;

use std::cell::Cell;

thread_local! {
    static DEPTH: Cell<usize> = const { Cell::new(0) };
    /// Texts at depths over this are read from disk and thrown away: they are no opens. The Rust's own, unless it was altered.
    static LAST_DEPTH: Cell<usize> = const { Cell::new(100) };
    static OPENS: Cell<usize> = const { Cell::new(0) };
    static OWN_TEXTS: Cell<usize> = const { Cell::new(0) };
}

/// Runs `work` and counts its opens: files read at depth 1 to `last`.
pub fn count_opens<T>(last: u8, work: impl FnOnce() -> T) -> (T, usize) {
    LAST_DEPTH.set(last.into());
    OPENS.set(0);
    OWN_TEXTS.set(0);
    let result = work();
    assert_eq!(DEPTH.get(), 0, "a path outlived the reading");
    assert!(OWN_TEXTS.get() <= 2, "a start-up has at most two texts of its own");
    (result, OPENS.get())
}

pub mod fs {
    pub use std::fs::*;

    use std::path::Path;

    pub fn read<P: AsRef<Path>>(path: P) -> std::io::Result<Vec<u8>> {
        let found = std::fs::read(path);
        if found.is_ok() {
            let depth = crate::DEPTH.get();
            assert!(depth <= crate::LAST_DEPTH.get() + 1, "a file was read at depth {depth}");
            let counter = if depth == 0 { &crate::OWN_TEXTS } else { &crate::OPENS };
            if depth <= crate::LAST_DEPTH.get() {
                counter.set(counter.get() + 1);
            }
        }
        found
    }
}

pub mod path {
    pub use std::path::*;

    use std::ffi::{OsStr, OsString};
    use std::ops::Deref;

    /// A path buffer that is counted while it lives, if it is an include's.
    pub struct PathBuf {
        path: std::path::PathBuf,
        of_an_include: bool,
    }

    /// What the Rust makes path buffers of.
    pub trait Beginning: AsRef<OsStr> {
        const OF_AN_INCLUDE: bool;
    }

    /// A folder in which an include is looked for.
    impl Beginning for &Path {
        const OF_AN_INCLUDE: bool = true;
    }

    /// HOME, in which a start-up looks for its own texts.
    impl Beginning for &OsString {
        const OF_AN_INCLUDE: bool = false;
    }

    impl Beginning for OsString {
        const OF_AN_INCLUDE: bool = false;
    }

    impl PathBuf {
        /// Stands for a HOME that is not set.
        pub fn new() -> Self {
            Self::from(OsString::new())
        }

        #[allow(clippy::should_implement_trait)]
        pub fn from<B: Beginning>(path: B) -> Self {
            crate::DEPTH.set(crate::DEPTH.get() + usize::from(B::OF_AN_INCLUDE));
            Self { path: std::path::PathBuf::from(path.as_ref()), of_an_include: B::OF_AN_INCLUDE }
        }

        pub fn push(&mut self, path: impl AsRef<Path>) {
            self.path.push(path);
        }

        pub fn pop(&mut self) -> bool {
            self.path.pop()
        }
    }

    impl Drop for PathBuf {
        fn drop(&mut self) {
            crate::DEPTH.set(crate::DEPTH.get() - usize::from(self.of_an_include));
        }
    }

    impl Deref for PathBuf {
        type Target = Path;

        fn deref(&self) -> &Path {
            &self.path
        }
    }

    impl AsRef<Path> for PathBuf {
        fn as_ref(&self) -> &Path {
            &self.path
        }
    }
}
