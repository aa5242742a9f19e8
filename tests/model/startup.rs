//! The start-up chain of document 02 (i): which texts a reader starts with.

/// What the caller lends. A text is none if it could not be read.
#[derive(Clone, Debug, Default, PartialEq, Eq)]
pub struct StartUp {
    pub format: u8,
    pub property: Vec<u8>,
    pub xresources: Option<Vec<u8>>,
    pub xdefaults: Option<Vec<u8>>,
    pub xenvironment_set: bool,
    /// The text named by XENVIRONMENT.
    pub xenvironment: Option<Vec<u8>>,
    /// The host's .Xdefaults.
    pub host: Option<Vec<u8>>,
}

impl StartUp {
    /// The texts that are used, in their order. One that could not be read adds nothing.
    pub fn texts(&self) -> Vec<&[u8]> {
        [self.first(), self.second()].into_iter().flatten().collect()
    }

    /// The property if its format is 8 and it isn't empty; else .Xresources if it could be read, even if empty; else .Xdefaults.
    fn first(&self) -> Option<&[u8]> {
        if self.format == 8 && !self.property.is_empty() {
            return Some(&self.property);
        }
        self.xresources.as_deref().or(self.xdefaults.as_deref())
    }

    /// The text named by XENVIRONMENT if that is set, else the host's.
    fn second(&self) -> Option<&[u8]> {
        if self.xenvironment_set {
            return self.xenvironment.as_deref();
        }
        self.host.as_deref()
    }
}
