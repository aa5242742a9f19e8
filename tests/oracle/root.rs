//! The crate around the Rust under test: what its module needs of the crate that it comes from.

#![no_std]

extern crate alloc;
extern crate counting_std as std;

pub mod altered;
pub mod resource_manager;

pub use std::count_opens;

/// Stands in for the two types of the X protocol that the module names.
pub mod protocol {
    pub mod xproto {
        use alloc::vec::Vec;

        pub struct GetPropertyRequest {
            pub delete: bool,
            pub window: u32,
            pub property: u32,
            pub type_: u32,
            pub long_offset: u32,
            pub long_length: u32,
        }

        pub struct GetPropertyReply {
            pub format: u8,
            pub value: Vec<u8>,
        }
    }
}
