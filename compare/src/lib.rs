//! The comparison of the port with the Rust original, over the line protocol of `replay`.

/// The Rust original, as the build assembled it.
pub mod original {
    include!(concat!(env!("OUT_DIR"), "/original.rs"));
}

/// What the original needs of crates that are not supplied.
pub mod standin {
    pub mod rubo4e;
    pub mod time;
}

pub mod asked;
#[cfg(feature = "bench")]
pub mod bench;
pub mod calls;
pub mod cases;
pub mod driver;
pub mod groups;
pub mod list;
pub mod listed;
pub mod model;
pub mod oracle;
pub mod paper;
pub mod random;
pub mod request;
pub mod tables;
pub mod tree;
pub mod tried;
