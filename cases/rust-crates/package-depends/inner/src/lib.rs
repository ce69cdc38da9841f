mod kind;

pub use kind::Kind;

#[repr(C)]
pub struct Header {
    #[cfg(feature = "wide")]
    pub length: u64,
    #[cfg(not(feature = "wide"))]
    pub length: u16,
    pub unit: units::Unit,
}

struct Secret(u8);
