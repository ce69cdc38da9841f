#[repr(C)]
pub struct Header {
    pub kind: u8,
    #[cfg(feature = "std")]
    pub length: u64,
    #[cfg(feature = "alloc")]
    pub count: u32,
    #[cfg(feature = "small")]
    pub small: u16,
}
