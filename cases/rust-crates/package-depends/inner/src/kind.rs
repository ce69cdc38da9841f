#[cfg(feature = "narrow")]
pub type Kind = u8;
#[cfg(not(feature = "narrow"))]
pub type Kind = u16;
