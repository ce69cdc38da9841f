#[cfg(feature = "huge")]
pub type Unit = u128;
#[cfg(all(feature = "big", not(feature = "huge")))]
pub type Unit = u64;
#[cfg(not(any(feature = "big", feature = "huge")))]
pub type Unit = u32;
