pub struct Other(#[cfg(feature = "wide")] u8);
