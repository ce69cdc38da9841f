pub struct Program(#[cfg(feature = "wide")] u8, u16);
