pub mod one;

pub struct Root(pub u8);
