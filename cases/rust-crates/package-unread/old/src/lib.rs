pub type Length = u16;
pub type Action = (u8;
