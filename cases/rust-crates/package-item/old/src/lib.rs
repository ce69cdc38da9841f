pub type Length = u16;
pub type Action = Fn(&u8) + Send;
