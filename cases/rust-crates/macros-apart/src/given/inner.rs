given! { pub struct I(u8); }
