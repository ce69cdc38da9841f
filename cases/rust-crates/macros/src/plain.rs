given! { pub struct Plain(u8, u16); }
