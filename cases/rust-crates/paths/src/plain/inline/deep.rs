pub struct Deep(pub u16, pub u32);
