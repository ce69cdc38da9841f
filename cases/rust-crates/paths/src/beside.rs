pub struct Beside(pub u64, pub u8);
