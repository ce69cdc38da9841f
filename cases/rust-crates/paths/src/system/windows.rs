pub struct Handle(pub *mut u8);
