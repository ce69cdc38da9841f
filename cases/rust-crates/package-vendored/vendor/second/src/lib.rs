pub struct Inner(u16);
