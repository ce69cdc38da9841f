pub struct Sibling(pub u32);
