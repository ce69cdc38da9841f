#[path = "one.rs"]
mod one;
#[path = "../src/lib.rs"]
mod root;

pub struct One(pub u32);
