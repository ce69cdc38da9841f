pub mod one;

pub struct Root(pub one::One);
