pub mod under;

pub struct Deep(pub under::Under, pub u64);
