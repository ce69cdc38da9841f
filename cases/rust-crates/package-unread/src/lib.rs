//! A package that depends on one whose text can't be read here.

pub struct Kept(u8, u16);

pub struct Lost(old::Length);
