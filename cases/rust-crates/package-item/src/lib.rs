//! A package that depends on one with an item that can't be read here.

pub struct Kept(u8, u16);

pub struct Found(old::Length);

pub struct Lost(*const old::Action);
