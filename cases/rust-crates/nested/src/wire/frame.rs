use super::Kind;

pub const HEADER: usize = 3;

pub struct Frame {
    pub kind: Kind,
    pub length: u32,
    pub next: Option<Box<Self>>,
    pub tail: crate::inline::deep::under::Under,
}
