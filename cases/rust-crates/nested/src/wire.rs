pub mod frame;

pub const LENGTH: usize = frame::HEADER + 2;

#[repr(u16)]
pub enum Kind {
    Data,
    End,
}
