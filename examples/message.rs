//! What a small protocol sends.

/// What stands before each message.
#[repr(C)]
pub struct Header {
    version: u8,
    kind: u16,
    len: u32,
}

/// A message.
pub enum Message<'a> {
    Quit,
    Move { x: i32, y: i32 },
    Write(&'a str),
    Colour(u8, u8, u8),
}

/// What was received, with the message that it answers.
pub struct Received<'a> {
    header: Header,
    message: Message<'a>,
    answers: Option<Box<Received<'a>>>,
}
