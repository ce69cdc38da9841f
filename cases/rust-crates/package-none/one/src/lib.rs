pub struct Unread(u8);
