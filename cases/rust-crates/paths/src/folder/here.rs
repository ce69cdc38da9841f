pub struct Here {
    pub byte: u8,
    pub word: u16,
}
