pub struct Inner {
    pub at: u16,
}
