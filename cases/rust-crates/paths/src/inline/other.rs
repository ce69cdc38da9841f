pub struct Other {
    pub of: Option<char>,
}
