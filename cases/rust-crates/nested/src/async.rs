pub enum Task {
    Waiting(u32),
    Done,
}
