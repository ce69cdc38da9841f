pub struct Under {
    pub shape: super::super::super::Circle,
    pub mark: bool,
}
