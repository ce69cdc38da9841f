pub mod sibling;

pub struct Elsewhere {
    pub sibling: sibling::Sibling,
    pub more: u8,
}
