#[path = "beside.rs"]
pub mod beside;

pub mod inline {
    #[path = "deep.rs"]
    pub mod other;
}
