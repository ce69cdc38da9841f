pub(crate) mod circle;
pub use self::circle::Circle;

pub struct Square {
    pub side: f32,
    pub corner: circle::Point,
}
