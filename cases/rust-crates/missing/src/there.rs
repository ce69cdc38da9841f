mod further;

pub struct There(pub u16);
pub struct Further(pub further::Gone);
