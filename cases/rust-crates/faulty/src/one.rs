pub struct One(pub Absent);
pub struct Two(pub u32);
