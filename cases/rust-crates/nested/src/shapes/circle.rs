pub struct Point {
    pub x: i16,
    pub y: i16,
}

pub struct Circle {
    pub centre: Point,
    pub radius: f64,
}
