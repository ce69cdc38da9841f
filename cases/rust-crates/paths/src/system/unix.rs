pub struct Handle(pub i32);
