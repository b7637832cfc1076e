pub struct Metre(pub u32);
