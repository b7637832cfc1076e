pub struct Area(pub u32);
