use app::Area;

fn main() {
    let _ = Area(6);
}
