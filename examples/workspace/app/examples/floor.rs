use app::Area;
use shapes::Volume;

fn main() {
    let _ = Area(2);
}
