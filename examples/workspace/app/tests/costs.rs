use app::Area;

#[cfg(test)]
mod floors {
    use super::Area as Floor;
}
