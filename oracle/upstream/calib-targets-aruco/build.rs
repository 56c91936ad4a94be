fn main() {
    upstream_text::declare("crates/calib-targets-aruco/src", &["matcher.rs"]);
}
