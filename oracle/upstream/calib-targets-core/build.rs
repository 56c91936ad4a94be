fn main() {
    let files = [
        "bit_likelihood.rs",
        "corner_map.rs",
        "grid_alignment.rs",
        "image.rs",
    ];
    upstream_text::declare("crates/calib-targets-core/src", &files);
}
