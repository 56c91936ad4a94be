const FOLDER: &str = "crates/calib-targets-charuco/src";

fn main() {
    let files = ["alignment.rs", "board.rs", "link_check.rs"];
    upstream_text::declare(FOLDER, &files);
    let detector = format!("{FOLDER}/detector");
    upstream_text::declare(&detector, &["corner_mapping.rs", "marker_sampling.rs"]);
    upstream_text::declare_folder(
        &format!("{detector}/board_match"),
        &["mod.rs", "emit.rs", "hypothesis.rs", "score_matrix.rs"],
        "src/diagnostics.rs",
    );
}
