//! Links the static library that `bin/build oracle_exports` builds.

include!("../../bindings/charuco/link.rs");

fn main() {
    link("oracle_exports");
}
