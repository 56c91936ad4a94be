//! Links the static library that `bin/build charuco` builds.

include!("link.rs");

fn main() {
    link("charuco");
}
