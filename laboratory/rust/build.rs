//! Links the laboratory's static library.

include!("../../firmware/link.rs");

fn main() {
    link("laboratory/library", "TIGBULODE_LABORATORY_LIB");
}
