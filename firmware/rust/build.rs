//! Links the station's static library.

include!("../link.rs");

fn main() {
    link("firmware/library", "TIGBULODE_LIB");
}
