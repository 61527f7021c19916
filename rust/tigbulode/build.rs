//! Links the station's static library.

include!("../link.rs");

fn main() {
    link("firmware", "TIGBULODE_LIB");
}
