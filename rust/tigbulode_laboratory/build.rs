//! Links the laboratory's static library.

include!("../link.rs");

fn main() {
    link("laboratory", "TIGBULODE_LABORATORY_LIB");
}
