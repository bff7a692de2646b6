include!("../link.rs");

fn main() {
    link("pictures");
}
