include!("../../tests/link.rs");

fn main() {
    link("pictures");
}
