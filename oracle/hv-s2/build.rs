#[path = "../originals.rs"]
mod originals;

fn main() {
    originals::declare("hv-s2", &["arm64", "check", "leafmap"]);
}
