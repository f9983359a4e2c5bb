#[path = "../originals.rs"]
mod originals;

fn main() {
    originals::declare("hv-core", &["p2m"]);
}
