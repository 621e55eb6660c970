//! One of the programs counts the calls of memcpy.
fn main() {
    println!("cargo:rustc-link-arg-bin=costs=-Wl,--wrap=memcpy");
}
