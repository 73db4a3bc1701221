//! The program `copies` counts what is copied: the linker hands it every call of these three.
fn main() {
    for name in ["memcpy", "memmove", "memset"] {
        println!("cargo:rustc-link-arg-bin=copies=-Wl,--wrap={name}");
    }
}
