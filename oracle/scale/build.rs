// Links the proved archive, which `tests/build galmuriec_c` makes.
fn main() {
    println!("cargo:rustc-link-search=native=../../target/staticlib");
    println!("cargo:rustc-link-lib=static=galmuriec_c");
    println!("cargo:rerun-if-changed=../../target/staticlib/libgalmuriec_c.a");
}
