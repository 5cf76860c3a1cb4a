// Links the proved archive and the C object, as bench/run makes them.
fn main() {
    println!("cargo:rustc-link-search=native=../target/staticlib");
    println!("cargo:rustc-link-search=native=../target/bench");
    println!("cargo:rustc-link-lib=static=bench");
    println!("cargo:rustc-link-lib=static=c_permute");
    println!("cargo:rerun-if-changed=../target/staticlib/libbench.a");
    println!("cargo:rerun-if-changed=../target/bench/libc_permute.a");
}
