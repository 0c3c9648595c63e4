//! Links the port: MARKET_TIME_LIB is the folder that holds libmarket_time.a.

fn main() {
    println!("cargo:rerun-if-env-changed=MARKET_TIME_LIB");
    let folder = std::env::var("MARKET_TIME_LIB").expect("MARKET_TIME_LIB, the library's folder");
    println!("cargo:rerun-if-changed={folder}/libmarket_time.a");
    println!("cargo:rustc-link-search=native={folder}");
    println!("cargo:rustc-link-lib=static=market_time");
}
