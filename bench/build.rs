//! Says where the library to time lies: the folder in the variable URDDOLWY_LIB.

fn main() {
    println!("cargo:rerun-if-env-changed=URDDOLWY_LIB");
    if let Ok(folder) = std::env::var("URDDOLWY_LIB") {
        println!("cargo:rustc-link-search=native={folder}");
        println!("cargo:rerun-if-changed={folder}/liburddolwy.a");
        println!("cargo:rerun-if-changed={folder}/liblookups.a");
    }
}
