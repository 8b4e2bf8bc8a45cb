// Links the archive that STANDBY_ARCHIVE names (its whole path): libservice.a, or the baseline built under the same names.
fn main() {
    println!("cargo:rerun-if-env-changed=STANDBY_ARCHIVE");
    let archive = std::env::var("STANDBY_ARCHIVE").expect("STANDBY_ARCHIVE must name the archive to compare with");
    println!("cargo:rerun-if-changed={archive}");
    println!("cargo:rustc-link-arg={archive}");
}
