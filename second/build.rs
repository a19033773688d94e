//! With the feature `archive`, links `libplugin.a` from the directory in RAFTTWINE_ARCHIVE_DIR.

fn main() {
    println!("cargo:rerun-if-changed=build.rs");
    println!("cargo:rerun-if-env-changed=RAFTTWINE_ARCHIVE_DIR");
    if std::env::var_os("CARGO_FEATURE_ARCHIVE").is_none() {
        return;
    }
    let directory = std::env::var("RAFTTWINE_ARCHIVE_DIR").expect("the feature `archive` needs RAFTTWINE_ARCHIVE_DIR");
    // A changed archive has to be linked again.
    println!("cargo:rerun-if-changed={directory}/libplugin.a");
    println!("cargo:rustc-link-search=native={directory}");
    println!("cargo:rustc-link-lib=static=plugin");
}
