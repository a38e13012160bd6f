//! One version: the crate's, the library's and the header's.

#[test]
fn crate_library_and_header_have_one_version() {
    let major: u32 = env!("CARGO_PKG_VERSION_MAJOR").parse().unwrap();
    let minor: u32 = env!("CARGO_PKG_VERSION_MINOR").parse().unwrap();
    assert_eq!(physica::VERSION, 100 * major + minor);
    assert_eq!(physica::library_version(), physica::VERSION);
    let header = std::fs::read_to_string(concat!(env!("CARGO_MANIFEST_DIR"), "/../include/physica.h")).unwrap();
    assert!(header.lines().any(|line| line == format!("#define PHYSICA_VERSION {}", physica::VERSION)));
}
