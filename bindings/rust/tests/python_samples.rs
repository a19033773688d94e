//! The samples are those that the Python package packs, to the byte.

mod samples;

use samples::samples;
use std::collections::BTreeMap;
use std::path::Path;
use std::process::Command;

/// What bindings/python/tests/samples.py writes: the bytes of each file by its name.
fn by_python() -> BTreeMap<String, Vec<u8>> {
    let python = Path::new(env!("CARGO_MANIFEST_DIR")).join("../python");
    let folder = Path::new(env!("CARGO_TARGET_TMPDIR")).join("python_samples");
    let _ = std::fs::remove_dir_all(&folder);
    let mut program = Command::new("python3");
    program.env("PYTHONPATH", &python).arg("-B").arg(python.join("tests/samples.py")).arg(&folder);
    assert!(program.status().expect("python3 runs").success(), "samples.py failed");
    let files = std::fs::read_dir(folder).expect("samples.py makes the folder").map(|file| file.expect("a file").path());
    files.map(|path| (path.file_name().unwrap().to_str().unwrap().to_string(), std::fs::read(path).unwrap())).collect()
}

#[test]
fn python_packs_the_same_bytes() {
    let (python, rust) = (by_python(), BTreeMap::from_iter(samples()));
    assert!(python.keys().eq(rust.keys()), "Python has {:?}, Rust {:?}", python.keys(), rust.keys());
    for (name, bytes) in &python {
        assert_eq!(bytes, &rust[name], "{name}");
    }
}
