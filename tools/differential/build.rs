// Each program links the static library that `rt lib` in crates/NAME writes: crates/NAME/out/libNAME.a.
fn main() {
    let root = std::path::Path::new(env!("CARGO_MANIFEST_DIR")).join("../../crates");
    for (program, library) in [
        ("refusals", "refuse"),
        ("settled", "remaining"),
        ("calls", "station"),
        ("merges", "station"),
        ("joins", "station"),
        ("rosters", "station"),
        ("sheets", "sheetwords"),
        ("sheetcalls", "station"),
        ("bench", "station"),
    ] {
        let file = root.join(format!("{library}/out/lib{library}.a"));
        println!("cargo:rustc-link-arg-bin={program}={}", file.display());
        println!("cargo:rerun-if-changed={}", file.display());
    }
}
