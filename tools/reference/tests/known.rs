//! P1 to P12 and the "Also" cases against what document 01 says.

#[test]
fn cases_of_document_01() {
    let differences = reference::cases::differences();
    assert!(differences.is_empty(), "{}", differences.join("\n"));
}

#[test]
fn every_numbered_case_is_there() {
    let names: Vec<&str> = reference::cases::known().iter().map(|known| known.name).collect();
    for number in 1..=12 {
        assert!(names.contains(&format!("P{number}").as_str()), "P{number} is missing");
    }
}
