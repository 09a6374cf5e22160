//! The example says of the surveys in `../examples` what the one in C says.

#[allow(dead_code)]
#[path = "../examples/agree.rs"]
mod agree;

fn said(distance: &str, other: &str) -> String {
    let survey = |name| format!("{}/../examples/{name}", env!("CARGO_MANIFEST_DIR"));
    match agree::answer(distance, &survey("sketch.txt"), &survey(other)) {
        Ok(answer) => answer.to_string(),
        Err(error) => error.to_string(),
    }
}

#[test]
fn surveys_agree_as_in_c() {
    let half = "no: point 3 of line A is not near the other line (visits: 8)";
    assert_eq!(said("16", "half.txt"), half);
    assert_eq!(said("16", "whole.txt"), "yes (visits: 42)");
    let distance = "refused 7: the distance is not from 0 to 2,000,000";
    assert_eq!(said("2000001", "whole.txt"), distance);
    let doubled = "refused 5: points 1 and 2 of line A are equal";
    assert_eq!(said("16", "doubled.txt"), doubled);
}
