// Runs our scanner over the recorded inputs. Each answer must be the original's
// (oracle/recorded.txt) or, where the two differ, the one in oracle/ours.txt. Status 1: an answer
// is neither.
mod listing;
mod ours;
mod recorded;

use listing::Listing;
use recorded::Case;

// What is wrong with our answer to a recorded case; other is its case of ours.txt.
fn fault(case: &Case, other: Option<&Case>, answer: &str, headings: &[String]) -> Option<String> {
    let Some(other) = other else {
        return (answer != case.answer)
            .then(|| format!("ours is not the original's, and ours.txt has no case:\n{answer}"));
    };
    if other.answer == case.answer {
        return Some("the case of ours.txt has the original's answer".into());
    }
    if other.names.is_empty() {
        return Some("the case of ours.txt names no entry of docs/DIFFERENCES.md".into());
    }
    if let Some(name) = other.names.iter().find(|name| !headings.contains(name)) {
        return Some(format!("docs/DIFFERENCES.md has no entry \"{name}\""));
    }
    (answer != other.answer).then(|| format!("ours is not that of ours.txt:\n{answer}"))
}

fn answer(case: &Case, listing: &mut Listing) -> String {
    let (size, bytes) = case.input();
    ours::list(&bytes, 0, size, listing);
    let mut out = Vec::new();
    listing.print(&mut out);
    String::from_utf8_lossy(&out).into_owned()
}

fn main() {
    let (cases, others) = (recorded::read("oracle/recorded.txt"), recorded::read("oracle/ours.txt"));
    let (known, others_by_input) = (recorded::by_input(&cases), recorded::by_input(&others));
    let headings = recorded::headings();
    let (mut passed, mut failed) = (0, 0);
    let mut listing = Listing::default();
    let mut count = |input: &str, fault: Option<String>| match fault {
        None => passed += 1,
        Some(what) => {
            failed += 1;
            println!("{input}: {what}");
        }
    };
    for case in &cases {
        let other = others_by_input.get(case.input.as_str()).copied();
        count(&case.input, fault(case, other, &answer(case, &mut listing), &headings));
    }
    for other in others.iter().filter(|other| !known.contains_key(other.input.as_str())) {
        count(&other.input, Some("ours.txt has a case that is not recorded".into()));
    }
    println!("{} of the answers are the original's", cases.len() - others.len().min(cases.len()));
    println!("{passed} passed, {failed} failed");
    std::process::exit(i32::from(failed > 0));
}
