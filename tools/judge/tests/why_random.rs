//! Random findings of the comparison, explained: the second checker always agrees, every answer that has reasons is given
//! some, and each place and word is known.

mod support;

use comparison::generator;
use judge::why::{explanation, Explanation};
use support::{judged, of_slices, readable};

const SEED: u64 = 3;
const FINDINGS: u64 = 4000;

#[test]
fn each_is_explained() {
    let mut explained = [0; 14];
    for number in 0..FINDINGS {
        let finding = generator::finding(SEED, number);
        let loaded = of_slices([finding.first, finding.second, finding.formula]);
        let answer = judged(&loaded, finding.budget);
        let told = explanation(&loaded.slices, None, answer, finding.budget);
        let Explanation::Told(lines) = told else { panic!("{told:?}, in\n{}", readable(&loaded.slices)) };
        let text = lines.join("\n");
        let has_reasons = answer.result != 10;
        assert_eq!(lines.len() > 2, has_reasons, "{answer}\n{text}");
        assert!(!text.contains("unknown") && text.matches('?').count() == usize::from(has_reasons), "{text}");
        explained[answer.result as usize] += 1;
    }
    assert!([0, 10, 11, 12, 13].iter().all(|result| explained[*result] > 100), "{explained:?}");
}
