//! The readable notation and the second checker know nothing of each other: here they are seen to agree.

use comparison::{encoding, generator};
use notation::{decoding, folder, print};
use second_checker::reading;
use second_checker::verdict::{verdict, WORK_LENGTH};
use std::collections::BTreeSet;
use std::fmt::Debug;
use std::fs;
use std::path::{Path, PathBuf};

const SEED: u64 = 11;
const FINDINGS: u64 = 500;
const ROUND_TRIPS: u64 = 4000;

/// The folders under `examples`.
fn examples() -> Vec<PathBuf> {
    let entries = fs::read_dir(Path::new(env!("CARGO_MANIFEST_DIR")).join("../../examples")).expect("the examples");
    let paths = entries.map(|entry| entry.expect("an example").path());
    let folders: Vec<PathBuf> = paths.filter(|path| path.is_dir()).collect();
    assert!(folders.len() > 5, "{folders:?}");
    folders
}

fn slices(folder: &Path) -> [Vec<u8>; 3] {
    folder::FILES.map(|file| fs::read(folder.join(file)).expect("a slice of an example"))
}

/// The three slices of the examples and of generated findings.
fn all_slices() -> Vec<Vec<u8>> {
    let written = examples().into_iter().flat_map(|folder| slices(&folder));
    let generated = (0..FINDINGS).map(|number| generator::finding(SEED, number));
    written.chain(generated.flat_map(|finding| [finding.first, finding.second, finding.formula])).collect()
}

/// What a decoder makes of a slice: the tree as it is printed, or the rule that is broken and the place. The two syntaxes
/// name everything alike.
type Made = Result<String, (u32, usize)>;

fn by_notation<T: Debug>(decoded: Result<T, decoding::Refusal>) -> Made {
    decoded.map(|tree| format!("{tree:?}")).map_err(|refusal| (refusal.rule, refusal.place))
}

fn by_checker<T: Debug>(read: &Result<T, reading::Refusal>) -> Made {
    read.as_ref().map(|tree| format!("{tree:?}")).map_err(|refusal| (refusal.rule, refusal.place))
}

/// Each slice is decoded as a model and as a formula, whichever it is.
#[test]
fn both_decode_every_slice_alike() {
    let mut rules = BTreeSet::new();
    for slice in all_slices() {
        let (model, formula) = (reading::process(&slice), reading::formula(&slice));
        assert_eq!(by_notation(decoding::process(&slice)), by_checker(&model), "{slice:02x?}");
        assert_eq!(by_notation(decoding::formula(&slice)), by_checker(&formula), "{slice:02x?}");
        rules.extend([model.err(), formula.err()].into_iter().flatten().map(|refusal| refusal.rule));
    }
    assert_eq!(rules, [1, 2, 3, 4, 6, 7, 8].into());
}

/// The comparison's encoder writes what the second checker reads.
#[test]
fn slices_are_encoded_again() {
    for slice in all_slices() {
        assert!(reading::process(&slice).map_or(true, |tree| encoding::process(&tree) == slice), "{slice:02x?}");
        assert!(reading::formula(&slice).map_or(true, |tree| encoding::formula(&tree) == slice), "{slice:02x?}");
    }
}

#[test]
fn the_second_checker_gives_the_answer_of_each_example() {
    for folder in examples() {
        let [first, second, formula] = slices(&folder);
        let got = verdict(&first, &second, &formula, &mut vec![1; WORK_LENGTH], 1_000_000);
        let (written, _) = folder::finding(&folder).unwrap_or_else(|lines| panic!("{lines:?}"));
        let answer = written.answer.map(|(numbers, _)| numbers);
        assert_eq!(Some([got.result, got.slice, got.place, got.count]), answer, "{}", folder.display());
    }
}

/// Good slices are printed as a text that has no fault and nothing doubtful, and that encodes to the same bytes. Each is
/// printed by itself, since the others of its finding may be refused.
#[test]
fn what_is_printed_encodes_to_the_same_bytes() {
    let mut good = [0; 2];
    for number in 0..ROUND_TRIPS {
        let finding = generator::finding(SEED, number);
        for (index, slice) in [finding.first, finding.second, finding.formula].into_iter().enumerate() {
            let nil = decoding::process(&[0]).expect("nil");
            let truth = decoding::formula(&[0, 0, 0, 0, 0]).expect("true");
            let text = match index {
                2 => decoding::formula(&slice).map(|formula| print::finding(&nil, &nil, &formula)),
                _ => decoding::process(&slice).map(|model| print::finding(&model, &nil, &truth)),
            };
            let Ok(text) = text else { continue };
            let reading = notation::reading(&text);
            assert!(reading.faults.is_empty() && reading.warnings.is_empty(), "{:?}\n{text}", reading.warnings);
            let encoded = reading.finding.map(|finding| finding.slices[if index == 2 { 2 } else { 0 }].bytes.clone());
            assert_eq!(encoded, Some(slice), "{text}");
            good[usize::from(index == 2)] += 1;
        }
    }
    assert!(good[0] > 5000 && good[1] > 2500, "{good:?}");
}
