//! Answers of the library as numbers and as text.

use library::{verdict, Answer, WORK_BYTES};

/// "There is no output on name 0", of a card that does nothing and of one that sends name 0 on name 0.
fn judged(work: usize, budget: u32) -> Answer {
    verdict(&[0], &[2, 0, 0, 0, 0, 0], &[1, 3, 0, 0, 0, 0, 0, 0, 0], &mut vec![0; work], budget)
}

#[test]
fn numbers_and_text() {
    assert_eq!(judged(WORK_BYTES, 5).numbers(), [0, 0, 0, 5]);
    assert_eq!(judged(WORK_BYTES, 4).to_string(), "10 0 0 4");
    assert_eq!(judged(WORK_BYTES - 1, 5).to_string(), "9 0 0 0");
    assert_eq!(verdict(&[0, 0], &[], &[], &mut [0; WORK_BYTES], 5).to_string(), "8 1 1 0");
}
