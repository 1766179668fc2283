//! Every gap up to a good way past the quiet limit.

use compare::agreement::assert_agreement;
use compare::call::Call;

#[test]
fn every_gap_up_to_200_in_hsm() {
    let calls: Vec<Call> = (0..=200).map(|gap| Call::judge(0, gap)).collect();
    assert_agreement(&calls);
}

#[test]
fn every_gap_up_to_4000_in_lsm() {
    let calls: Vec<Call> = (0..=4000).map(|gap| Call::judge(1, gap)).collect();
    assert_agreement(&calls);
}
