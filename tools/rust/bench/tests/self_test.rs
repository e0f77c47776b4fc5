//! Every case that is timed is accepted and has the same bits on both sides, with the oracle in the library's place.

use bench::case::{Case, Timed};
use bench::measure::measure;
use differential::doors::ORACLE;

#[test]
fn every_small_case_has_the_same_bits() {
    for timed in Timed::ALL {
        for case in Case::all(timed).iter().filter(|case| case.atoms <= 2) {
            let times = measure(case, &ORACLE, 1).expect("the same bits");
            assert!(times.rattle > 0.0 && times.rust > 0.0);
        }
    }
}
