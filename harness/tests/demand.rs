//! Demand 3 on tiny plans, by exhaustive search.

use harness::demand::check_many;
use harness::subject::Own;

#[test]
fn tiny_plans_agree_with_the_search() {
    let counts = check_many(20_240, 600, &Own).unwrap_or_else(|why| panic!("{why}"));
    assert!(counts.lasting > 100 && counts.without_strategy > 100 && counts.own_offers > 10_000, "{counts:?}");
}
