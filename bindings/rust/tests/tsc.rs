//! The reference TSC page. The expected values are those of integers without a limit.

use synicboard::TscPage;

#[test]
fn a_page_has_the_time_that_it_was_made_for() {
    let page = TscPage::new(2_700_000_000, 1_000_000_000_000, 5).unwrap();
    assert_eq!((page.scale(), page.offset()), (68321274347072413, 18446744070005847918));
    assert_eq!(page.time_at(1_000_000_000_000), 5);
    assert_eq!(page.time_at(1_002_700_000_000), 10_000_005);
    let moved = page.moved(7, u64::MAX);
    assert_eq!((moved.scale(), moved.time_at(7), moved.time_at(277)), (page.scale(), u64::MAX, 0));
}

#[test]
fn a_time_comes_at_its_first_tick() {
    let page = TscPage::new(2_700_000_000, 1_000_000_000_000, 5).unwrap();
    for time in 5..500 {
        let tsc = page.until(time);
        assert_eq!((page.time_at(tsc), page.time_at(tsc - 1)), (time, time - 1));
    }
}

#[test]
fn a_slow_tsc_has_no_page() {
    assert_eq!(TscPage::new(10_000_000, 0, 1), None);
    assert_eq!(TscPage::new(10_000_001, 0, 1).unwrap().scale(), 18446742229035328712);
}
