//! The making of views, compared with the rules in `reference`.

mod cases;
mod reference;

use std::collections::BTreeMap;

use cases::coverage::Coverage;
use cases::layouts;
use ondristela::raw::{self, ViewNumbers};
use reference::access::{self, View};
use reference::layout::Layout;
use reference::random::Random;

const SEED: u64 = 51;
const CASES: u64 = 100_000;

/// The view's numbers before it is made: a refusal must leave them.
const UNTOUCHED: ViewNumbers = [0xA5A5_5A5A_0FF0_F00F; 13];

fn expected_view(made: Result<View, u64>) -> (u64, ViewNumbers) {
    match made {
        Ok(view) => (0, view.numbers()),
        Err(refusal) => (refusal, UNTOUCHED),
    }
}

#[test]
fn plain_views() {
    let mut coverage = Coverage::new("plain view");
    for case in 0..CASES {
        let mut random = Random::of_case(SEED, case);
        let pair = layouts::pair(&mut random);
        let layout = random.pick(&pair);
        let mut view = UNTOUCHED;
        let answer = raw::view_plain(&layout.numbers(), &mut view);
        let expected = expected_view(access::plain(&layout));
        assert_eq!((answer, view), expected, "plain view, seed {SEED} case {case}: {layout:?}");
        coverage.count(answer);
    }
    coverage.assert_exactly(&[0, 11], 1_000);
}

#[test]
fn protected_views() {
    let mut coverage = Coverage::new("protected view");
    for case in 0..CASES {
        let [outer, hidden] = layouts::pair(&mut Random::of_case(SEED, case));
        let mut view = UNTOUCHED;
        let answer = raw::view_protected(&outer.numbers(), &hidden.numbers(), &mut view);
        let expected = expected_view(access::protected(&outer, &hidden));
        assert_eq!((answer, view), expected, "protected view, seed {SEED} case {case}: {outer:?} {hidden:?}");
        coverage.count(answer);
    }
    coverage.assert_exactly(&[0, 11, 12], 1_000);
}

/// The sizes of the disk's sectors that a pair has, and what a view of it is refused: 12 where the sizes differ and it
/// would be made if the hidden one's were the outer's, 11 where only a size is unsound, and 0 where nothing is wrong.
fn decided_by_sector_size(outer: &Layout, hidden: &Layout) -> Option<(u64, u64)> {
    let answer = access::protected(outer, hidden).err().unwrap_or(0);
    let [fine_outer, fine_hidden] = [outer, hidden].map(|layout| Layout { sector_size: 512, ..*layout });
    let is_told = access::protected(&fine_outer, &fine_hidden).is_ok();
    is_told.then_some((answer, outer.sector_size.max(hidden.sector_size)))
}

/// Each size is accepted in both, and each larger one is refused 12 with a smaller one. Others are unsound.
#[test]
fn pairs_show_every_sector_size() {
    let (mut reached, mut unsound) = (BTreeMap::new(), 0);
    for case in 0..CASES {
        let [outer, hidden] = layouts::pair(&mut Random::of_case(SEED, case));
        match decided_by_sector_size(&outer, &hidden) {
            Some((11, _)) => unsound += 1,
            Some(sort) => *reached.entry(sort).or_insert(0) += 1,
            None => {}
        }
    }
    println!("by answer and sector size: {reached:?}; {unsound} are unsound by theirs alone");
    assert_eq!(reached.len(), 4 + 3, "{reached:?}");
    assert!(unsound >= 1_000 && reached.values().all(|count| *count >= 200), "{unsound}, {reached:?}");
}
