//! Interleavings of two lists of calls on one image, raw ones and ones on plaintext, compared with the reference model
//! and with each other (docs/RULES.md, Interleavings).

mod cases;
mod reference;

use std::mem;

use cases::coverage::Coverage;
use cases::lists::Lists;
use ondristela::raw::{self, ViewNumbers};
use reference::access::{covered, View};
use reference::model::{Call, Outcome, ReferenceModel, INNER, OUTER};
use reference::random::Random;
use reference::xts::Key;

const SEED: u64 = 31;
/// So many pairs of lists for each size of the disk's sectors.
const CASES: u64 = 750;
const RANDOM_ORDERS: usize = 4;

/// What an order of calls came to: each list's outcomes, the image and the views' numbers at the end. It is
/// filled anew for each order, so that the images' memory is kept.
#[derive(Default)]
struct End {
    outcomes: [Vec<Outcome>; 2],
    image: Vec<u8>,
    views: [ViewNumbers; 2],
}

/// The library's two views, with the locks that they start with.
fn library_views(lists: &Lists) -> [ViewNumbers; 2] {
    let [outer, hidden] = lists.layouts.map(|layout| layout.numbers());
    let mut views = [[0; 13]; 2];
    assert_eq!(raw::view_protected(&outer, &hidden, &mut views[OUTER]), 0);
    assert_eq!(raw::view_plain(&hidden, &mut views[INNER]), 0);
    views[OUTER][12] = lists.locks[OUTER];
    views[INNER][12] = lists.locks[INNER];
    views
}

fn library_step(view: &mut ViewNumbers, key: &Key, image: &mut [u8], call: &Call) -> Outcome {
    let (mut buffer, mut sector) = (call.buffer.clone(), [call.sector]);
    let (first, count) = (call.extent.first, call.extent.count);
    let answer = match (call.writes, call.on_plaintext) {
        (false, false) => raw::read(view, image, first, count, &mut buffer, &mut sector),
        (true, false) => raw::write(view, image, first, count, &buffer, &mut sector),
        (false, true) => raw::read_plaintext(view, key, image, first, count, &mut buffer, &mut sector),
        (true, true) => raw::write_plaintext(view, key, image, first, count, &buffer, &mut sector),
    };
    Outcome { answer, buffer, sector: sector[0] }
}

/// The calls in their order, each with its side.
fn in_order<'a>(lists: &'a Lists, order: &'a [usize]) -> impl Iterator<Item = (usize, &'a Call)> {
    let mut calls = [lists.calls[OUTER].iter(), lists.calls[INNER].iter()];
    order.iter().map(move |side| (*side, calls[*side].next().expect("an order of these lists")))
}

impl End {
    fn start(&mut self, lists: &Lists) {
        self.outcomes = Default::default();
        self.image.clone_from(&lists.image);
    }

    fn fill_by_library(&mut self, lists: &Lists, order: &[usize]) {
        self.start(lists);
        self.views = library_views(lists);
        for (side, call) in in_order(lists, order) {
            let outcome = library_step(&mut self.views[side], &lists.keys[side], &mut self.image, call);
            self.outcomes[side].push(outcome);
        }
    }

    fn fill_by_model(&mut self, lists: &Lists, order: &[usize]) {
        self.start(lists);
        let image = mem::take(&mut self.image);
        let mut model = ReferenceModel { image, views: lists.views(), keys: lists.keys };
        for (side, call) in in_order(lists, order) {
            self.outcomes[side].push(model.step(side, call));
        }
        self.image = model.image;
        self.views = model.views.map(|view| view.numbers());
    }
}

/// Every outcome, the image and the views are the reference model's.
fn assert_is_models(end: &End, model: &End, context: impl Fn() -> String) {
    for side in [OUTER, INNER] {
        assert_same_outcomes(&end.outcomes[side], &model.outcomes[side], || {
            format!("list {side}, {}", context())
        });
    }
    assert!(end.image == model.image, "another image, {}", context());
    assert_eq!(end.views, model.views, "{}", context());
}

fn assert_same_outcomes(given: &[Outcome], expected: &[Outcome], context: impl Fn() -> String) {
    assert_eq!(given.len(), expected.len(), "{}", context());
    for (index, (given, expected)) in given.iter().zip(expected).enumerate() {
        let [given_reply, reply] = [given, expected].map(|outcome| (outcome.answer, outcome.sector));
        assert_eq!(given_reply, reply, "answer and sector of call {index}, {}", context());
        assert!(given.buffer == expected.buffer, "buffer of call {index}, {}", context());
    }
}

/// Makes the bytes zero that an accepted outer read gives of protected sectors: they alone may depend on
/// the order.
fn without_protected_bytes(lists: &Lists, mut outcomes: Vec<Outcome>) -> Vec<Outcome> {
    let view = lists.views()[OUTER];
    for (call, outcome) in lists.calls[OUTER].iter().zip(&mut outcomes) {
        if !call.writes && outcome.answer == 0 {
            clear_protected(&view, call, &mut outcome.buffer);
        }
    }
    outcomes
}

fn clear_protected(view: &View, call: &Call, buffer: &mut [u8]) {
    let protected = view.protected_start / 512..view.protected_end / 512;
    for (bytes, host) in buffer.chunks_mut(512).zip(covered(&view.layout, call.extent)) {
        if protected.contains(&host) {
            bytes.fill(0);
        }
    }
}

/// Two orders of the same lists end alike. Tells whether outer reads of protected sectors differed.
fn assert_ends_alike(first: &End, other: &End, lists: &Lists, context: impl Fn() -> String) -> bool {
    assert!(first.image == other.image, "another order, another image, {}", context());
    assert_eq!(first.views, other.views, "another order, other views, {}", context());
    assert_same_outcomes(&first.outcomes[INNER], &other.outcomes[INNER], &context);
    let [first_outer, other_outer] =
        [first, other].map(|end| without_protected_bytes(lists, end.outcomes[OUTER].clone()));
    assert_same_outcomes(&first_outer, &other_outer, &context);
    first.outcomes[OUTER] != other.outcomes[OUTER]
}

fn orders(lists: &Lists, random: &mut Random) -> Vec<Vec<usize>> {
    let mut orders = vec![lists.order_from(OUTER), lists.order_from(INNER)];
    orders.extend((0..RANDOM_ORDERS).map(|_| lists.random_order(random)));
    orders
}

/// The ends that are compared: the first order's, another order's, and the reference model's.
#[derive(Default)]
struct Ends {
    first: End,
    other: End,
    model: End,
}

impl Ends {
    /// Checks all orders of one pair of lists, and tells in how many outer reads differed from the first's.
    fn check(&mut self, lists: &Lists, orders: &[Vec<usize>], case: u64) -> usize {
        let context = |order: &[usize]| format!("seed {SEED} case {case} order {order:?}: {lists:?}");
        self.check_by_model(lists, &orders[0], context);
        mem::swap(&mut self.first, &mut self.other);
        let mut differing = 0;
        for order in &orders[1..] {
            self.check_by_model(lists, order, context);
            let differs = assert_ends_alike(&self.first, &self.other, lists, || context(order));
            differing += usize::from(differs);
        }
        differing
    }

    fn check_by_model(&mut self, lists: &Lists, order: &[usize], context: impl Fn(&[usize]) -> String) {
        self.other.fill_by_library(lists, order);
        self.model.fill_by_model(lists, order);
        assert_is_models(&self.other, &self.model, || context(order));
    }
}

/// The answers of each list, those of raw calls and those on plaintext.
type Coverages = [[Coverage; 2]; 2];

/// Checks the cases of one size of the disk's sectors, and counts the answers.
fn check_cases(sector_size: u64) -> Coverages {
    let mut coverages = [
        ["outer raw calls", "outer calls on plaintext"].map(Coverage::new),
        ["hidden raw calls", "hidden calls on plaintext"].map(Coverage::new),
    ];
    let (mut ends, mut differing) = (Ends::default(), 0);
    for case in sector_size * CASES..(sector_size + 1) * CASES {
        let mut random = Random::of_case(SEED, case);
        let lists = Lists::new(sector_size, &mut random);
        differing += ends.check(&lists, &orders(&lists, &mut random), case);
        count(&lists, &ends.first, &mut coverages);
    }
    println!("sectors of {sector_size}: outer reads gave other bytes of protected sectors {differing} times");
    assert!(differing >= 150);
    coverages
}

fn count(lists: &Lists, end: &End, coverages: &mut Coverages) {
    for side in [OUTER, INNER] {
        for (call, outcome) in lists.calls[side].iter().zip(&end.outcomes[side]) {
            coverages[side][usize::from(call.on_plaintext)].count(outcome.answer);
        }
    }
}

/// Checks one size of the disk's sectors; `unaligned` is the answer 20, where an extent may be no whole number of them.
fn check_size(sector_size: u64, unaligned: &[u64]) {
    let [outer, hidden] = check_cases(sector_size);
    for form in outer {
        form.assert_exactly(&[&[0, 13, 14, 15, 16, 17, 18], unaligned].concat(), 8);
    }
    for form in hidden {
        form.assert_exactly(&[&[0, 13, 14, 15, 16, 17], unaligned].concat(), 8);
    }
}

/// Where the disk's sectors are ours no call is refused 20.
#[test]
fn sectors_of_512_bytes() {
    check_size(512, &[]);
}

#[test]
fn sectors_of_1024_bytes() {
    check_size(1_024, &[20]);
}

#[test]
fn sectors_of_2048_bytes() {
    check_size(2_048, &[20]);
}

#[test]
fn sectors_of_4096_bytes() {
    check_size(4_096, &[20]);
}
