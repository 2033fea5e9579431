//! The claims of document 02 §8, messages in the order they arrive, a test for each. What is kept is held after every call
//! to its definition in plain arithmetic, and what finishing gives to the library's own first step and whole repair.

#[path = "naive/compare.rs"]
mod compare;
mod naive;

use compare::{library, library_repair};
use hmsr::{Checked, FirstStep, Hearing, Refusal, Repair};
use naive::code::point;
use naive::field::{power, MODULUS};
use naive::judge::{batch_layers, sizes};
use naive::order::{every_order, run, Calls};
use naive::random::Random;
use naive::{Heard, Kept, Lists, Number, Shape};
use std::cell::RefCell;
use std::collections::HashMap;

/// The messages to a new node, by helper.
struct Told<'a> {
    lists: &'a Lists,
    new: usize,
    messages: HashMap<usize, Vec<u16>>,
    /// What each helper adds to the sums: point^t × message symbol, modulo 257.
    terms: HashMap<usize, Vec<u16>>,
    /// What stands in the record at first, behind the count.
    behind: Vec<usize>,
}

impl<'a> Told<'a> {
    /// Messages of any symbols.
    fn anything(random: &mut Random, lists: &'a Lists, new: usize) -> Self {
        let messages = lists.helpers.iter().map(|&helper| (helper, random.symbols(lists.message_length()))).collect();
        Told::new(random, lists, new, messages)
    }

    /// What the helpers send from these nodes.
    fn by_nodes(random: &mut Random, lists: &'a Lists, new: usize, nodes: &[u16]) -> Self {
        let own = |helper: usize| &nodes[helper * lists.shape.symbols()..][..lists.shape.symbols()];
        let message = |helper| library_repair(lists).helper_message_to_vec(helper, new, own(helper)).unwrap();
        Told::new(random, lists, new, lists.helpers.iter().map(|&helper| (helper, message(helper))).collect())
    }

    fn new(random: &mut Random, lists: &'a Lists, new: usize, messages: HashMap<usize, Vec<u16>>) -> Self {
        let repair = naive::repair::Repair::judged(lists.shape, &lists.dead, &lists.helpers).unwrap();
        let (spots, r) = (repair.spots(repair.rank(new)), lists.shape.equations());
        let term = |helper, x: usize, t: usize, symbol: u16| {
            (power(point(helper, spots[x].a), t as u32) * u32::from(symbol) % MODULUS) as u16
        };
        let added = |helper, message: &[u16]| {
            (0..r * message.len()).map(|at| term(helper, at / r, at % r, message[at / r])).collect()
        };
        let terms = messages.iter().map(|(&helper, message)| (helper, added(helper, message))).collect();
        let behind = random.kept(lists, &[]).record[1..].to_vec();
        Told { lists, new, messages, terms, behind }
    }

    fn repair(&self) -> Repair<'a> {
        library_repair(self.lists)
    }

    /// What the library's first step makes of all messages, helpers rising.
    fn first_step(&self) -> FirstStep {
        let rising: Vec<u16> = self.lists.helpers.iter().flat_map(|helper| &self.messages[helper]).copied().collect();
        self.repair().first_step_to_vec(self.new, &rising).unwrap()
    }

    /// What is kept after these helpers: the sum over them of point^t × message symbol; and how many were heard, their nodes
    /// in the order heard, and behind them what stood there before.
    fn kept(&self, heard: &[usize]) -> Kept {
        let mut sums = vec![0; self.lists.kept_length()];
        for helper in heard {
            sums.iter_mut().zip(&self.terms[helper]).for_each(|(sum, term)| *sum = (*sum + term) % MODULUS as u16);
        }
        let behind = self.behind[heard.len()..].iter().copied();
        Kept { sums, record: [heard.len()].into_iter().chain(heard.iter().copied()).chain(behind).collect() }
    }

    /// The call that hears a helper after these.
    fn call(&self, heard: &[usize], helper: usize) -> Heard {
        let message = self.messages[&helper].clone();
        Heard { lists: self.lists.clone(), new: self.new, helper, message, kept: self.kept(heard) }
    }

    /// Hears all helpers in this order. Before the last is heard, finishing is 4, and then it gives the first step.
    fn assert_ends_in(&self, step: &FirstStep, order: &[usize]) {
        let mut kept = self.kept(&[]);
        for (before, &helper) in order.iter().enumerate() {
            assert_eq!(finish(self.lists, self.new, &kept), Err(4), "{:?}, {order:?}", self.lists);
            let heard = hear(&Heard { kept, ..self.call(&[], helper) });
            kept = self.kept(&order[..=before]);
            assert!(heard == (0, kept.clone()), "{:?}, {before} of {order:?}", self.lists);
        }
        assert!(finish(self.lists, self.new, &kept).as_ref() == Ok(step), "{:?}, {order:?}", self.lists);
    }
}

/// What the library answers, 0 or the refusal's number, and what is kept afterwards.
fn hear(call: &Heard) -> (Number, Kept) {
    let Heard { lists, new, helper, message, kept } = call;
    let Kept { mut sums, mut record } = kept.clone();
    let answer = library_repair(lists).hear(*new, *helper, message, &mut sums, &mut record);
    (answer.err().map_or(0, Refusal::number), Kept { sums, record })
}

/// Asserts that the call is refused, and that all is kept as it was.
fn assert_refused(call: &Heard, number: Number) {
    assert!(hear(call) == (number, call.kept.clone()), "{call:?} is to be refused with {number}");
}

/// What finishing gives in lent buffers of the exact lengths, which are as they were where it is refused.
fn finish(lists: &Lists, new: usize, kept: &Kept) -> Result<FirstStep, Number> {
    let length = lists.message_length();
    let [mut pairs, mut sums] = [2 * length, (lists.dead.len() - 1) * length].map(|length| vec![4711; length]);
    match library_repair(lists).finish(new, &kept.sums, &kept.record, &mut pairs, &mut sums) {
        Ok(()) => Ok(FirstStep { pairs, sums }),
        Err(refusal) => {
            assert!(pairs.iter().chain(&sums).all(|&symbol| symbol == 4711), "{lists:?}, {kept:?}");
            Err(refusal.number())
        }
    }
}

/// The nodes of an archive that is full.
fn written(random: &mut Random, shape: Shape) -> Vec<u16> {
    library(shape).write_to_nodes(&random.bytes(shape.capacity())).unwrap()
}

// ---- every order

/// So many orders of the helpers, or, where there are not more than five, every order.
fn orders(random: &mut Random, helpers: &[usize], count: usize) -> Vec<Vec<usize>> {
    if helpers.len() <= 5 {
        return every_order(helpers).collect();
    }
    (0..count).map(|_| random.shuffled(helpers)).collect()
}

/// Every new node of a repair hears its helpers in every order, or, of more than five, in so many: of a written archive, and
/// of any symbols. Gives the number of orders.
fn try_orders(random: &mut Random, lists: &Lists, count: usize) -> usize {
    let mut tried = 0;
    let written = written(random, lists.shape);
    for &new in &lists.dead {
        for told in [Told::by_nodes(random, lists, new, &written), Told::anything(random, lists, new)] {
            let (step, orders) = (told.first_step(), orders(random, &lists.helpers, count));
            orders.iter().for_each(|order| told.assert_ends_in(&step, order));
            tried += orders.len();
        }
    }
    tried
}

/// The same for a repair of each n, k and h.
fn try_sizes(random: &mut Random, sizes: impl IntoIterator<Item = (usize, usize, usize)>, count: usize) -> usize {
    let mut tried = 0;
    for size in sizes {
        let lists = random.repair(size);
        tried += try_orders(random, &lists, count);
    }
    println!("{tried} orders");
    tried
}

/// "Every order must end in the pairs and outgoing messages of document 01's first step": every size to ten nodes.
#[test]
fn every_order_ends_in_the_first_step() {
    assert!(try_sizes(&mut Random::new(1), sizes(10), 20) > 10_000);
}

/// Larger archives, eleven dead nodes among fourteen too: s = 3 and H = 3, with ranks of every class.
#[test]
fn every_order_ends_in_the_first_step_of_larger_archives() {
    let mut random = Random::new(2);
    let sizes = [(11, 1, 9), (11, 4, 5), (11, 3, 6), (11, 9, 1), (12, 1, 10), (12, 2, 7), (12, 6, 5), (12, 10, 1)];
    let with_more_nodes = [(13, 1, 11), (13, 3, 3), (13, 8, 4), (14, 1, 12), (14, 2, 11), (14, 5, 7), (14, 12, 1)];
    let tried = try_sizes(&mut random, sizes, 4) + try_sizes(&mut random, with_more_nodes, 4);
    assert!(tried > 1500);
}

/// More than one batch.
#[test]
fn every_order_ends_in_the_first_step_with_more_layers() {
    let mut random = Random::new(3);
    let mut tried = 0;
    for size in sizes(7) {
        let mut lists = random.repair(size);
        lists.shape.layers *= random.between(2, 15 / lists.shape.layers);
        tried += try_orders(&mut random, &lists, 20);
    }
    println!("{tried} orders");
    assert!(tried > 1000);
}

/// A new node's first step by what arrives in a random order, and all else by the library's calls.
struct Arriving<'a> {
    repair: Repair<'a>,
    random: RefCell<Random>,
}

impl Calls for Arriving<'_> {
    fn helper_message(&self, helper: usize, new: usize, symbols: &[u16]) -> Vec<u16> {
        self.repair.helper_message_to_vec(helper, new, symbols).unwrap()
    }

    fn first_step(&self, new: usize, messages: &[u16]) -> (Vec<u16>, Vec<u16>) {
        let size = messages.len() / self.repair.helpers.len();
        let mut arriving: Vec<_> = self.repair.helpers.iter().zip(messages.chunks_exact(size)).collect();
        self.random.borrow_mut().shuffle(&mut arriving);
        let mut hearing = Hearing::new(self.repair, new);
        arriving.into_iter().for_each(|(&helper, message)| hearing.hear(helper, message).unwrap());
        let FirstStep { pairs, sums } = hearing.finish_to_vec().unwrap();
        (pairs, sums)
    }

    fn second_step(&self, new: usize, pairs: &[u16], received: &[u16]) -> Vec<u16> {
        self.repair.second_step_to_vec(new, pairs, received).unwrap()
    }
}

/// Runs a repair's transfers by what arrives, and holds drives and messages to the library's whole repair. Gives the
/// drives.
fn repaired(random: &mut Random, lists: &Lists, nodes: &[u16]) -> Vec<u16> {
    let mut whole = nodes.to_vec();
    lists.dead.iter().for_each(|&node| whole[node * lists.shape.symbols()..][..lists.shape.symbols()].fill(65535));
    let before = whole.clone();
    let wire = library_repair(lists).repair_nodes(&mut whole).unwrap();
    let calls = Arriving { repair: library_repair(lists), random: RefCell::new(Random::new(random.next())) };
    let made = run(lists, &calls, &before, &random.order(lists));
    assert!(made == Some((whole.clone(), wire)), "{lists:?}");
    whole
}

/// A written archive is restored, and one that holds no codeword is left as the whole repair leaves it.
#[test]
fn drives_are_repaired_by_what_arrives() {
    let mut random = Random::new(4);
    let larger = [(9, 3, 5), (10, 1, 8), (11, 5, 5), (12, 6, 3), (14, 2, 11), (14, 12, 1)];
    for size in sizes(8).chain(larger) {
        let lists = random.repair(size);
        let written = written(&mut random, lists.shape);
        assert!(repaired(&mut random, &lists, &written) == written, "{lists:?}");
        let anything = random.symbols(written.len());
        assert!(matches!(library(lists.shape).check(&anything), Ok(Checked::Unmet { .. })));
        repaired(&mut random, &lists, &anything);
    }
}

// ---- what is refused between

/// Makes a call wrong, and says with which number it is refused; 0 where it cannot be wrong in this way.
type Wrong = fn(&mut Heard) -> Number;

const WRONG_SHAPES: [Wrong; 7] = [
    |call| put(15, &mut call.lists.shape.n, 1),
    |call| put(2, &mut call.lists.shape.n, 1),
    |call| put(usize::MAX, &mut call.lists.shape.n, 1),
    |call| put(0, &mut call.lists.shape.k, 1),
    |call| put(usize::MAX, &mut call.lists.shape.k, 1),
    |call| put(0, &mut call.lists.shape.layers, 1),
    |call| put(16, &mut call.lists.shape.layers, 1),
];

const WRONG_NODES: [Wrong; 13] = [
    |call| put(vec![], &mut call.lists.dead, 2),
    |call| put(vec![], &mut call.lists.helpers, 2),
    |call| put(usize::MAX, &mut call.lists.helpers[0], 2),
    |call| put(call.new, &mut call.lists.helpers[0], 2),
    |call| put(call.helper, &mut call.lists.dead[0], 2),
    |call| put(call.helper, &mut call.new, 2),
    |call| put(call.lists.shape.n, &mut call.new, 2),
    |call| put(call.new + (1 << 32), &mut call.new, 2),
    |call| put(call.new, &mut call.helper, 2),
    |call| put(call.lists.shape.n, &mut call.helper, 2),
    |call| put(call.helper + (1 << 32), &mut call.helper, 2),
    |call| match (0..call.lists.shape.n).find(|node| is_idle(&call.lists, node)) {
        Some(idle) => put(idle, &mut call.helper, 2),
        None => 0,
    },
    |call| match call.kept.heard().last() {
        Some(&heard) => put(heard, &mut call.helper, 2),
        None => 0,
    },
];

const WRONG_RECORDS: [Wrong; 7] = [
    |call| put(call.lists.shape.k + 2, &mut call.kept.record[0], 2),
    |call| put(usize::MAX, &mut call.kept.record[0], 2),
    |call| put_heard(call.new, call),
    |call| put_heard(call.lists.shape.n, call),
    |call| put_heard(call.helper, call),
    |call| put_heard(call.helper + (1 << 32), call),
    |call| match *call.kept.heard() {
        [first, .., _] => put_heard(first, call),
        _ => 0,
    },
];

const WRONG_LENGTHS_AND_SYMBOLS: [Wrong; 14] = [
    |call| put(1, &mut call.lists.shape.layers, if batch_layers(call.lists.dead.len()) > 1 { 3 } else { 0 }),
    |call| put(vec![], &mut call.message, 4),
    |call| put(vec![65535; call.message.len() - 1], &mut call.message, 4),
    |call| put(vec![65535; call.message.len() + 1], &mut call.message, 4),
    |call| put(vec![], &mut call.kept.sums, 4),
    |call| put(vec![65535; call.kept.sums.len() - 1], &mut call.kept.sums, 4),
    |call| put(vec![65535; call.kept.sums.len() + 1], &mut call.kept.sums, 4),
    |call| put(vec![], &mut call.kept.record, 4),
    |call| put(call.kept.record[..call.lists.shape.k + 1].to_vec(), &mut call.kept.record, 4),
    |call| put([&call.kept.record[..], &[0]].concat(), &mut call.kept.record, 4),
    |call| put(257, call.message.first_mut().unwrap(), 5),
    |call| put(65535, call.message.last_mut().unwrap(), 5),
    |call| put(257, call.kept.sums.first_mut().unwrap(), 5),
    |call| put(65535, call.kept.sums.last_mut().unwrap(), 5),
];

/// Whether a node neither is dead nor helps.
fn is_idle(lists: &Lists, node: &usize) -> bool {
    !lists.dead.contains(node) && !lists.helpers.contains(node)
}

/// Puts a value there, and gives the number.
fn put<T>(value: T, place: &mut T, number: Number) -> Number {
    *place = value;
    number
}

/// Puts a node in place of the last one that the record counts.
fn put_heard(node: usize, call: &mut Heard) -> Number {
    match call.kept.record[0] {
        0 => 0,
        count => put(node, &mut call.kept.record[count], 2),
    }
}

/// "A helper heard a second time, or one not in the list, in the kept record too, is 2 and leaves the sums as they were":
/// so does whatever else is refused, and nothing of it is left in the end.
#[test]
fn refused_calls_change_nothing() {
    let mut random = Random::new(5);
    let wrong: Vec<Wrong> = [&WRONG_SHAPES[..], &WRONG_NODES, &WRONG_RECORDS, &WRONG_LENGTHS_AND_SYMBOLS].concat();
    let mut tally = [0; 6];
    for size in sizes(8).cycle().take(3000) {
        let lists = random.repair(size);
        let new = random.choose(&lists.dead);
        let told = Told::anything(&mut random, &lists, new);
        let mut kept = told.kept(&[]);
        for helper in random.shuffled(&lists.helpers) {
            let call = Heard { kept, ..told.call(&[], helper) };
            for _ in 0..random.below(12) {
                let mut spoiled = call.clone();
                let number = random.choose(&wrong)(&mut spoiled);
                if number != 0 {
                    assert_refused(&spoiled, number);
                    tally[number] += 1;
                }
            }
            (_, kept) = hear(&call);
        }
        assert_eq!(finish(&lists, new, &kept).as_ref(), Ok(&told.first_step()), "{lists:?}");
    }
    println!("numbers 0 to 5 came up {tally:?}");
    assert!(tally[1..].iter().all(|&count| count > 50));
}

/// Once all are heard, each helper is heard already, whatever its message; finishing may be repeated.
#[test]
fn a_helper_after_the_last_is_refused() {
    let mut random = Random::new(6);
    for size in sizes(8) {
        let lists = random.repair(size);
        let told = Told::anything(&mut random, &lists, lists.dead[0]);
        let step = told.first_step();
        for &helper in &lists.helpers {
            let mut call = told.call(&lists.helpers, helper);
            assert_refused(&call, 2);
            call.message = vec![65535];
            assert_refused(&call, 2);
            assert_eq!(finish(&lists, told.new, &call.kept).as_ref(), Ok(&step), "{lists:?}");
        }
    }
}

// ---- the record

/// Hears and finishes with this record. Asserts the numbers with which both are refused, 0 where one is not, and that all is
/// kept as it was where hearing is.
fn assert_numbers(call: &Heard, record: &[usize], expected: [Number; 2]) {
    let call = Heard { kept: Kept { record: record.to_vec(), ..call.kept.clone() }, ..call.clone() };
    let (number, kept) = hear(&call);
    let finished = finish(&call.lists, call.new, &call.kept).err().unwrap_or(0);
    assert_eq!([number, finished], expected, "{:?}, helper {}, record {record:?}", call.lists, call.helper);
    assert!(number == 0 || kept == call.kept, "{:?}, record {record:?}", call.lists);
}

/// Tries a call for each count of helpers heard, of every size to so many nodes: it hears another helper, or, where all are
/// heard, the last once more.
fn for_each_count(most_nodes: usize, mut attempt: impl FnMut(&Told, &Heard)) {
    let mut random = Random::new(7);
    for size in sizes(most_nodes) {
        let lists = random.repair(size);
        let new = random.choose(&lists.dead);
        let told = Told::anything(&mut random, &lists, new);
        let order = random.shuffled(&lists.helpers);
        for count in 0..=order.len() {
            attempt(&told, &told.call(&order[..count], order[count.min(lists.shape.k)]));
        }
    }
}

/// Numbers that are no helper's: dead and idle nodes, n and above, and what is the given one in its lower bits.
fn no_helpers(lists: &Lists, helper: usize) -> Vec<usize> {
    let alike = [8, 16, 32, 63].map(|bit| helper + (1 << bit));
    let nodes = (0..lists.shape.n + 2).filter(|node| !lists.helpers.contains(node));
    nodes.chain(alike).chain([usize::MAX]).collect()
}

/// A record with a node changed, whole and cut behind that node, is 2; cut before it, the rest may be right, but is short.
fn assert_node_is_2(call: &Heard, record: &[usize], place: usize) {
    for length in place + 1..=record.len() {
        assert_numbers(call, &record[..length], [2, 2]);
    }
    for length in 0..=place {
        assert_numbers(call, &record[..length], [4, 4]);
    }
}

/// "A helper heard a second time, or one not in the list, in the kept record too, is 2": each node counted, and a count above
/// k+1. A record that is too short is judged as far as it goes.
#[test]
fn a_damaged_record_is_2() {
    let mut tried = 0;
    for_each_count(9, |told, call| {
        let (record, k) = (&call.kept.record, told.lists.shape.k);
        let with = |place: usize, number| [&record[..place], &[number], &record[place + 1..]].concat();
        for high in [k + 2, k + 3, 256 + record[0], (1 << 32) + record[0], 1 << 63, usize::MAX] {
            assert_numbers(call, &with(0, high), [2, 2]);
            assert_numbers(call, &[high], [2, 2]);
        }
        let heard = call.kept.heard();
        for (place, &node) in (1..).zip(heard) {
            let again = heard[..place - 1].to_vec();
            for other in [no_helpers(told.lists, node), again].concat() {
                assert_node_is_2(call, &with(place, other), place);
                tried += 1;
            }
        }
    });
    println!("{tried} records");
    assert!(tried > 1000);
}

/// Too short for its own count, empty, or too long: 4, but for a helper that stands in it.
#[test]
fn a_record_of_another_length_is_4() {
    for_each_count(10, |told, call| {
        let (k, record) = (told.lists.shape.k, &call.kept.record);
        for length in (0..=k + 5).filter(|&length| length != k + 2) {
            let other: Vec<usize> = record.iter().copied().chain([0, call.helper, usize::MAX]).take(length).collect();
            let stands = other.iter().skip(1).take(record[0]).any(|&heard| heard == call.helper);
            assert_numbers(call, &other, [if stands { 2 } else { 4 }, 4]);
        }
    });
}

/// The helper that is to be heard, those that were, and numbers that are no helper's.
#[test]
fn what_stands_behind_the_count_has_no_effect_and_stays() {
    for_each_count(9, |told, call| {
        let (count, heard) = (call.kept.record[0], call.kept.heard());
        if count == told.lists.helpers.len() {
            return assert_numbers(call, &call.kept.record, [2, 0]);
        }
        let numbers = [no_helpers(told.lists, call.helper), heard.to_vec(), vec![call.helper, count, 0]].concat();
        for behind in numbers {
            let mut call = call.clone();
            call.kept.record[count + 1..].fill(behind);
            assert_numbers(&call, &call.kept.record, [0, 4]);
            let mut expected = told.kept(&[call.kept.heard(), &[call.helper]].concat());
            expected.record[count + 2..].fill(behind);
            assert!(hear(&call) == (0, expected), "{:?}, {:?}", told.lists, call.kept.record);
        }
    });
}

/// "Finishing before all k+1 are heard is 4", also where a kept sum is above 256, which is 5 once they are.
#[test]
fn finishing_before_all_are_heard_is_4() {
    for_each_count(10, |told, call| {
        let expected = if call.kept.record[0] == told.lists.helpers.len() { [0, 5] } else { [4, 4] };
        let mut kept = call.kept.clone();
        let mut number = |high: u16| {
            kept.sums[0] = high;
            finish(told.lists, told.new, &kept).err().unwrap_or(0)
        };
        assert_eq!([number(256), number(257)], expected, "{:?}", call.kept.record);
    });
}

// ---- the sums

/// "A kept sum handed in above the largest symbol is 5": each sum, in hearing and in finishing. 256 is not above it, and is
/// added to.
#[test]
fn each_kept_sum_may_be_up_to_256() {
    for_each_count(7, |told, call| {
        let (r, all) = (told.lists.shape.equations(), call.kept.record[0] == told.lists.helpers.len());
        for at in 0..call.kept.sums.len() {
            for (sum, number) in [(256, 0), (257, 5), (512, 5), (65535, 5)] {
                let mut call = call.clone();
                call.kept.sums[at] = sum;
                assert_numbers(&call, &call.kept.record, if all { [2, number] } else { [number, 4] });
                if !all && number == 0 {
                    let expected = (256 + told.terms[&call.helper][at]) % MODULUS as u16;
                    assert_eq!(hear(&call).1.sums[at], expected, "sum {} of {} of {:?}", at % r, at / r, told.lists);
                }
            }
        }
    });
}

/// Each symbol of a message, which finishing does not look at.
#[test]
fn each_symbol_heard_may_be_up_to_256() {
    for_each_count(8, |told, call| {
        let all = call.kept.record[0] == told.lists.helpers.len();
        for at in 0..call.message.len() {
            for (symbol, number) in [(256, 0), (257, 5), (65535, 5)] {
                let mut call = call.clone();
                call.message[at] = symbol;
                assert_numbers(&call, &call.kept.record, if all { [2, 0] } else { [number, 4] });
            }
        }
    });
}

/// Finishing gives the same after any order, and reads the record for its count and its nodes alone: what is kept after one
/// order, with the record of another.
#[test]
fn finishing_does_not_depend_on_the_order_in_the_record() {
    let mut random = Random::new(8);
    for size in sizes(6) {
        let lists = random.repair(size);
        let told = Told::anything(&mut random, &lists, lists.dead[lists.dead.len() - 1]);
        let (step, sums) = (told.first_step(), told.kept(&lists.helpers).sums);
        for order in every_order(&lists.helpers) {
            let kept = Kept { sums: sums.clone(), ..told.kept(&order) };
            assert_eq!(finish(&lists, told.new, &kept).as_ref(), Ok(&step), "{lists:?}, {order:?}");
        }
    }
}

/// What finishing reads, and what hearing only reads, stands in memory that cannot be written to: a write would end the
/// program.
#[test]
fn nothing_else_is_written() {
    static DEAD: [usize; 1] = [0];
    static HELPERS: [usize; 2] = [1, 2];
    static MESSAGES: [[u16; 4]; 2] = [[243, 0, 0, 0], [5, 0, 0, 0]];
    static SUMS: [u16; 8] = [248, 3, 0, 0, 0, 0, 0, 0];
    static RECORDS: [[usize; 3]; 4] = [[2, 2, 1], [1, 2, 1], [2, 2, 2], [3, 2, 1]];
    let shape = hmsr::Shape { nodes: 3, data: 1, layers: 1 };
    let repair = Repair { shape, dead: &DEAD, helpers: &HELPERS };
    let (mut sums, mut record) = ([0; 8], [0; 3]);
    for (helper, answer) in [(2, Ok(())), (2, Err(Refusal::BadNodes)), (1, Ok(()))] {
        assert_eq!(repair.hear(0, helper, &MESSAGES[helper - 1], &mut sums, &mut record), answer);
    }
    assert_eq!((sums, record), (SUMS, RECORDS[0]));
    for (record, number) in RECORDS.iter().zip([0, 4, 2, 2]) {
        let mut pairs = [9; 8];
        let answer = repair.finish(0, &SUMS, record, &mut pairs, &mut []);
        assert_eq!(answer.err().map_or(0, Refusal::number), number);
        assert_eq!(pairs, if number == 0 { [3, 6, 0, 0, 0, 0, 0, 0] } else { [9; 8] });
    }
}
