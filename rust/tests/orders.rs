//! The rules of document 02 §12, may these transfers run in this order, a test for each. Orders that the library allows are
//! run by its calls of single nodes, one message after the other, and held to its whole repair.

#[path = "naive/compare.rs"]
mod compare;
mod naive;

use compare::{library, library_repair};
use hmsr::{plan_text, Checked, FirstStep, Refusal, Repair};
use naive::judge::{batch_layers, sizes};
use naive::order::{every_order, numbers, run, Calls};
use naive::plan::Transfer;
use naive::random::Random;
use naive::{Lists, Number, Shape};

/// The library's calls.
impl Calls for Repair<'_> {
    fn helper_message(&self, helper: usize, new: usize, symbols: &[u16]) -> Vec<u16> {
        self.helper_message_to_vec(helper, new, symbols).unwrap()
    }

    fn first_step(&self, new: usize, messages: &[u16]) -> (Vec<u16>, Vec<u16>) {
        let FirstStep { pairs, sums } = self.first_step_to_vec(new, messages).unwrap();
        (pairs, sums)
    }

    fn second_step(&self, new: usize, pairs: &[u16], received: &[u16]) -> Vec<u16> {
        self.second_step_to_vec(new, pairs, received).unwrap()
    }
}

/// Every choice of dead nodes and helpers of that size: the digits of a number to the base 3 are the nodes' roles.
fn every_repair((n, k, h): (usize, usize, usize)) -> Vec<Lists> {
    let shape = Shape { n, k, layers: batch_layers(h) };
    let with_role = |roles: usize, role| (0..n).filter(|&node| roles / 3usize.pow(node as u32) % 3 == role).collect();
    let all = (0..3usize.pow(n as u32)).map(|roles| (with_role(roles, 1), with_role(roles, 2)));
    let sized = all.filter(|(dead, helpers): &(Vec<usize>, Vec<usize>)| dead.len() == h && helpers.len() == k + 1);
    sized.map(|(dead, helpers)| Lists { shape, dead, helpers }).collect()
}

/// Asserts that the library's answer is the naive one, and that it is a no.
fn assert_no(lists: &Lists, list: &[Transfer]) {
    assert_eq!(compare::may_run(lists, &numbers(list)), 13, "{lists:?}, {list:?}");
}

// ---- running the transfers

/// An archive whose dead drives are full of 65535, and what the whole repair makes of it.
struct Lost<'a> {
    lists: &'a Lists,
    before: Vec<u16>,
    after: Vec<u16>,
    wire: Vec<u16>,
}

impl<'a> Lost<'a> {
    fn new(lists: &'a Lists, mut before: Vec<u16>) -> Self {
        let size = lists.shape.symbols();
        lists.dead.iter().for_each(|&node| before[node * size..(node + 1) * size].fill(65535));
        let mut after = before.clone();
        let wire = library_repair(lists).repair_nodes(&mut after).unwrap();
        Lost { lists, before, after, wire }
    }

    /// A transcript is written: "and so restored where demand 3 says it is".
    fn written(random: &mut Random, lists: &'a Lists) -> Self {
        let transcript = random.bytes(lists.shape.capacity());
        let nodes = library(lists.shape).write_to_nodes(&transcript).unwrap();
        let lost = Lost::new(lists, nodes.clone());
        assert!(lost.after == nodes, "{lists:?}");
        lost
    }

    /// The nodes hold no codeword.
    fn of_any_symbols(random: &mut Random, lists: &'a Lists) -> Self {
        let nodes = random.symbols(lists.shape.n * lists.shape.symbols());
        assert!(matches!(library(lists.shape).check(&nodes), Ok(Checked::Unmet { .. })));
        Lost::new(lists, nodes)
    }

    /// Whether the transfers can be run in that order. Then every drive and every message is as the whole repair leaves it.
    fn runs(&self, order: &[Transfer]) -> bool {
        let made = run(self.lists, &library_repair(self.lists), &self.before, order);
        if let Some((nodes, wire)) = &made {
            assert!(*nodes == self.after && *wire == self.wire, "{:?}, {order:?}", self.lists);
        }
        made.is_some()
    }
}

/// Runs the transfers of a written archive, and of one that holds no codeword, in the plan's order and so many random ones
/// that the library allows. Gives the number of runs.
fn run_allowed(random: &mut Random, lists: &Lists, count: usize) -> usize {
    let orders: Vec<_> = [lists.transfers()].into_iter().chain((0..count).map(|_| random.order(lists))).collect();
    for lost in [Lost::written(random, lists), Lost::of_any_symbols(random, lists)] {
        for order in &orders {
            assert_eq!(library_repair(lists).may_run_pairs(order), Ok(()), "{lists:?}, {order:?}");
            assert!(lost.runs(order), "{lists:?}, {order:?}");
        }
    }
    2 * orders.len()
}

/// "The yes promises that running the list in that order leaves every dead drive as an accepted whole repair of the same
/// archive does": every size to eight nodes, larger ones, and small ones with more layers.
#[test]
fn what_may_run_leaves_the_drives_as_the_whole_repair_does() {
    let mut random = Random::new(1);
    let mut runs = 0;
    for size in sizes(8) {
        let lists = random.repair(size);
        runs += run_allowed(&mut random, &lists, 4);
    }
    for size in [(9, 4, 4), (10, 1, 8), (11, 5, 5), (12, 6, 3), (12, 10, 1), (13, 1, 11), (14, 6, 7)] {
        let lists = random.repair(size);
        runs += run_allowed(&mut random, &lists, 1);
    }
    for size in sizes(6) {
        let mut lists = random.repair(size);
        lists.shape.layers *= random.between(1, 15 / lists.shape.layers);
        runs += run_allowed(&mut random, &lists, 2);
    }
    println!("{runs} runs");
    assert!(runs > 600);
}

/// Of lists that have every transfer of the plan once, those may run whose senders hold, when their turn comes, what they
/// send: orders that may run, with up to two swaps.
#[test]
fn what_may_not_run_cannot_be_run() {
    let mut random = Random::new(1);
    let mut tally = [0; 2];
    for size in sizes(7).cycle().take(400) {
        let lists = random.repair(size);
        let lost = Lost::of_any_symbols(&mut random, &lists);
        let mut order = random.order(&lists);
        for _ in 0..random.below(3) {
            let (at, other) = (random.below(order.len()), random.below(order.len()));
            order.swap(at, other);
        }
        let answer = library_repair(&lists).may_run_pairs(&order);
        let expected = if lost.runs(&order) { Ok(()) } else { Err(Refusal::BadOrder) };
        assert_eq!(answer, expected, "{lists:?}, {order:?}");
        tally[usize::from(answer.is_err())] += 1;
    }
    println!("{tally:?} orders could be run and could not");
    assert!(tally.iter().all(|&orders| orders > 50));
}

// ---- the rules

/// The transfers that the plan program prints, in its order: the lines of three numbers.
#[test]
fn the_plan_may_run_as_it_is_printed() {
    let mut random = Random::new(1);
    for size in sizes(14) {
        let lists = random.repair(size);
        let text = String::from_utf8(plan_text(&library_repair(&lists).plan_input())).unwrap();
        let words = text.lines().map(|line| line.split(' ').map(|word| word.parse().unwrap()).collect());
        let transfers = words.filter(|words: &Vec<usize>| words.len() == 3);
        let printed: Vec<Transfer> = transfers.map(|words| (words[0], words[1])).collect();
        assert_eq!(library_repair(&lists).may_run_pairs(&printed), Ok(()), "{text}");
    }
}

/// "Each exchange comes after all k+1 messages to its sender": they need not have come to its receiver.
#[test]
fn an_exchange_waits_for_its_sender_alone() {
    let mut random = Random::new(1);
    for size in sizes(14).filter(|&(_, _, h)| h > 1) {
        let lists = random.repair(size);
        let told = |new: usize| lists.helpers.iter().map(move |&helper| (helper, new));
        let sent = |new: usize| lists.fellows(new).into_iter().map(move |fellow| (new, fellow));
        let each_sends: Vec<Transfer> = lists.dead.iter().flat_map(|&new| told(new).chain(sent(new))).collect();
        assert_eq!(compare::may_run(&lists, &numbers(&each_sends)), 0, "{lists:?}");
        let received = |new: usize| lists.fellows(new).into_iter().map(move |fellow| (fellow, new));
        let each_receives: Vec<Transfer> = lists.dead.iter().flat_map(|&new| told(new).chain(received(new))).collect();
        assert_no(&lists, &each_receives);
    }
}

/// Whether the swap of two entries of an order that may run, the earlier named first, puts an exchange before a helper's
/// message to its sender: one of the two passes the other, or one that stands between them.
fn breaks(lists: &Lists, order: &[Transfer], first: usize, second: usize) -> bool {
    let tells = |(sender, receiver): Transfer, node| lists.helpers.contains(&sender) && receiver == node;
    let (back, forward) = (order[first], order[second]);
    order[first..=second].iter().any(|&passed| tells(passed, forward.0) || tells(back, passed.0))
}

/// Every swap in the plan's order and in another that may run. Gives how many swapped orders may run and may not.
fn try_swaps(random: &mut Random, lists: &Lists, number: impl Fn(&[usize]) -> Number) -> [usize; 2] {
    let mut tally = [0; 2];
    for order in [lists.transfers(), random.order(lists)] {
        for (first, second) in (0..order.len()).flat_map(|second| (0..second).map(move |first| (first, second))) {
            let mut swapped = order.clone();
            swapped.swap(first, second);
            let no = breaks(lists, &order, first, second);
            assert_eq!(number(&numbers(&swapped)), [0, 13][usize::from(no)], "{lists:?}, {swapped:?}");
            tally[usize::from(no)] += 1;
        }
    }
    tally
}

/// Every size to eight nodes.
#[test]
fn every_swap_of_two_transfers() {
    let mut random = Random::new(1);
    let mut tally = [0; 2];
    for size in sizes(8) {
        let lists = random.repair(size);
        let [may, may_not] = try_swaps(&mut random, &lists, |list| compare::may_run(&lists, list));
        tally = [tally[0] + may, tally[1] + may_not];
    }
    println!("{tally:?} swapped orders may run and may not");
    assert!(tally.iter().all(|&orders| orders > 4000));
}

/// The longest plan has 156 transfers, whose lists take the naive implementation long.
#[test]
fn every_swap_in_the_longest_plan() {
    let mut random = Random::new(1);
    let lists = random.repair((14, 1, 12));
    let number = |list: &[usize]| library_repair(&lists).may_run(list).err().map_or(0, Refusal::number);
    let tally = try_swaps(&mut random, &lists, number);
    println!("{tally:?} swapped orders may run and may not");
    assert!(tally.iter().all(|&orders| orders > 4000));
}

/// Every node and two numbers above; and numbers that are the given one in their lower bits.
fn numbers_around(lists: &Lists, number: usize) -> Vec<usize> {
    let alike = [8, 16, 31, 32, 63].map(|bit| number + (1 << bit));
    (0..lists.shape.n + 2).chain(alike).chain([256, 1 << 63, usize::MAX]).collect()
}

/// Every pair of such numbers.
fn pairs_around(lists: &Lists, (sender, receiver): Transfer) -> Vec<Transfer> {
    let receivers = numbers_around(lists, receiver);
    let with_sender = |sender| receivers.iter().map(move |&receiver| (sender, receiver));
    numbers_around(lists, sender).into_iter().flat_map(with_sender).collect()
}

/// The list with an entry left out, and with it put in once more, at each place.
fn left_out_or_doubled(list: &[Transfer], at: usize) -> Vec<Vec<Transfer>> {
    let left_out = [&list[..at], &list[at + 1..]].concat();
    let doubled = (0..=list.len()).map(|place| [&list[..place], &[list[at]], &list[place..]].concat());
    [left_out].into_iter().chain(doubled).collect()
}

/// The list with each other pair in place of an entry, those of the plan too, and with the pair behind it.
fn with_other_pairs(lists: &Lists, list: &[Transfer], at: usize) -> Vec<Vec<Transfer>> {
    let others = pairs_around(lists, list[at]).into_iter().filter(|&other| other != list[at]);
    others.flat_map(|other| [[&list[..at], &[other], &list[at + 1..]].concat(), [list, &[other]].concat()]).collect()
}

/// "Every transfer of the plan stands there once, nothing else does .. one naming no drive is merely not in the plan", 13
/// too: each entry of the plan and of another order that may run.
#[test]
fn every_transfer_stands_there_once_and_nothing_else_does() {
    let mut random = Random::new(1);
    let mut tried = 0;
    for size in sizes(6) {
        let lists = random.repair(size);
        for list in [lists.transfers(), random.order(&lists)] {
            let damages = |at| [left_out_or_doubled(&list, at), with_other_pairs(&lists, &list, at)].concat();
            let damaged: Vec<Vec<Transfer>> = (0..list.len()).flat_map(damages).collect();
            damaged.iter().for_each(|damaged| assert_no(&lists, damaged));
            tried += damaged.len();
        }
    }
    println!("{tried} lists");
    assert!(tried > 100_000);
}

// ---- every list

/// Every order of the plan, for each choice of nodes to four nodes and for one of five. With one dead node any order may
/// run. With two, an exchange comes last of it and the k+1 messages to its sender in one of k+2 orders, and so does the
/// other: of the (2(k+2))! orders, one in (k+2)^2 may run.
#[test]
fn every_order_of_small_plans() {
    let mut random = Random::new(1);
    let one_of_five = [random.repair((5, 2, 2)), random.repair((5, 3, 1))];
    let mut tried = 0;
    for lists in sizes(4).flat_map(every_repair).chain(one_of_five) {
        let plan = lists.transfers();
        let orders = every_order(&plan).len();
        let may = every_order(&plan).filter(|order| compare::may_run(&lists, &numbers(order)) == 0).count();
        let one_in = [1, (lists.shape.k + 2).pow(2)][lists.dead.len() - 1];
        assert_eq!(may * one_in, orders, "{lists:?}");
        tried += orders;
    }
    println!("{tried} orders");
    // By hand: 3 repairs of 2 orders, 12 of 2, 4 of 6 and 6 of 720; then 40 320 and 24.
    assert_eq!(tried, 6 + 24 + 24 + 4320 + 40_344);
}

/// The list with that number of so many entries, each of them one of these.
fn list_of<T: Copy>(entries: &[T], count: u32, number: usize) -> Vec<T> {
    (0..count).map(|at| entries[number / entries.len().pow(at) % entries.len()]).collect()
}

/// n = 3: every list of up to five numbers, which are nodes, or such numbers modulo 2^8, 2^16, 2^32 or 2^63, or neither.
/// The two messages to the dead node may come in either order, and no other list may run.
#[test]
fn every_short_list() {
    let entries = [0, 1, 2, 3, 256, (1 << 16) + 1, (1 << 32) + 2, 1 << 63, usize::MAX];
    for lists in every_repair((3, 1, 1)) {
        let mut tally = [0; 14];
        for (count, number) in
            (0..=5).flat_map(|count| (0..entries.len().pow(count)).map(move |number| (count, number)))
        {
            tally[compare::may_run(&lists, &list_of(&entries, count, number))] += 1;
        }
        // 9, 9^3 and 9^5 lists are odd; 1, 9^2 and 9^4 are not.
        assert_eq!((tally[0], tally[4], tally[13]), (2, 59_787, 6643 - 2));
    }
}

/// Document 01's plan: every list of six pairs, each of them one of its transfers or one of two that are not. The 80 of all
/// its orders that may run are the only ones.
#[test]
fn every_six_of_eight_pairs() {
    let lists = Lists { shape: Shape { n: 4, k: 1, layers: 3 }, dead: vec![0, 1], helpers: vec![2, 3] };
    let pairs = [lists.transfers(), vec![(0, 2), (4, 1)]].concat();
    let may_run = |number: &usize| compare::may_run(&lists, &numbers(&list_of(&pairs, 6, *number))) == 0;
    assert_eq!((0..pairs.len().pow(6)).filter(may_run).count(), 80);
}

// ---- what the answer does not depend on

/// What stands at a place of a list.
type Entry<'a> = &'a dyn Fn(&mut Random, usize) -> usize;

/// "Otherwise a list may have any length, and a wrong one breaks these rules": the plan over and over, nodes, any numbers,
/// one number alone; each also with the plan in front, and with one number more.
#[test]
fn a_list_may_have_millions_of_numbers() {
    let mut random = Random::new(1);
    for size in [(14, 1, 12), (12, 6, 3), (3, 1, 1)] {
        let lists = random.repair(size);
        let (repair, plan) = (library_repair(&lists), numbers(&lists.transfers()));
        let entries: [Entry; 5] = [
            &|_, at| plan[at % plan.len()],
            &|random, _| random.below(lists.shape.n),
            &|random, _| random.next() as usize,
            &|_, _| 0,
            &|_, _| usize::MAX,
        ];
        for entry in entries {
            let mut list: Vec<usize> = (0..4_000_000).map(|at| entry(&mut random, at)).collect();
            assert_eq!(repair.may_run(&list), Err(Refusal::BadOrder), "{lists:?}");
            list[..plan.len()].copy_from_slice(&plan);
            assert_eq!(repair.may_run(&list[..plan.len()]), Ok(()), "{lists:?}");
            assert_eq!(repair.may_run(&list), Err(Refusal::BadOrder), "{lists:?}");
            list.push(0);
            assert_eq!(repair.may_run(&list), Err(Refusal::WrongLength), "{lists:?}");
        }
    }
}

/// Layers that are whole batches do not change the answer, and others are 3, whatever the list.
#[test]
fn the_answer_is_the_same_for_all_layers_that_are_accepted() {
    let mut random = Random::new(1);
    let mut tally = [0; 2];
    for size in sizes(14) {
        let mut lists = random.repair(size);
        let s = lists.shape.layers;
        let (right, mut wrong) = (random.order(&lists), lists.transfers());
        random.spoil_order(lists.shape, &mut wrong);
        let answers = [&right, &wrong].map(|order| naive::may_run(&lists, &numbers(order)).err().unwrap_or(0));
        for layers in 1..=15 {
            lists.shape.layers = layers;
            let accepted = layers.is_multiple_of(s);
            let expected = if accepted { answers } else { [3, 3] };
            assert_eq!([&right, &wrong].map(|order| compare::may_run(&lists, &numbers(order))), expected, "{lists:?}");
            tally[usize::from(!accepted)] += 1;
        }
    }
    println!("{tally:?} layers are accepted and are not");
    assert!(tally.iter().all(|&layers| layers > 1000));
}

/// The lists are lent to be read. Here they stand in memory that cannot be written to: a write would end the program.
#[test]
fn nothing_is_written() {
    static DEAD: [usize; 2] = [0, 1];
    static HELPERS: [usize; 2] = [2, 3];
    static RIGHT: [usize; 12] = [3, 1, 2, 1, 1, 0, 2, 0, 3, 0, 0, 1];
    static WRONG: [usize; 14] = [3, 1, 1, 0, 2, 1, 2, 0, 3, 0, 0, 1, 1 << 63, usize::MAX];
    let repair = |layers| Repair { shape: hmsr::Shape { nodes: 4, data: 1, layers }, dead: &DEAD, helpers: &HELPERS };
    assert_eq!(repair(3).may_run(&RIGHT), Ok(()));
    for length in (0..=WRONG.len()).step_by(2) {
        assert_eq!(repair(3).may_run(&WRONG[..length]), Err(Refusal::BadOrder));
    }
    assert_eq!(repair(3).may_run(&WRONG[..13]), Err(Refusal::WrongLength));
    assert_eq!(repair(4).may_run(&WRONG), Err(Refusal::PartBatch));
    assert_eq!(repair(0).may_run(&WRONG), Err(Refusal::BadShape));
}
