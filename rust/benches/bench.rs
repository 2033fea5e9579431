//! How fast each call is, beside the naive implementation of the tests in the same run: `cargo bench`.
//!
//! "ns/symbol" is the time of a call over the symbols it makes (or, checking and hearing, looks at). "MB/s" is the
//! transcript behind the call over its time: k × N bytes where the call works on the whole archive, N where it works on one
//! node. "hear" is all k + 1 messages to a new node, heard one by one from the last.
//! "ratio" is the naive implementation's time over the library's. All calls are measured in five rounds, one behind the
//! other, and each number is the median of its five. Below stand the whole repairs once more: what they put on the new
//! drives, and the bytes that they send; the first steps, beside hearing the messages one by one and finishing; the
//! corrections of one byte, beside writing the archive afresh; and stretches, beside opening the whole transcript from the
//! same nodes.

#[path = "../tests/naive/mod.rs"]
mod naive;

use hmsr::{Refusal, Repair, Shape};
use naive::random::Random;
use naive::{Correction, Finished, Heard, Kept, Lists, Wanted};
use std::hint::black_box;
use std::time::{Duration, Instant};

const SHAPES: [(usize, usize, usize); 6] = [(3, 1, 1), (6, 4, 3), (12, 6, 15), (12, 6, 1), (12, 10, 1), (12, 1, 1)];
const DEAD_COUNTS: [usize; 4] = [1, 2, 3, 5];
/// The largest archive, 3 440 640 symbols, takes the naive implementation long: it loses three nodes only.
const LARGEST: (usize, usize, usize) = (14, 8, 15);
const LARGEST_DEAD_COUNTS: [usize; 1] = [3];
/// The lengths of the lists that layers are chosen for, at n = 14 and k = 1.
const LOSS_COUNTS: [usize; 2] = [12, 1_000_000];
/// n, k, L and h of the plans whose transfers are put in order: the longest, of 156 transfers, and a common one, of 27.
const ORDERED: [(usize, usize, usize, usize); 2] = [(14, 1, 13, 12), (12, 6, 15, 3)];
/// The numbers of a list that is no plan's.
const LONG_LIST: usize = 1_000_000;
/// The archive of which stretches are opened, and how many stretches of how many bytes: a byte, an exhibit, as many
/// exhibits as can be, and the whole transcript.
const STRETCHED: (usize, usize, usize) = (12, 8, 15);
const STRETCHES: [(usize, usize); 4] = [(1, 1), (1, 200), (64, 200), (1, 491_520)];
/// The names of calls that are put beside one another.
const WRITE: &str = "write";
const CORRECT: &str = "correct";
const FIRST_STEP: &str = "first_step";
const HEAR: &str = "hear";
const FINISH: &str = "finish";
/// What is in the name of stretches, behind that of opening the whole transcript.
const TIMES: char = '×';
const ROUNDS: usize = 5;

/// A line of a round goes on until it has so many runs of each side, or else the least number and this time.
const MOST_RUNS: usize = 101;
const LEAST_RUNS: usize = 3;
const LINE_TIME: Duration = Duration::from_millis(150);
/// A run repeats a short call until it lasts so long: short beside the turns that other programs take of a processor, so
/// that most runs are not interrupted.
const RUN_TIME: Duration = Duration::from_micros(250);

/// What was measured of a call, a time for each round.
struct Line {
    name: String,
    symbols: usize,
    bytes: usize,
    /// What a whole repair sends, in bytes.
    sent: usize,
    library: Vec<f64>,
    naive: Vec<f64>,
}

impl Line {
    fn ratio(&self) -> f64 {
        median(self.library.iter().zip(&self.naive).map(|(library, naive)| naive / library).collect())
    }

    fn print(&self) {
        let library = median(self.library.clone());
        let naive = 1e9 * median(self.naive.clone()) / self.symbols as f64;
        let per_symbol = 1e9 * library / self.symbols as f64;
        let rate = if self.bytes == 0 { "-".to_string() } else { format!("{:.2}", self.bytes as f64 / library / 1e6) };
        println!("{:<36}{per_symbol:>12.2}{rate:>12}{naive:>14.2}{:>9.2}", self.name, self.ratio());
    }

    /// What is put on the new drives, a byte a symbol, over the time; and what is sent for it.
    fn print_repair(&self) {
        let rate = self.symbols as f64 / median(self.library.clone()) / 1e6;
        println!("{:<36}{rate:>12.2}{:>12}", self.name, self.sent);
    }

    /// The time of one call, and over it that of other calls of the library, round by round.
    fn print_beside(&self, others: &[f64], digits: usize) {
        let time = 1e9 * median(self.library.clone());
        let ratio = median(self.library.iter().zip(others).map(|(own, other)| other / own).collect());
        println!("{:<36}{time:>12.2}{ratio:>12.digits$}", self.name);
    }
}

/// The lines measured so far, in the order of a round.
struct Table {
    lines: Vec<Line>,
}

impl Table {
    /// Measures a call against its naive counterpart.
    fn line<A, B>(
        &mut self, name: String, symbols: usize, bytes: usize, mut library: impl FnMut() -> A,
        mut naive: impl FnMut() -> B,
    ) {
        let (library, naive) = medians(&mut || drop(black_box(library())), &mut || drop(black_box(naive())));
        match self.lines.iter_mut().find(|line| line.name == name) {
            Some(line) => {
                line.library.push(library);
                line.naive.push(naive);
            }
            None => self.lines.push(Line { name, symbols, bytes, sent: 0, library: vec![library], naive: vec![naive] }),
        }
    }

    /// Says what the call of that name sends.
    fn sends(&mut self, name: &str, bytes: usize) {
        self.lines.iter_mut().filter(|line| line.name == name).for_each(|line| line.sent = bytes);
    }

    /// The line of that name.
    fn of(&self, name: &str) -> Option<&Line> {
        self.lines.iter().find(|line| line.name == name)
    }

    /// The lines of corrections, each with that of writing the same archive.
    fn corrections(&self) -> impl Iterator<Item = (&Line, &Line)> {
        self.lines.iter().filter_map(|line| {
            let shape = line.name.strip_suffix(CORRECT)?;
            self.of(&format!("{shape}{WRITE}")).map(|written| (line, written))
        })
    }

    /// The lines of first steps, each with the times of hearing all messages and finishing, a sum for each round.
    fn arrivals(&self) -> impl Iterator<Item = (&Line, Vec<f64>)> {
        self.lines.iter().filter(|line| line.name.contains(FIRST_STEP)).filter_map(|line| {
            let [hear, finish] = [HEAR, FINISH].map(|call| self.of(&line.name.replace(FIRST_STEP, call)));
            let rounds = hear?.library.iter().zip(&finish?.library);
            Some((line, rounds.map(|(hear, finish)| hear + finish).collect()))
        })
    }

    /// The lines of stretches, each with that of opening the whole transcript from the same nodes.
    fn stretches(&self) -> impl Iterator<Item = (&Line, &Line)> {
        self.lines.iter().filter_map(|line| {
            let (open, stretches) = line.name.rsplit_once(' ')?;
            self.of(open).filter(|_| stretches.contains(TIMES)).map(|opened| (line, opened))
        })
    }

    fn print(&self) {
        println!("{:<36}{:>12}{:>12}{:>14}{:>9}", "(n, k, L) call", "ns/symbol", "MB/s", "naive ns/sym", "ratio");
        self.lines.iter().for_each(Line::print);
        println!("{:<36}{:>12}{:>12}", "whole repairs", "drives MB/s", "line bytes");
        self.lines.iter().filter(|line| line.sent != 0).for_each(Line::print_repair);
        println!("{:<36}{:>12}{:>12}", "first steps", "ns", "hear ratio");
        self.arrivals().for_each(|(step, arrival)| step.print_beside(&arrival, 2));
        println!("{:<36}{:>12}{:>12}", "corrections", "ns", "write ratio");
        self.corrections().for_each(|(correct, write)| correct.print_beside(&write.library, 0));
        println!("{:<36}{:>12}{:>12}", "stretches, count × bytes", "ns", "open ratio");
        self.stretches().for_each(|(stretches, open)| stretches.print_beside(&open.library, 2));
        let slower: Vec<String> =
            self.lines.iter().filter(|line| line.ratio() < 1.0).map(|line| line.name.clone()).collect();
        println!("Ratio below 1: {}.", if slower.is_empty() { "none".to_string() } else { slower.join(", ") });
    }
}

/// The median times of one call of each side, run by turns.
fn medians(library: &mut dyn FnMut(), naive: &mut dyn FnMut()) -> (f64, f64) {
    let library_repeats = repeats(library);
    let naive_repeats = repeats(naive);
    let start = Instant::now();
    let (mut library_times, mut naive_times) = (Vec::new(), Vec::new());
    while library_times.len() < LEAST_RUNS || (library_times.len() < MOST_RUNS && start.elapsed() < LINE_TIME) {
        library_times.push(run(library, library_repeats));
        naive_times.push(run(naive, naive_repeats));
    }
    (median(library_times), median(naive_times))
}

/// Warms up, and says how many calls make a run.
fn repeats(call: &mut dyn FnMut()) -> usize {
    call();
    let mut repeats = 1;
    while repeats < 1 << 20 && run(call, repeats) * (repeats as f64) < RUN_TIME.as_secs_f64() {
        repeats *= 2;
    }
    repeats
}

/// The time of one of so many calls, in seconds.
fn run(call: &mut dyn FnMut(), repeats: usize) -> f64 {
    let start = Instant::now();
    for _ in 0..repeats {
        call();
    }
    start.elapsed().as_secs_f64() / repeats as f64
}

fn median(mut times: Vec<f64>) -> f64 {
    times.sort_by(f64::total_cmp);
    times[times.len() / 2]
}

/// A shape as both sides name it, and a random transcript written into all nodes.
struct Written {
    shape: Shape,
    plain: naive::Shape,
    transcript: Vec<u8>,
    nodes: Vec<u16>,
}

impl Written {
    fn new((n, k, layers): (usize, usize, usize)) -> Self {
        let plain = naive::Shape { n, k, layers };
        let transcript = Random::new(1).bytes(plain.capacity());
        let nodes = naive::write(plain, &transcript, n * plain.symbols()).unwrap();
        Written { shape: Shape { nodes: n, data: k, layers }, plain, transcript, nodes }
    }

    fn name(&self, call: &str) -> String {
        format!("({}, {}, {}) {call}", self.plain.n, self.plain.k, self.plain.layers)
    }

    fn node(&self, node: usize) -> &[u16] {
        &self.nodes[node * self.plain.symbols()..][..self.plain.symbols()]
    }
}

fn bench_code(table: &mut Table, written: &Written) {
    let Written { shape, plain, transcript, nodes } = written;
    let (all, capacity) = (nodes.len(), plain.capacity());
    // The last k nodes: as many data nodes as can be are worked out.
    let list: Vec<usize> = (plain.n - plain.k..plain.n).collect();
    let symbols = &nodes[all - capacity..];
    let mut out = vec![0; all];
    table.line(
        written.name(WRITE),
        all,
        capacity,
        || shape.write(black_box(transcript), &mut out).unwrap(),
        || naive::write(*plain, black_box(transcript), all).unwrap(),
    );
    table.line(
        written.name("check"),
        all,
        capacity,
        || shape.check(black_box(nodes)).unwrap(),
        || naive::check(*plain, black_box(nodes)).unwrap(),
    );
    table.line(
        written.name("restore"),
        all,
        capacity,
        || shape.restore(&list, black_box(symbols), &mut out).unwrap(),
        || naive::restore(*plain, &list, black_box(symbols), all).unwrap(),
    );
    bench_open(table, written);
}

/// The names of opening from the last k nodes, and from the data nodes themselves, of which nothing is worked out; with
/// the nodes and where their symbols start.
fn sources(plain: naive::Shape) -> [(&'static str, Vec<usize>, usize); 2] {
    let (size, last) = (plain.symbols(), plain.n - plain.k);
    [("open", (last..plain.n).collect(), last * size), ("open data nodes", (0..plain.k).collect(), 0)]
}

fn bench_open(table: &mut Table, written: &Written) {
    let Written { shape, plain, transcript, nodes } = written;
    let capacity = plain.capacity();
    for (call, list, start) in sources(*plain) {
        let symbols = &nodes[start..start + capacity];
        let mut bytes = vec![0; capacity];
        table.line(
            written.name(call),
            capacity,
            capacity,
            || shape.open(&list, black_box(symbols), capacity, &mut bytes).unwrap(),
            || naive::open(*plain, &list, black_box(symbols), capacity, capacity).unwrap(),
        );
        assert_eq!(&bytes, transcript);
    }
}

/// A "symbol" of stretches is a wanted byte, and these bytes are the transcript behind them. They start anywhere.
fn bench_stretches(table: &mut Table, written: &Written, (count, length): (usize, usize)) {
    let Written { shape, plain, transcript, nodes } = written;
    let capacity = plain.capacity();
    let mut random = Random::new(1);
    let starts: Vec<usize> = (0..count).map(|_| random.between(0, capacity - length)).collect();
    let stretches: Vec<_> = starts.iter().map(|&start| start..start + length).collect();
    for (call, list, first) in sources(*plain) {
        let wanted = Wanted {
            shape: *plain,
            list,
            symbols: nodes[first..first + capacity].to_vec(),
            length: capacity,
            numbers: starts.iter().flat_map(|&start| [start, length]).collect(),
            bytes_length: count * length,
            columns_length: plain.symbols(),
        };
        let (mut bytes, mut columns) = (vec![0; wanted.bytes_length], vec![0; wanted.columns_length]);
        table.line(
            written.name(&format!("{call} {count}{TIMES}{length}")),
            count * length,
            count * length,
            || {
                let symbols = black_box(&wanted.symbols);
                shape.open_stretches(&wanted.list, symbols, capacity, &stretches, &mut bytes, &mut columns).unwrap()
            },
            || naive::open_stretches(black_box(&wanted)).unwrap(),
        );
        assert!(stretches.iter().flat_map(|stretch| &transcript[stretch.clone()]).eq(&bytes));
    }
}

/// A "symbol" of a correction is one that it gives another value; no transcript is behind it. The archive's last byte is
/// changed and changed back by turns. Of the naive implementation the copy of all nodes is left out, which it would return.
fn bench_correct(table: &mut Table, written: &Written) {
    let Written { shape, plain, transcript, nodes } = written;
    let (length, byte) = (transcript.len(), transcript.len() - 1);
    let change = if transcript[byte] < 128 { 1 } else { -1 };
    let mut correction = Correction { shape: *plain, nodes: nodes.clone(), length, byte, change };
    let (mut all, mut turn) = (nodes.clone(), change);
    table.line(
        written.name(CORRECT),
        plain.equations() + 1,
        0,
        || {
            shape.correct(black_box(&mut all), length, byte, turn).unwrap();
            turn = -turn;
        },
        || naive::correct::changes(black_box(&correction)).unwrap(),
    );
    if turn != change {
        correction.nodes = naive::correct(&correction).unwrap();
    }
    assert_eq!(all, correction.nodes);
}

/// The dead are every other node from 1 on, the helpers the first others.
struct Choice {
    dead: Vec<usize>,
    helpers: Vec<usize>,
    length: usize,
}

impl Choice {
    fn new(plain: naive::Shape, h: usize) -> Option<Self> {
        let allowed = h < plain.equations() && plain.layers.is_multiple_of(naive::judge::batch_layers(h));
        let dead: Vec<usize> = (0..h).map(|rank| 2 * rank + 1).collect();
        let living = (0..plain.n).filter(|node| !dead.contains(node));
        let helpers = living.take(plain.k + 1).collect();
        allowed.then(|| Choice { dead, helpers, length: plain.symbols() / (h + 1) })
    }
}

fn bench_repair(table: &mut Table, written: &Written, choice: &Choice) {
    let Written { shape, plain, nodes, .. } = written;
    let Choice { dead, helpers, length } = choice;
    let (h, size) = (dead.len(), plain.symbols());
    let repair = Repair { shape: *shape, dead, helpers };
    let wire_length = h * (plain.k + h) * length;
    let mut all = nodes.clone();
    let mut wire = vec![0; wire_length];
    table.line(
        written.name(&format!("repair h={h}")),
        h * size,
        plain.capacity(),
        || repair.repair(black_box(&mut all), &mut wire).unwrap(),
        || naive::repair(*plain, dead, helpers, black_box(nodes), wire_length).unwrap(),
    );
    assert_eq!(naive::repair(*plain, dead, helpers, nodes, wire_length).as_ref(), Ok(&(all, wire.clone())));
    table.sends(&written.name(&format!("repair h={h}")), h * (plain.k + h) * message_bytes(*length));
    bench_steps(table, written, choice, &wire);
}

/// The bytes of a message as one number to base 257.
fn message_bytes(symbols: usize) -> usize {
    (symbols as f64 * 257f64.log2() / 8.0).ceil() as usize
}

/// The calls of one helper and one new node, of rank 0, with what stood on the wire.
fn bench_steps(table: &mut Table, written: &Written, choice: &Choice, wire: &[u16]) {
    let Written { shape, plain, .. } = written;
    let Choice { dead, helpers, length } = choice;
    let (h, size, new, helper) = (dead.len(), plain.symbols(), dead[0], helpers[0]);
    let repair = Repair { shape: *shape, dead, helpers };
    let own = written.node(helper);
    let messages = &wire[..helpers.len() * length];
    let received = &wire[h * helpers.len() * length..][..(h - 1) * length];
    let (mut message, mut pairs) = (vec![0; *length], vec![0; 2 * length]);
    let (mut sums, mut symbols) = (vec![0; (h - 1) * length], vec![0; size]);
    table.line(
        written.name(&format!("helper_message h={h}")),
        *length,
        size,
        || repair.helper_message(helper, new, black_box(own), &mut message).unwrap(),
        || naive::helper_message(*plain, dead, helpers, helper, new, black_box(own), *length).unwrap(),
    );
    table.line(
        written.name(&format!("{FIRST_STEP} h={h}")),
        (h + 1) * length,
        size,
        || repair.first_step(new, black_box(messages), &mut pairs, &mut sums).unwrap(),
        || {
            let (pairs, sums) = (2 * length, (h - 1) * length);
            naive::first_step(*plain, dead, helpers, new, black_box(messages), pairs, sums).unwrap()
        },
    );
    table.line(
        written.name(&format!("second_step h={h}")),
        size,
        size,
        || repair.second_step(new, black_box(&pairs), received, &mut symbols).unwrap(),
        || naive::second_step(*plain, dead, helpers, new, black_box(&pairs), received, size).unwrap(),
    );
    assert_eq!(symbols, written.node(new));
    bench_arrival(table, written, choice, messages, &(pairs, sums));
}

/// The same messages one by one, from zeros on, and finishing, which has to give that first step.
fn bench_arrival(table: &mut Table, written: &Written, choice: &Choice, messages: &[u16], step: &(Vec<u16>, Vec<u16>)) {
    let Choice { dead, helpers, length } = choice;
    let lists = Lists { shape: written.plain, dead: dead.clone(), helpers: helpers.clone() };
    let told: Vec<_> = helpers.iter().copied().zip(messages.chunks_exact(*length)).rev().collect();
    bench_hear(table, written, &lists, &told);
    bench_finish(table, written, &lists, hear_naively(&lists, &told), step);
}

/// A message and the helper that sends it.
type Message<'a> = (usize, &'a [u16]);

/// What the new node of rank 0 keeps of these messages.
fn hear_naively(lists: &Lists, told: &[Message]) -> Kept {
    let hear = |kept, &(helper, message): &Message| {
        let (lists, message) = (lists.clone(), message.to_vec());
        naive::hear(&Heard { new: lists.dead[0], lists, helper, message, kept }).unwrap()
    };
    told.iter().fold(Kept::begun(lists), hear)
}

/// A "symbol" of hearing is one of a message.
fn bench_hear(table: &mut Table, written: &Written, lists: &Lists, told: &[Message]) {
    let repair = Repair { shape: written.shape, dead: &lists.dead, helpers: &lists.helpers };
    let (new, Kept { mut sums, mut record }) = (lists.dead[0], Kept::begun(lists));
    table.line(
        written.name(&format!("{HEAR} h={}", lists.dead.len())),
        told.len() * lists.message_length(),
        written.plain.symbols(),
        || {
            sums.fill(0);
            record.fill(0);
            for &(helper, message) in black_box(told) {
                repair.hear(new, helper, message, &mut sums, &mut record).unwrap();
            }
        },
        || hear_naively(lists, black_box(told)),
    );
    assert_eq!(hear_naively(lists, told), Kept { sums, record });
}

fn bench_finish(table: &mut Table, written: &Written, lists: &Lists, kept: Kept, step: &(Vec<u16>, Vec<u16>)) {
    let (new, (mut pairs, mut exchanges)) = (lists.dead[0], step.clone());
    let (pairs_length, exchanges_length) = (pairs.len(), exchanges.len());
    let call = Finished { lists: lists.clone(), new, kept, pairs_length, exchanges_length };
    let Kept { sums, record } = &call.kept;
    let repair = Repair { shape: written.shape, dead: &lists.dead, helpers: &lists.helpers };
    pairs.fill(0);
    exchanges.fill(0);
    table.line(
        written.name(&format!("{FINISH} h={}", lists.dead.len())),
        pairs_length + exchanges_length,
        written.plain.symbols(),
        || repair.finish(new, black_box(sums), record, &mut pairs, &mut exchanges).unwrap(),
        || naive::finish(black_box(&call)).unwrap(),
    );
    assert_eq!(*step, (pairs, exchanges));
}

fn bench_cards(table: &mut Table, written: &Written) {
    let Written { shape, plain, .. } = written;
    let (size, length, node, hearing) = (plain.symbols(), plain.capacity(), plain.n - 1, 0);
    let own = written.node(node);
    let header = naive::Header { shape: *plain, node, length, hearing };
    let library_header = hmsr::Header { shape: *shape, node, length, hearing };
    let room = 15 + 2 * size;
    let mut buffer = vec![0; room];
    let packed = naive::pack(header, own, room).unwrap();
    let mut symbols = vec![0; size];
    table.line(
        written.name("pack"),
        size,
        size,
        || library_header.pack(black_box(own), &mut buffer).unwrap(),
        || naive::pack(header, black_box(own), room).unwrap(),
    );
    table.line(
        written.name("unpack"),
        size,
        size,
        || hmsr::unpack(black_box(&packed), &mut symbols).unwrap(),
        || naive::unpack(black_box(&packed), size).unwrap(),
    );
}

/// A "symbol" of a plan is a byte of its text; no transcript is behind it.
fn bench_plan(table: &mut Table, written: &Written, choice: &Choice) {
    let input = Repair { shape: written.shape, dead: &choice.dead, helpers: &choice.helpers }.plan_input();
    let mut text = vec![0; hmsr::PLAN_TEXT];
    let length = naive::plan(&input).len();
    table.line(
        written.name(&format!("plan h={}", choice.dead.len())),
        length,
        0,
        || hmsr::plan(black_box(&input), &mut text).unwrap(),
        || naive::plan(black_box(&input)),
    );
    assert_eq!(&text[..length], naive::plan(&input).as_bytes());
}

/// A "symbol" of a list is a loss in it; no transcript is behind it. The losses are those that fifteen layers serve, over
/// and over.
fn bench_layers(table: &mut Table, count: usize) {
    let losses: Vec<usize> = [1, 2, 3, 4, 5, 7, 9, 11].into_iter().cycle().take(count).collect();
    table.line(
        format!("(14, 1) layers, {count} losses"),
        count,
        0,
        || Shape::for_losses(14, 1, black_box(&losses)).unwrap(),
        || naive::layers(14, 1, black_box(&losses)).unwrap(),
    );
    assert_eq!(Shape::for_losses(14, 1, &losses).map(|shape| shape.layers).ok(), naive::layers(14, 1, &losses).ok());
}

/// A repair, and its plan's transfers in a random order that may run.
fn ordered((n, k, layers, h): (usize, usize, usize, usize)) -> (Lists, Vec<usize>) {
    let mut random = Random::new(1);
    let shape = naive::Shape { n, k, layers };
    let (dead, helpers) = random.sets(shape, h);
    let lists = Lists { shape, dead, helpers };
    let list = naive::order::numbers(&random.order(&lists));
    (lists, list)
}

/// A "symbol" of a list is a transfer in it; no transcript is behind it.
fn bench_may_run(table: &mut Table, call: &str, lists: &Lists, list: &[usize]) {
    let Lists { shape: naive::Shape { n, k, layers }, dead, helpers } = lists;
    let repair = Repair { shape: Shape { nodes: *n, data: *k, layers: *layers }, dead, helpers };
    table.line(
        format!("({n}, {k}, {layers}) {call}"),
        list.len() / 2,
        0,
        || repair.may_run(black_box(list)),
        || naive::may_run(lists, black_box(list)),
    );
    assert_eq!(repair.may_run(list).map_err(Refusal::number), naive::may_run(lists, list));
}

/// The plans in orders that may run, and the longest one's over and over, which may not.
fn bench_orders(table: &mut Table) {
    for size in ORDERED {
        let (lists, list) = ordered(size);
        bench_may_run(table, &format!("may_run h={}", size.3), &lists, &list);
    }
    let (lists, list) = ordered(ORDERED[0]);
    let long: Vec<usize> = list.into_iter().cycle().take(LONG_LIST).collect();
    bench_may_run(table, &format!("may_run, {LONG_LIST} numbers"), &lists, &long);
}

fn bench_shape(table: &mut Table, shape: (usize, usize, usize), dead_counts: &[usize]) {
    let written = Written::new(shape);
    bench_code(table, &written);
    bench_correct(table, &written);
    for choice in dead_counts.iter().filter_map(|&h| Choice::new(written.plain, h)) {
        bench_repair(table, &written, &choice);
        bench_plan(table, &written, &choice);
    }
    bench_cards(table, &written);
}

/// Opening the whole transcript, and stretches of it.
fn bench_stretched(table: &mut Table) {
    let written = Written::new(STRETCHED);
    bench_open(table, &written);
    STRETCHES.into_iter().for_each(|stretches| bench_stretches(table, &written, stretches));
}

fn main() {
    let mut table = Table { lines: Vec::new() };
    for _ in 0..ROUNDS {
        for shape in SHAPES {
            bench_shape(&mut table, shape, &DEAD_COUNTS);
        }
        bench_shape(&mut table, LARGEST, &LARGEST_DEAD_COUNTS);
        bench_stretched(&mut table);
        LOSS_COUNTS.iter().for_each(|&count| bench_layers(&mut table, count));
        bench_orders(&mut table);
    }
    table.print();
}
