//! The shape of an archive, the lists of a repair, and the causes 1 to 5 of "When a call turns back", with what
//! document 02 adds: §2 for stretches, and §8 for the helpers that a new node has heard.

/// A refusal number of documents 01 and 02.
pub type Number = usize;

#[derive(Clone, Copy, Debug, PartialEq, Eq)]
pub struct Shape {
    pub n: usize,
    pub k: usize,
    pub layers: usize,
}

impl Shape {
    /// The places of one layer, 2^n.
    pub fn width(self) -> usize {
        1 << self.n
    }

    /// N, the symbols of a node.
    pub fn symbols(self) -> usize {
        self.layers * self.width()
    }

    /// r, the parity equations of a place.
    pub fn equations(self) -> usize {
        self.n - self.k
    }

    /// The bytes of the longest transcript, k × N.
    pub fn capacity(self) -> usize {
        self.k * self.symbols()
    }
}

/// What all calls of a repair are given.
#[derive(Clone, Debug)]
pub struct Lists {
    pub shape: Shape,
    pub dead: Vec<usize>,
    pub helpers: Vec<usize>,
}

impl Lists {
    /// N/(h+1), rounded down where N is not a multiple.
    pub fn message_length(&self) -> usize {
        self.shape.symbols() / (self.dead.len() + 1)
    }

    /// The other dead nodes.
    pub fn fellows(&self, new: usize) -> Vec<usize> {
        self.dead.iter().copied().filter(|&node| node != new).collect()
    }
}

/// Every n, k and h of a repair, up to so many nodes.
pub fn sizes(most_nodes: usize) -> impl Iterator<Item = (usize, usize, usize)> + Clone {
    let shapes = (3..=most_nodes).flat_map(|n| (1..=n - 2).map(move |k| (n, k)));
    shapes.flat_map(|(n, k)| (1..n - k).map(move |h| (n, k, h)))
}

pub fn refuse_unless(holds: bool, number: Number) -> Result<(), Number> {
    if holds {
        Ok(())
    } else {
        Err(number)
    }
}

/// "n may be 3 to 14" (document 02 §7), "k is 1 to n−2 .. L is 1 to 15."
pub fn judge_shape(shape: Shape) -> Result<(), Number> {
    let n = (3..=14).contains(&shape.n);
    let k = n && (1..=shape.n - 2).contains(&shape.k);
    refuse_unless(k && (1..=15).contains(&shape.layers), 1)
}

pub fn judge_node(shape: Shape, node: usize) -> Result<(), Number> {
    refuse_unless(node < shape.n, 2)
}

fn is_node_list(shape: Shape, list: &[usize]) -> bool {
    list.iter().all(|&node| node < shape.n) && list.windows(2).all(|pair| pair[0] < pair[1])
}

/// The list of restore and open: k nodes, rising.
pub fn judge_list(shape: Shape, list: &[usize]) -> Result<(), Number> {
    refuse_unless(list.len() == shape.k && is_node_list(shape, list), 2)
}

/// "Dead nodes number h, 1 to n−k−1. Helpers are exactly k+1 other nodes, rising."
pub fn judge_lists(shape: Shape, dead: &[usize], helpers: &[usize]) -> Result<(), Number> {
    judge_dead_count(shape, dead.len())?;
    let lists = is_node_list(shape, dead) && is_node_list(shape, helpers);
    let apart = dead.iter().all(|node| !helpers.contains(node));
    refuse_unless(lists && helpers.len() == shape.k + 1 && apart, 2)
}

pub fn judge_dead_count(shape: Shape, h: usize) -> Result<(), Number> {
    refuse_unless((1..=shape.equations() - 1).contains(&h), 2)
}

/// A new node or a helper named in a call is one of the list.
pub fn judge_member(list: &[usize], node: usize) -> Result<(), Number> {
    refuse_unless(list.contains(&node), 2)
}

/// s, the odd part of h + 1: the layers of a batch.
pub fn batch_layers(h: usize) -> usize {
    let mut s = h + 1;
    while s.is_multiple_of(2) {
        s /= 2;
    }
    s
}

/// "L must be a multiple of s."
pub fn judge_layers(shape: Shape, h: usize) -> Result<(), Number> {
    refuse_unless(shape.layers.is_multiple_of(batch_layers(h)), 3)
}

/// The lengths of buffers, each beside the length it has to have.
pub fn judge_lengths(lengths: &[(usize, usize)]) -> Result<(), Number> {
    refuse_unless(lengths.iter().all(|(length, exact)| length == exact), 4)
}

pub fn judge_transcript(shape: Shape, length: usize) -> Result<(), Number> {
    refuse_unless(length <= shape.capacity(), 4)
}

pub fn judge_symbols(symbols: &[u16]) -> Result<(), Number> {
    refuse_unless(symbols.iter().all(|&symbol| symbol <= 256), 5)
}

/// Where a stretch of a transcript starts, and how many bytes it has.
pub type Stretch = (usize, usize);

/// "Up to 64 stretches (start and length ..) .. More than 64 stretches is 4" (document 02 §2), and so is a number that
/// is left over.
pub fn judge_stretch_count(numbers: &[usize]) -> Result<(), Number> {
    refuse_unless(numbers.len().is_multiple_of(2) && numbers.len() / 2 <= 64, 4)
}

/// The buffer has room for all wanted bytes, and no more.
pub fn judge_sum(sum: u128, length: usize) -> Result<(), Number> {
    refuse_unless(sum == length as u128, 4)
}

/// "9, a stretch ends past the transcript, judged after 4 and before 5": one without bytes ends where it starts.
pub fn judge_ends(stretches: &[Stretch], length: usize) -> Result<(), Number> {
    let end = |(start, count): Stretch| start as u128 + count as u128;
    refuse_unless(stretches.iter().all(|&stretch| end(stretch) <= length as u128), 9)
}

/// The bytes that these data symbols are.
pub fn judge_bytes(symbols: Vec<u16>) -> Result<Vec<u8>, Number> {
    symbols.into_iter().map(|symbol| u8::try_from(symbol).map_err(|_| 7)).collect()
}

/// The nodes that a record counts, as far as it has them: it is how many were heard, then their nodes in the order heard,
/// and what stands behind these is not looked at.
pub fn counted(record: &[usize]) -> &[usize] {
    match record.split_first() {
        Some((&count, nodes)) => &nodes[..count.min(nodes.len())],
        None => &[],
    }
}

/// "A helper heard a second time, or one not in the list, in the kept record too, is 2" (document 02 §8), and so is a
/// count above k+1.
pub fn judge_record(helpers: &[usize], record: &[usize]) -> Result<(), Number> {
    refuse_unless(record.first().is_none_or(|&count| count <= helpers.len()), 2)?;
    let mut before: Vec<usize> = Vec::new();
    for &node in counted(record) {
        judge_member(helpers, node)?;
        refuse_unless(!before.contains(&node), 2)?;
        before.push(node);
    }
    Ok(())
}

/// "A helper heard a second time .. is 2."
pub fn judge_unheard(record: &[usize], helper: usize) -> Result<(), Number> {
    refuse_unless(!counted(record).contains(&helper), 2)
}

/// "Finishing before all k+1 are heard is 4": the record is there, and counts them.
pub fn judge_all_heard(helpers: &[usize], record: &[usize]) -> Result<(), Number> {
    refuse_unless(record.first() == Some(&helpers.len()), 4)
}
