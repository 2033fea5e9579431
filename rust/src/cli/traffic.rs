//! What a repair sends, against repairs that read whole nodes: in symbols, and in bytes of one encoding for all.
use hmsr::Shape;

/// How bytes are counted, for the reader.
pub const ENCODING: &str = "bytes: each message as one number to base 257; in memory a symbol takes two";

/// The least bytes that hold any message of so many symbols (0 to 256 each) as one number to base 257.
pub fn packed_bytes(symbols: usize) -> usize {
    (symbols as f64 * 257_f64.log2() / 8.0).ceil() as usize
}

/// What one way of repairing sends.
#[derive(Clone, Copy)]
pub struct Sent {
    pub symbols: usize,
    pub bytes: usize,
}

impl Sent {
    fn of(messages: usize, symbols: usize) -> Sent {
        Sent { symbols: messages * symbols, bytes: messages * packed_bytes(symbols) }
    }
}

/// What three ways of repairing h dead nodes send.
pub struct Traffic {
    /// Cooperative repair: h(k+h) messages of N/(h+1) symbols.
    pub cooperative: Sent,
    /// One new node reads k whole nodes and passes the other new nodes on: k + h - 1 messages of N symbols.
    pub through_one: Sent,
    /// Each new node reads k whole nodes: h × k messages of N symbols.
    pub each_alone: Sent,
}

impl Traffic {
    /// Of a repair that can be made in one go.
    pub fn of(shape: Shape, dead_count: usize) -> Option<Traffic> {
        let (size, message) = (shape.node_symbols().ok()?, shape.message_symbols(dead_count).ok()?);
        Some(Traffic {
            cooperative: Sent::of(dead_count * (shape.data + dead_count), message),
            through_one: Sent::of(shape.data + dead_count - 1, size),
            each_alone: Sent::of(dead_count * shape.data, size),
        })
    }
}

/// A line for each number of dead nodes that one go repairs.
pub fn table(shape: Shape) -> String {
    let mut table =
        format!("{:>4}  {:>17}  {:>17}  {:>17}\n", "lost", "cooperative", "through one drive", "each drive alone");
    table += &format!("{:>4}{}\n", "", format!("  {:>8} {:>8}", "symbols", "bytes").repeat(3));
    for dead_count in 1..shape.nodes - shape.data {
        if let Some(t) = Traffic::of(shape, dead_count) {
            let columns = [t.cooperative, t.through_one, t.each_alone];
            let columns = columns.map(|sent| format!("  {:>8} {:>8}", sent.symbols, sent.bytes));
            table += &format!("{dead_count:>4}{}\n", columns.concat());
        }
    }
    table
}
