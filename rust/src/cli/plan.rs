//! `hmsr plan`: the transfer plan of a repair, as the plan program prints it.
use hmsr::{plan_text, Refusal, Repair, Shape};

use super::args::Args;
use super::{json, Failure, Report};

/// A message of a plan.
pub struct Message {
    pub sender: usize,
    pub receiver: usize,
    pub symbols: usize,
}

pub fn run(args: &Args) -> Result<Report, Failure> {
    let shape = Shape {
        nodes: args.required_number("--nodes")?,
        data: args.required_number("--data")?,
        layers: args.required_number("--layers")?,
    };
    let (dead, helpers) = (args.required_list("--dead")?, args.required_list("--helpers")?);
    Ok(match args.has("--json") {
        true => for_programs(shape, &dead, &helpers)?,
        false => text(shape, &dead, &helpers)?,
    }
    .into())
}

/// The plan for programs: the repair, its messages in the plan's order, and the symbols of all.
fn for_programs(shape: Shape, dead: &[usize], helpers: &[usize]) -> Result<String, Failure> {
    let messages = messages(shape, dead, helpers)?;
    let total: usize = messages.iter().map(|message| message.symbols).sum();
    let one = |message: &Message| {
        json::object([
            ("from", message.sender.to_string()),
            ("to", message.receiver.to_string()),
            ("symbols", message.symbols.to_string()),
        ])
    };
    let plan = json::object([
        ("nodes", shape.nodes.to_string()),
        ("data", shape.data.to_string()),
        ("layers", shape.layers.to_string()),
        ("dead", json::numbers(dead)),
        ("helpers", json::numbers(helpers)),
        ("messages", json::array(messages.iter().map(one))),
        ("symbols", total.to_string()),
    ]);
    Ok(plan + "\n")
}

/// The plan's text. A refused plan is one line with one number.
pub fn text(shape: Shape, dead: &[usize], helpers: &[usize]) -> Result<String, Failure> {
    let text = String::from_utf8_lossy(&plan_text(&Repair { shape, dead, helpers }.plan_input())).into_owned();
    match text.trim_end().parse().ok().and_then(Refusal::from_number) {
        Some(refusal) => Err(refused(refusal)),
        None => Ok(text),
    }
}

/// A repair that the library refuses.
pub fn refused(refusal: Refusal) -> Failure {
    Failure::refused(Failure::Usage, "there is no such repair", refusal, advice(refusal))
}

/// The messages of a plan, which its text has between the first and the last line.
pub fn messages(shape: Shape, dead: &[usize], helpers: &[usize]) -> Result<Vec<Message>, Failure> {
    let text = text(shape, dead, helpers)?;
    let numbers = |line: &str| line.split(' ').filter_map(|word| word.parse().ok()).collect::<Vec<usize>>();
    let message = |line: &str| match numbers(line)[..] {
        [sender, receiver, symbols] => Some(Message { sender, receiver, symbols }),
        _ => None,
    };
    Ok(text.lines().filter_map(message).collect())
}

fn advice(refusal: Refusal) -> &'static str {
    match refusal {
        Refusal::BadShape => "choose --nodes, --data and --layers within these ranges",
        Refusal::BadNodes => "name 1 to nodes - data - 1 dead nodes and exactly data + 1 other nodes as helpers",
        Refusal::PartBatch => "repair fewer nodes at a time",
        _ => "name exactly data + 1 helpers, and no number above 268435455",
    }
}
