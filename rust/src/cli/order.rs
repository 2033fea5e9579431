//! `hmsr order`: whether the transfers of a repair may run in the order of a list.
use hmsr::{Refusal, Repair, Shape};

use super::args::Args;
use super::rules::{first_broken, Broken, Rule, Transfer};
use super::text::{counted, listed_with_and};
use super::transfers::List;
use super::{json, plan, Failure, Report};

/// A no, in words and for programs.
struct No {
    /// The line that breaks a rule; `None` where the list ends too early.
    line: Option<usize>,
    /// The sender and the receiver; `None` for a number that is too large.
    transfer: [Option<usize>; 2],
    rule: &'static str,
    message: String,
}

pub fn run(args: &Args) -> Result<Report, Failure> {
    let nodes = args.required_number("--nodes")?;
    let (dead, helpers) = (args.required_list("--dead")?, args.required_list("--helpers")?);
    let shape = shape_asked(args, nodes, dead.len(), helpers.len())?;
    let repair = Repair { shape, dead: &dead, helpers: &helpers };
    judge(repair)?;
    let plan = plan::messages(shape, &dead, &helpers)?;
    let plan: Vec<Transfer> = plan.iter().map(|message| [message.sender, message.receiver]).collect();
    let list = List::read(args.path(0))?;
    let for_programs = args.has("--json");
    Ok(match repair.may_run(list.transfers.as_flattened()) {
        Ok(()) => yes(plan.len(), for_programs).into(),
        // The repair is accepted and pairs are never odd, so this is 13.
        Err(_) => no(&list, &first_broken(repair, &plan, &list.transfers)).report(for_programs),
    })
}

/// Judges the repair before the list is read: no transfers are a no, where the repair itself is not refused.
fn judge(repair: Repair) -> Result<(), Failure> {
    match repair.may_run(&[]) {
        Ok(()) | Err(Refusal::BadOrder) => Ok(()),
        Err(refusal) => Err(plan::refused(refusal)),
    }
}

/// The archive's shape. Without `--data`, so many helpers are the right number for it. Without `--layers`, it has the
/// fewest that serve this loss; where there are none, the repair is refused with one layer for the same cause.
fn shape_asked(args: &Args, nodes: usize, dead: usize, helpers: usize) -> Result<Shape, Failure> {
    let data = args.number("--data")?.unwrap_or(helpers.saturating_sub(1));
    let fewest = || Shape::for_losses(nodes, data, &[dead]).map_or(1, |shape| shape.layers);
    Ok(Shape { nodes, data, layers: args.number("--layers")?.unwrap_or_else(fewest) })
}

fn yes(count: usize, for_programs: bool) -> String {
    match for_programs {
        true => json::object([("may_run", true.to_string()), ("transfers", count.to_string())]) + "\n",
        false => format!("yes: the {} may run in this order\n", counted(count, "transfer")),
    }
}

fn no(list: &List, broken: &Broken) -> No {
    match broken {
        Broken::At(place, rule) => broken_at(list, *place, rule),
        Broken::Missing(transfers) => missing(transfers),
    }
}

fn broken_at(list: &List, place: usize, rule: &Rule) -> No {
    let lines = list.lines_to(place);
    let line = &lines[place];
    let [sender, _] = list.transfers[place];
    let (rule, why) = match rule {
        Rule::NotInPlan => ("not in the plan", "the plan has no such transfer".to_string()),
        Rule::Twice(earlier) => ("twice", format!("it stands in line {} already", lines[*earlier].number)),
        Rule::Waits(helpers) => {
            ("waits", format!("node {sender} sends before {} sent to it", helpers_that_have(helpers)))
        }
    };
    let message = format!("no: line {}, {}: {why}", line.number, line.shown());
    No { line: Some(line.number), transfer: line.numbers(), rule, message }
}

/// "helper 2 has", "helpers 2 and 3 have".
fn helpers_that_have(helpers: &[usize]) -> String {
    match helpers {
        [helper] => format!("helper {helper} has"),
        _ => format!("helpers {} have", listed_with_and(helpers)),
    }
}

/// One is missing at least: a list that has every transfer of the plan and breaks no rule may run.
fn missing(transfers: &[Transfer]) -> No {
    let [sender, receiver] = transfers[0];
    let others = match transfers.len() - 1 {
        0 => String::new(),
        count => format!(" and {}", counted(count, "other")),
    };
    let message = format!("no: the list ends without the transfer from {sender} to {receiver}{others}");
    No { line: None, transfer: [Some(sender), Some(receiver)], rule: "missing", message }
}

impl No {
    fn report(self, for_programs: bool) -> Report {
        let text = if for_programs { self.for_programs() } else { String::new() };
        Report { text, failure: Some(Failure::Repairable(self.message)), ..Report::default() }
    }

    fn for_programs(&self) -> String {
        let number = |number: Option<usize>| number.map_or("null".to_string(), |number| number.to_string());
        let [sender, receiver] = self.transfer.map(number);
        let object = json::object([
            ("may_run", false.to_string()),
            ("line", number(self.line)),
            ("from", sender),
            ("to", receiver),
            ("rule", json::string(self.rule)),
            ("message", json::string(&self.message)),
        ]);
        object + "\n"
    }
}
