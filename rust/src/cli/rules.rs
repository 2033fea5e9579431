//! The first transfer of a list that breaks a rule of the order, and which rule.
use hmsr::Repair;

/// A sender and a receiver.
pub type Transfer = [usize; 2];

/// What is wrong with a list that may not run.
#[derive(Debug, PartialEq)]
pub enum Broken {
    /// The transfer at this place, from 0, is the first that breaks a rule.
    At(usize, Rule),
    /// Every transfer keeps the rules, but the list ends without these of the plan.
    Missing(Vec<Transfer>),
}

/// Why a transfer may not stand behind those before it.
#[derive(Debug, PartialEq)]
pub enum Rule {
    NotInPlan,
    /// It stands at this earlier place.
    Twice(usize),
    /// These helpers have not sent to its sender yet.
    Waits(Vec<usize>),
}

/// The first break of a rule in a list to which the library said no. `plan` is the repair's transfers in the plan's
/// order.
pub fn first_broken(repair: Repair, plan: &[Transfer], list: &[Transfer]) -> Broken {
    let breaks = |&place: &usize| !may_go_on(repair, plan, &list[..=place]);
    match (0..list.len()).find(breaks) {
        Some(place) => Broken::At(place, rule(repair, plan, list, place)),
        None => Broken::Missing(rest(plan, list).collect()),
    }
}

/// Whether some list that starts with these transfers may run. The library judges one: behind them the rest of the plan
/// in the plan's order, in which all helpers' messages come before all exchanges, so that none comes too early.
fn may_go_on(repair: Repair, plan: &[Transfer], front: &[Transfer]) -> bool {
    let numbers: Vec<usize> = front.iter().copied().chain(rest(plan, front)).flatten().collect();
    repair.may_run(&numbers).is_ok()
}

/// The transfers of the plan that are not in a list.
fn rest<'a>(plan: &'a [Transfer], list: &'a [Transfer]) -> impl Iterator<Item = Transfer> + 'a {
    plan.iter().copied().filter(|transfer| !list.contains(transfer))
}

/// The rule that the transfer at a place breaks, where those before it break none.
fn rule(repair: Repair, plan: &[Transfer], list: &[Transfer], place: usize) -> Rule {
    let (transfer, before) = (list[place], &list[..place]);
    if !plan.contains(&transfer) {
        return Rule::NotInPlan;
    }
    match before.iter().position(|earlier| *earlier == transfer) {
        Some(earlier) => Rule::Twice(earlier),
        None => {
            let [sender, _] = transfer;
            Rule::Waits(repair.helpers.iter().copied().filter(|&helper| !before.contains(&[helper, sender])).collect())
        }
    }
}
