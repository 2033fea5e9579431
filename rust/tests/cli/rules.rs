//! The first rule that a list of transfers breaks, beside a walk over the list: every order of a small plan, and random
//! lists for plans of every size.
use std::collections::BTreeMap;
use std::fs;

use hmsr::{Repair, Shape};

use crate::json::Json;
use crate::naive::judge::batch_layers;
use crate::naive::random::Random;
use crate::naive::{self, Lists};
use crate::place::{Place, REPAIRABLE};
use program::rules::{first_broken, Broken, Rule, Transfer};

/// The program's own module of the rules.
#[path = "../../src/cli"]
mod program {
    pub mod rules;
}

/// A repair, and a list for it.
struct Case {
    lists: Lists,
    list: Vec<Transfer>,
}

/// The naive archive's transfers as the program has them.
fn pairs(transfers: &[(usize, usize)]) -> Vec<Transfer> {
    transfers.iter().map(|&(sender, receiver)| [sender, receiver]).collect()
}

/// What breaks a rule first, by a walk that keeps the transfers it has met, with their places.
fn walked(case: &Case) -> Option<Broken> {
    let Lists { dead, helpers, .. } = &case.lists;
    let mut met = BTreeMap::new();
    for (place, &[sender, receiver]) in case.list.iter().enumerate() {
        let sends = helpers.contains(&sender) || dead.contains(&sender);
        if !sends || !dead.contains(&receiver) || sender == receiver {
            return Some(Broken::At(place, Rule::NotInPlan));
        }
        if let Some(&earlier) = met.get(&[sender, receiver]) {
            return Some(Broken::At(place, Rule::Twice(earlier)));
        }
        let waits_for = |helper: &usize| dead.contains(&sender) && !met.contains_key(&[*helper, sender]);
        let waits_for: Vec<usize> = helpers.iter().copied().filter(waits_for).collect();
        if !waits_for.is_empty() {
            return Some(Broken::At(place, Rule::Waits(waits_for)));
        }
        met.insert([sender, receiver], place);
    }
    let mut missing = pairs(&case.lists.transfers());
    missing.retain(|pair| !met.contains_key(pair));
    (!missing.is_empty()).then_some(Broken::Missing(missing))
}

/// What the program finds.
fn found(case: &Case) -> Option<Broken> {
    let Lists { shape: naive::Shape { n, k, layers }, dead, helpers } = &case.lists;
    let repair = Repair { shape: Shape { nodes: *n, data: *k, layers: *layers }, dead, helpers };
    match repair.may_run(case.list.as_flattened()) {
        Ok(()) => None,
        Err(refusal) => {
            assert_eq!(refusal.number(), 13);
            Some(first_broken(repair, &pairs(&case.lists.transfers()), &case.list))
        }
    }
}

/// The number of a kind of answer, to count them by.
fn kind(broken: &Option<Broken>) -> usize {
    match broken {
        None => 0,
        Some(Broken::At(_, Rule::NotInPlan)) => 1,
        Some(Broken::At(_, Rule::Twice(_))) => 2,
        Some(Broken::At(_, Rule::Waits(_))) => 3,
        Some(Broken::Missing(_)) => 4,
    }
}

/// Every order of some transfers.
fn orders(transfers: &[Transfer]) -> Vec<Vec<Transfer>> {
    if transfers.is_empty() {
        return vec![Vec::new()];
    }
    let with_first = |place: usize| {
        let others = [&transfers[..place], &transfers[place + 1..]].concat();
        orders(&others).into_iter().map(move |order| [vec![transfers[place]], order].concat())
    };
    (0..transfers.len()).flat_map(with_first).collect()
}

/// n = 4, k = 1, h = 2, as document 01's plan has them.
fn every_order() -> Vec<Case> {
    let lists = Lists { shape: naive::Shape { n: 4, k: 1, layers: 3 }, dead: vec![0, 1], helpers: vec![2, 3] };
    let orders = orders(&pairs(&lists.transfers()));
    orders.into_iter().map(|list| Case { lists: lists.clone(), list }).collect()
}

/// Lists for repairs of any size, with none to two damages.
fn damaged(count: usize, seed: u64) -> Vec<Case> {
    let mut random = Random::new(seed);
    let one = |_| {
        let mut lists = random.planned();
        lists.shape.layers = batch_layers(lists.dead.len());
        let mut order = random.order(&lists);
        (0..random.below(3)).for_each(|_| random.spoil_order(lists.shape, &mut order));
        Case { list: pairs(&order), lists }
    };
    (0..count).map(one).collect()
}

#[test]
fn every_order_of_a_small_plan_is_judged_as_a_walk_does() {
    let cases = every_order();
    assert_eq!(cases.len(), 720);
    let mut kinds = [0; 5];
    for case in &cases {
        let broken = found(case);
        assert_eq!(broken, walked(case), "{:?}", case.list);
        kinds[kind(&broken)] += 1;
    }
    // Each of the two exchanges is the last of three transfers in one order of three: both are in 80 of 720.
    assert_eq!(kinds, [80, 0, 0, 640, 0]);
}

#[test]
fn random_lists_are_judged_as_a_walk_does() {
    let mut kinds = [0; 5];
    for case in damaged(5000, 1) {
        let broken = found(&case);
        assert_eq!(broken, walked(&case), "{:?} {:?}", case.lists, case.list);
        kinds[kind(&broken)] += 1;
    }
    assert!(kinds.iter().all(|&count| count > 300), "{kinds:?}");
}

/// The line, the transfer and the rule that `--json` is to name.
fn named(case: &Case, broken: &Broken) -> [Json; 4] {
    let (line, [sender, receiver], rule) = match broken {
        Broken::At(place, Rule::NotInPlan) => (Some(*place), case.list[*place], "not in the plan"),
        Broken::At(place, Rule::Twice(_)) => (Some(*place), case.list[*place], "twice"),
        Broken::At(place, Rule::Waits(_)) => (Some(*place), case.list[*place], "waits"),
        Broken::Missing(missing) => (None, missing[0], "missing"),
    };
    let line = line.map_or(Json::Null, |place| Json::Number(place as u64 + 1));
    let [sender, receiver] = [sender, receiver].map(|node| Json::Number(node as u64));
    [line, sender, receiver, Json::Text(rule.to_string())]
}

#[test]
fn the_command_names_what_a_walk_finds() {
    let place = Place::new("rules_command");
    for case in every_order().into_iter().step_by(5).chain(damaged(300, 2)) {
        let lines: String = case.list.iter().map(|[sender, receiver]| format!("{sender} {receiver}\n")).collect();
        fs::write(place.path("list"), lines).unwrap();
        let [dead, helpers] = [&case.lists.dead, &case.lists.helpers]
            .map(|nodes| nodes.iter().map(usize::to_string).collect::<Vec<_>>().join(","));
        let line = format!("order --nodes {} --dead {dead} --helpers {helpers} list --json", case.lists.shape.n);
        let output = place.run(&line);
        let json = Json::read(&String::from_utf8(output.stdout).unwrap());
        let Some(broken) = walked(&case) else {
            assert_eq!((output.status.code(), json.get("may_run")), (Some(0), &Json::Truth(true)), "{line}");
            assert_eq!(json.get("transfers").number(), case.list.len() as u64, "{line}");
            continue;
        };
        assert_eq!((output.status.code(), json.get("may_run")), (Some(REPAIRABLE), &Json::Truth(false)), "{line}");
        let members = ["line", "from", "to", "rule"].map(|name| json.get(name));
        assert_eq!(members, named(&case, &broken).each_ref(), "{line}");
    }
}
