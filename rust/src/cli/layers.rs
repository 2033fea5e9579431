//! `hmsr layers`: the fewest layers that serve a list of losses.
use hmsr::{Refusal, Shape};

use super::args::Args;
use super::text::{counted, losses_listed};
use super::{choice, json, Failure, Report};

pub fn run(args: &Args) -> Result<Report, Failure> {
    let (nodes, data) = (args.required_number("--nodes")?, args.required_number("--data")?);
    let losses = args.required_losses()?;
    let shape = for_losses(nodes, data, &losses)?;
    Ok(match args.has("--json") {
        true => for_programs(shape, &losses),
        false => in_words(shape, &losses),
    }
    .into())
}

/// The shape with the fewest layers that serve each of these losses. The library judges them; what it refuses is put
/// into words here.
pub fn for_losses(nodes: usize, data: usize, losses: &[usize]) -> Result<Shape, Failure> {
    Shape::for_losses(nodes, data, losses).map_err(|refusal| match refusal {
        Refusal::BadNodes => not_repairable(nodes, data, losses),
        Refusal::NoLayers => not_served(nodes, data, losses),
        _ => choice::no_shape(refusal, "choose --nodes and --data within these ranges"),
    })
}

fn in_words(shape: Shape, losses: &[usize]) -> String {
    let served = match (losses, shape.layers) {
        ([], _) => "is enough, as no losses are named".to_string(),
        (_, 1) => format!("serves {}", losses_listed(losses)),
        _ => format!("serve {}", losses_listed(losses)),
    };
    format!("{} {served}\n{}\n", counted(shape.layers, "layer"), choice::described(shape))
}

/// The same for programs: `bytes` are the most that fit, `in_one_go` all sizes of loss that one go repairs.
fn for_programs(shape: Shape, losses: &[usize]) -> String {
    let object = json::object([
        ("nodes", shape.nodes.to_string()),
        ("data", shape.data.to_string()),
        ("layers", shape.layers.to_string()),
        ("bytes", choice::capacity(shape).to_string()),
        ("losses", json::numbers(losses)),
        ("in_one_go", json::numbers(&choice::repairable(shape))),
    ]);
    object + "\n"
}

/// Some of the losses are of no repair: which, the library says of each alone.
fn not_repairable(nodes: usize, data: usize, losses: &[usize]) -> Failure {
    let refused = |loss: &usize| Shape::for_losses(nodes, data, &[*loss]).is_err();
    let refused: Vec<usize> = losses.iter().copied().filter(refused).collect();
    let range = match nodes - data - 1 {
        1 => "a loss of 1 node".to_string(),
        most => format!("losses of 1 to {most} nodes"),
    };
    let what = format!("{} cannot be repaired", losses_listed(&refused));
    let advice = format!("with --nodes {nodes} --data {data} name {range}");
    Failure::refused(Failure::Usage, &what, Refusal::BadNodes, &advice)
}

/// The losses need more layers together than there are.
fn not_served(nodes: usize, data: usize, losses: &[usize]) -> Failure {
    let what = format!("{} cannot each be repaired in one go", losses_listed(losses));
    let advice = format!(
        "they need {} layers together: name fewer sizes, a loss of a size that is left out is still repaired, if need \
         be in several goes",
        needed(nodes, data, losses)
    );
    Failure::refused(Failure::Usage, &what, Refusal::NoLayers, &advice)
}

/// The least common multiple of the layers that each loss needs alone.
fn needed(nodes: usize, data: usize, losses: &[usize]) -> usize {
    let alone = losses.iter().filter_map(|&loss| Shape::for_losses(nodes, data, &[loss]).ok());
    let alone: Vec<usize> = alone.map(|shape| shape.layers).collect();
    let mut layers: usize = 1;
    while !alone.iter().all(|&alone| layers.is_multiple_of(alone)) {
        layers += 1;
    }
    layers
}
