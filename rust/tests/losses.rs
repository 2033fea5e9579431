//! The laws of document 02 §6, layers for a whole list of losses, a test for each. What the library chooses is held to
//! what its own repairs accept.

mod naive;

use hmsr::{plan_text, FirstStep, Refusal, Repair, Shape};
use naive::random::Random;

/// The most layers that an archive has.
const MOST_LAYERS: usize = 15;

/// Every n and k up to so many nodes.
fn nodes_and_data(most_nodes: usize) -> impl Iterator<Item = (usize, usize)> {
    (3..=most_nodes).flat_map(|nodes| (1..=nodes - 2).map(move |data| (nodes, data)))
}

/// Every set of the losses that n and k allow, rising.
fn loss_sets(nodes: usize, data: usize) -> impl Iterator<Item = Vec<usize>> {
    let most = nodes - data - 1;
    (0..1usize << most).map(move |set| (1..=most).filter(|h| set >> (h - 1) & 1 == 1).collect())
}

/// n, k, and a list of losses that is accepted or refused.
fn random_list(random: &mut Random) -> (usize, usize, Vec<usize>) {
    let (mut shape, mut losses) = random.losses();
    if random.once_in(4) {
        random.spoil_losses(shape, &mut losses);
    }
    if random.once_in(10) {
        random.spoil_shape(&mut shape);
    }
    (shape.n, shape.k, losses)
}

/// "The empty list gives 1."
#[test]
fn the_empty_list_needs_one_layer() {
    for (nodes, data) in nodes_and_data(14) {
        assert_eq!(Shape::for_losses(nodes, data, &[]), Ok(Shape { nodes, data, layers: 1 }));
    }
}

/// "Repeats change nothing", and neither does the order, whether the list is accepted or refused.
#[test]
fn repeats_and_order_change_nothing() {
    let mut tally = [0; 12];
    let mut random = Random::new(1);
    for _ in 0..4000 {
        let (nodes, data, losses) = random_list(&mut random);
        let chosen = Shape::for_losses(nodes, data, &losses);
        let mut sorted = losses.clone();
        sorted.sort_unstable();
        let mut once = sorted.clone();
        once.dedup();
        let mut shuffled = losses.clone();
        random.shuffle(&mut shuffled);
        let doubled = [&losses[..], &losses].concat();
        let mirrored = shuffled.iter().chain(losses.iter().rev()).copied().collect();
        let repeated = losses.iter().flat_map(|&loss| vec![loss; random.between(1, 3)]).collect();
        for other in [sorted, once, shuffled, doubled, mirrored, repeated] {
            assert_eq!(Shape::for_losses(nodes, data, &other), chosen, "{nodes} {data} {losses:?}, then {other:?}");
        }
        tally[chosen.err().map_or(0, Refusal::number)] += 1;
    }
    println!("numbers 0 to 11 came up {tally:?}");
    assert!([0, 1, 2, 11].iter().all(|&number: &usize| tally[number] > 40));
}

/// A list of millions, of the losses that fifteen layers serve; then with one in its midst, or as its first or last, that
/// no layers serve beside the others, or that is out of range.
#[test]
fn a_list_may_have_millions_of_losses() {
    let mut losses: Vec<usize> = [1, 2, 3, 4, 5, 7, 9, 11].into_iter().cycle().take(4_000_000).collect();
    Random::new(1).shuffle(&mut losses);
    assert_eq!(Shape::for_losses(14, 1, &losses), Shape::new(14, 1, 15));
    for (at, loss, refusal) in [
        (3_999_999, 12, Refusal::NoLayers),
        (3_999_999, 13, Refusal::BadNodes),
        (0, 6, Refusal::NoLayers),
        (2_000_000, 0, Refusal::BadNodes),
    ] {
        let kept = std::mem::replace(&mut losses[at], loss);
        assert_eq!(Shape::for_losses(14, 1, &losses), Err(refusal), "{loss} at {at}");
        losses[at] = kept;
    }
    assert_eq!(Shape::for_losses(14, 1, &vec![10; 4_000_000]), Shape::new(14, 1, 11));
}

/// Whether by the sizes of messages, N/(h+1) symbols, these layers serve the loss.
fn serves(nodes: usize, data: usize, layers: usize, loss: usize) -> bool {
    match (Shape { nodes, data, layers }).message_symbols(loss) {
        Ok(symbols) => symbols * (loss + 1) == layers << nodes,
        Err(refusal) => {
            assert_eq!(refusal, Refusal::PartBatch);
            false
        }
    }
}

/// "The smallest L from 1 to 15 that serves each value in the list", for every set of losses: by the sizes of messages, that
/// L serves each, and no smaller one does; and where there is none, no L up to 15 does.
#[test]
fn the_layers_serve_every_loss_and_no_fewer_do() {
    let mut tally = [0; MOST_LAYERS + 1];
    for (nodes, data) in nodes_and_data(14) {
        for losses in loss_sets(nodes, data) {
            let serve_all = |layers: usize| losses.iter().all(|&loss| serves(nodes, data, layers, loss));
            let smaller = match Shape::for_losses(nodes, data, &losses) {
                Ok(shape) => {
                    assert_eq!((shape.nodes, shape.data), (nodes, data));
                    assert!((1..=MOST_LAYERS).contains(&shape.layers) && serve_all(shape.layers), "{losses:?}");
                    tally[shape.layers] += 1;
                    shape.layers
                }
                Err(refusal) => {
                    assert_eq!(refusal, Refusal::NoLayers, "{losses:?}");
                    tally[0] += 1;
                    MOST_LAYERS + 1
                }
            };
            assert!(!(1..smaller).any(serve_all), "{nodes} {data} {losses:?}");
        }
    }
    println!("no layers, and 1 to 15 layers, came up {tally:?}");
    // The odd parts of h + 1, and 15 for those of 3 and 5 together.
    for (layers, &times) in tally.iter().enumerate() {
        assert_eq!([0, 1, 3, 5, 7, 9, 11, 13, 15].contains(&layers), times > 0, "{layers} layers");
    }
}

/// Whether repair accepts these layers for a loss of the first h nodes, which the k + 1 behind them are to repair; the calls
/// of single nodes and the plan say the same. All judge the layers before the lengths of buffers: here these are empty.
fn accepts_layers(nodes: usize, data: usize, layers: usize, loss: usize) -> bool {
    let (dead, helpers): (Vec<usize>, Vec<usize>) = ((0..loss).collect(), (loss..loss + data + 1).collect());
    let repair = Repair { shape: Shape { nodes, data, layers }, dead: &dead, helpers: &helpers };
    let answers = [
        repair.repair(&mut [], &mut []),
        repair.helper_message(loss, 0, &[], &mut []),
        repair.first_step(0, &[], &mut [], &mut []),
        repair.second_step(0, &[], &[], &mut []),
    ];
    let refused = answers[0] == Err(Refusal::PartBatch);
    let expected = if refused { Refusal::PartBatch } else { Refusal::WrongLength };
    assert_eq!(answers, [Err(expected); 4]);
    assert_eq!(plan_text(&repair.plan_input()) == b"3\n", refused);
    !refused
}

/// "An archive written with that L shall be accepted for layers by repair for each value", and each smaller L is refused
/// with 3 for some value; where the library says that no L serves them all, each is.
#[test]
fn repairs_accept_the_layers_and_no_fewer() {
    let mut tally = [0; 2];
    for (nodes, data) in nodes_and_data(14) {
        // accepted[L][h]
        let accepted: Vec<Vec<bool>> = (0..=MOST_LAYERS)
            .map(|layers| (0..nodes - data).map(|h| h * layers > 0 && accepts_layers(nodes, data, layers, h)).collect())
            .collect();
        for losses in loss_sets(nodes, data) {
            let accept_all = |layers: &usize| losses.iter().all(|&loss| accepted[*layers][loss]);
            let chosen = Shape::for_losses(nodes, data, &losses);
            let least = (1..=MOST_LAYERS).find(accept_all).ok_or(Refusal::NoLayers);
            assert_eq!(chosen.map(|shape| shape.layers), least, "{nodes} {data} {losses:?}");
            tally[usize::from(chosen.is_err())] += 1;
        }
    }
    println!("{tally:?} lists with layers and without");
    assert!(tally.iter().all(|&lists| lists > 1000));
}

/// Loses so many random nodes of the archive: the whole repair and the calls of single helpers and new nodes make them
/// again, and the plan is one, no refusal.
fn assert_repaired(random: &mut Random, shape: Shape, nodes: &[u16], loss: usize) {
    let plain = naive::Shape { n: shape.nodes, k: shape.data, layers: shape.layers };
    let (dead, helpers) = random.sets(plain, loss);
    let repair = Repair { shape, dead: &dead, helpers: &helpers };
    let size = shape.node_symbols().unwrap();
    let mut damaged = nodes.to_vec();
    dead.iter().for_each(|&node| damaged[node * size..(node + 1) * size].fill(65535));
    repair.repair_nodes(&mut damaged).unwrap();
    assert!(damaged == nodes, "{shape:?}, {dead:?} dead, {helpers:?} help");
    assert_repaired_by_steps(&repair, nodes);
    let plan = String::from_utf8(plan_text(&repair.plan_input())).unwrap();
    let heading = format!("{} {} {} {loss}", shape.nodes, shape.data, shape.layers);
    assert_eq!(plan.lines().next(), Some(heading.as_str()));
}

/// The helpers' messages, the first steps and the second steps, each by its own call.
fn assert_repaired_by_steps(repair: &Repair, nodes: &[u16]) {
    let Repair { shape, dead, helpers } = *repair;
    let (size, message) = (shape.node_symbols().unwrap(), shape.message_symbols(dead.len()).unwrap());
    let node = |node: usize| &nodes[node * size..(node + 1) * size];
    let first_step = |&new: &usize| {
        let told = helpers.iter().map(|&helper| repair.helper_message_to_vec(helper, new, node(helper)).unwrap());
        repair.first_step_to_vec(new, &told.collect::<Vec<_>>().concat()).unwrap()
    };
    let steps: Vec<FirstStep> = dead.iter().map(first_step).collect();
    for (rank, &new) in dead.iter().enumerate() {
        // Of each other new node's sums, the piece for this one.
        let piece = |sender: usize| (rank - usize::from(sender < rank)) * message;
        let senders = (0..dead.len()).filter(|&sender| sender != rank);
        let received: Vec<u16> =
            senders.flat_map(|sender| steps[sender].sums[piece(sender)..][..message].to_vec()).collect();
        assert!(repair.second_step_to_vec(new, &steps[rank].pairs, &received).unwrap() == node(new), "{repair:?}");
    }
}

/// Writes a random transcript into an archive for the losses, and repairs each of them. Gives the number of repairs, or
/// None where there are no layers for the losses.
fn try_losses(random: &mut Random, nodes: usize, data: usize, losses: &[usize]) -> Option<usize> {
    let chosen = Shape::for_losses(nodes, data, losses);
    assert!(chosen.is_ok() || chosen == Err(Refusal::NoLayers), "{losses:?}");
    let shape = chosen.ok()?;
    let transcript = random.bytes(shape.capacity().unwrap());
    let written = shape.write_to_nodes(&transcript).unwrap();
    losses.iter().for_each(|&loss| assert_repaired(random, shape, &written, loss));
    Some(losses.len())
}

/// For every set of losses to eight nodes, and random lists to fourteen.
#[test]
fn archives_with_the_layers_are_repaired_of_each_loss() {
    let mut random = Random::new(1);
    let mut repairs = Vec::new();
    for (nodes, data) in nodes_and_data(8) {
        for losses in loss_sets(nodes, data) {
            repairs.extend(try_losses(&mut random, nodes, data, &losses));
        }
    }
    for _ in 0..60 {
        let (naive::Shape { n, k, .. }, mut losses) = random.losses();
        losses.truncate(5);
        repairs.extend(try_losses(&mut random, n, k, &losses));
    }
    println!("{} archives, {} repairs", repairs.len(), repairs.iter().sum::<usize>());
    assert!(repairs.len() > 200 && repairs.iter().sum::<usize>() > 400);
}
