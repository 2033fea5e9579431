//! Which cards are of one codeword, as far as the code's distance tells.
use super::cards::Cards;
use super::text::nodes_listed;
use super::Failure;

/// The nodes whose cards agree and those whose cards do not, rising.
pub struct Agreement {
    pub right: Vec<usize>,
    pub wrong: Vec<usize>,
}

impl Agreement {
    /// Of m usable cards, k or more. Two codewords differ in n - k + 1 nodes or more, so at most one agrees with all
    /// cards but (m - k) div 2; where none does, it cannot be told which cards are wrong.
    pub fn of(cards: &Cards) -> Result<Agreement, Failure> {
        let present = cards.present();
        let most_wrong = present.len().saturating_sub(cards.shape.data) / 2;
        let mut tried: Vec<Vec<usize>> = Vec::new();
        for wrong_count in 0..=most_wrong {
            for basis in bases(&present, wrong_count, cards.shape.data) {
                if tried.contains(&basis) {
                    continue;
                }
                let right = agreeing(cards, &present, &basis)?;
                if right.len() + most_wrong >= present.len() {
                    let wrong = present.iter().copied().filter(|node| !right.contains(node)).collect();
                    return Ok(Agreement { right, wrong });
                }
                tried.push(basis);
            }
        }
        Err(untold(cards, &present))
    }

    /// The cards that do not agree, in words, where there are some.
    pub fn wrong_described(&self, cards: &Cards) -> Option<String> {
        let files = cards.files_of(&self.wrong);
        match self.wrong_files(cards) {
            0 => None,
            1 => Some(format!("{files} does not agree with the others: it is damaged or of another archive")),
            _ => Some(format!("{files} do not agree with the others: they are damaged or of another archive")),
        }
    }

    /// Refuses where cards do not agree.
    pub fn refuse_wrong(&self, cards: &Cards) -> Result<(), Failure> {
        let them = if self.wrong_files(cards) == 1 { "it" } else { "them" };
        match self.wrong_described(cards) {
            Some(wrong) => Err(Failure::Repairable(format!("{wrong}; move {them} away, then repair"))),
            None => Ok(()),
        }
    }

    /// How many files the wrong cards are; there may be copies.
    fn wrong_files(&self, cards: &Cards) -> usize {
        self.wrong.iter().map(|&node| cards.names_of(node).len()).sum()
    }
}

/// It cannot be told which cards are wrong. A correction is finished where all cards are there.
fn untold(cards: &Cards, present: &[usize]) -> Failure {
    let correction = match present.len() == cards.shape.nodes {
        true => "; if a correction was cut off, the same correction again finishes it",
        false => "",
    };
    Failure::Lost(format!(
        "the cards of {} do not agree, and it cannot be told which are wrong: find more cards of this archive, or \
         other copies of these{correction}",
        nodes_listed(present)
    ))
}

/// For each choice of so many wrong nodes, the first k of the others.
fn bases(present: &[usize], wrong_count: usize, data: usize) -> impl Iterator<Item = Vec<usize>> + '_ {
    let choices = (0..1_u32 << present.len()).filter(move |choice| choice.count_ones() as usize == wrong_count);
    choices.map(move |choice| {
        let others = present.iter().enumerate().filter(|(place, _)| choice >> place & 1 == 0);
        others.map(|(_, &node)| node).take(data).collect()
    })
}

/// The nodes whose cards hold their symbols of the codeword that k nodes give.
fn agreeing(cards: &Cards, present: &[usize], basis: &[usize]) -> Result<Vec<usize>, Failure> {
    let refused = |refusal| {
        Failure::refused(Failure::Lost, "the nodes cannot be restored", refusal, "this is a fault of the program")
    };
    let size = cards.shape.node_symbols().map_err(refused)?;
    let all = cards.shape.restore_nodes(basis, &cards.symbols_of(basis)).map_err(refused)?;
    let agrees = |node: usize| cards.symbols(node) == Some(&all[node * size..][..size]);
    Ok(present.iter().copied().filter(|&node| agrees(node)).collect())
}
