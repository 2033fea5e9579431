//! What the tests of repairs share: random archives, codewords or not, and the roles of their nodes.

use super::digest::{number, numbers, random_symbols};
use hmsr::Shape;

/// A shape, how many nodes are dead, and whether the archive is a codeword or any symbols.
#[derive(Clone, Copy)]
pub struct Trial {
    pub shape: Shape,
    pub dead: usize,
    pub sound: bool,
}

#[derive(Clone, Copy, PartialEq)]
pub enum Role {
    Unlisted,
    Dead,
    Helping,
}

impl Trial {
    pub fn new(nodes: usize, data: usize, dead: usize, layers: usize, sound: bool) -> Self {
        Trial { shape: Shape { nodes, data, layers }, dead, sound }
    }

    /// n, k, h and L.
    pub fn heading(&self) -> [u64; 4] {
        [self.shape.nodes, self.shape.data, self.dead, self.shape.layers].map(|number| number as u64)
    }

    /// Helpers are k + 1.
    pub fn helpers(&self) -> usize {
        self.shape.data + 1
    }

    /// N, the symbols of a node.
    pub fn node_symbols(&self) -> usize {
        self.shape.node_symbols().unwrap()
    }

    /// The symbols of all nodes.
    pub fn archive_symbols(&self) -> usize {
        self.shape.archive_symbols().unwrap()
    }

    /// The symbols of a message, N/(h+1).
    pub fn message_symbols(&self) -> usize {
        self.shape.message_symbols(self.dead).unwrap()
    }

    /// The symbols of all messages.
    pub fn wire_symbols(&self) -> usize {
        self.shape.wire_symbols(self.dead).unwrap()
    }

    /// Fills an archive, with a codeword that has any symbols on nodes 0 to k - 1 or with any symbols at all; gives the
    /// number that restoring the codeword answers, or 0.
    pub fn fill(&self, seed: u64, nodes: &mut [u16]) -> u64 {
        if !self.sound {
            nodes.copy_from_slice(&random_symbols(1, seed, nodes.len()));
            return 0;
        }
        let list: Vec<usize> = (0..self.shape.data).collect();
        let symbols = random_symbols(1, seed, self.shape.capacity().unwrap());
        number(self.shape.restore(&list, &symbols, nodes)) as u64
    }

    /// Random roles: each node dies or helps with the chance that is left.
    pub fn random_roles(&self, seed: u64) -> Vec<Role> {
        let (mut dying, mut helping) = (self.dead, self.helpers());
        let mut roles = Vec::new();
        for (node, number) in (0..self.shape.nodes).zip(numbers(seed)) {
            let chance = number as usize % (self.shape.nodes - node);
            if chance < dying {
                dying -= 1;
                roles.push(Role::Dead);
            } else if chance < dying + helping {
                helping -= 1;
                roles.push(Role::Helping);
            } else {
                roles.push(Role::Unlisted);
            }
        }
        roles
    }
}

/// The nodes of a role, rising.
pub fn nodes_of(roles: &[Role], role: Role) -> Vec<usize> {
    (0..roles.len()).filter(|&node| roles[node] == role).collect()
}
