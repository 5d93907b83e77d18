//! A prefix tree of addresses: for each prefix that some address has, how many have it.

/// Two children, by the next bit, and how many addresses begin so. The root stands first, so that 0 is no child.
#[derive(Clone, Copy, Default)]
struct Node {
    children: [u32; 2],
    count: u32,
}

pub struct Tree {
    nodes: Vec<Node>,
    /// The places of nodes that are no more.
    free: Vec<u32>,
}

fn bits(address: &[u8]) -> impl Iterator<Item = usize> + use<'_> {
    let of = |byte: &u8| {
        let byte = *byte;
        (0..8).rev().map(move |bit| usize::from(byte >> bit & 1))
    };
    address.iter().flat_map(of)
}

impl Tree {
    pub fn new() -> Tree {
        Tree {
            nodes: vec![Node::default()],
            free: Vec::new(),
        }
    }

    pub fn add(&mut self, address: &[u8]) {
        let mut at = 0;
        for bit in bits(address) {
            let child = self.nodes[at].children[bit];
            let next = if child == 0 { self.fresh() } else { child };
            self.nodes[at].children[bit] = next;
            at = next as usize;
            self.nodes[at].count += 1;
        }
    }

    fn fresh(&mut self) -> u32 {
        if let Some(place) = self.free.pop() {
            self.nodes[place as usize] = Node::default();
            return place;
        }
        self.nodes.push(Node::default());
        (self.nodes.len() - 1) as u32
    }

    /// An address that was added.
    pub fn remove(&mut self, address: &[u8]) {
        let mut at = 0;
        for bit in bits(address) {
            let child = self.nodes[at].children[bit];
            let node = &mut self.nodes[child as usize];
            node.count -= 1;
            if node.count == 0 {
                self.nodes[at].children[bit] = 0;
                self.free.push(child);
            }
            at = child as usize;
        }
    }

    /// At how many levels too many of `count` addresses share the newcomer's leading bits, document 01's points.
    pub fn points(&self, newcomer: &[u8], count: u64) -> u64 {
        let (mut at, mut points) = (0, 0);
        for (bit, level) in bits(newcomer).zip(1u32..) {
            at = self.nodes[at].children[bit] as usize;
            if at == 0 {
                break;
            }
            // Of at most 1,000, one that shares is too many from level 10 on.
            points += u64::from(u64::from(self.nodes[at].count) << level.min(10) > count);
        }
        points
    }
}
