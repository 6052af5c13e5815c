//! The table of a rule with demands gathered inside the walk over states, as they are needed: what document 02's F-3 did
//! away with. The rule is read and judged by the reference.

use gurvazze_reference::channel_file;
use gurvazze_reference::formula::{Node, Rule};
use gurvazze_reference::values::SetUp;
use gurvazze_reference::Refusal;

const STATE_LIMIT: usize = 256;

/// Node numbers, one bit each.
type Set = [u64; 4];

/// The table of a channel file.
pub fn table(text: &[u8], to: &mut [u8]) -> Result<usize, Refusal> {
    let file = channel_file::read(text)?;
    let walk = Walk::new(&file.rule);
    let (count, bytes) = walk.table(&file.set_up)?;
    let Some(to) = to.get_mut(..bytes.len()) else {
        return Err(Refusal::new(13));
    };
    to.copy_from_slice(&bytes);
    Ok(count)
}

struct Walk<'a> {
    nodes: &'a [Node],
    /// The node behind the formula at each node, and the binder of each variable.
    ends: Vec<usize>,
    binders: Vec<usize>,
}

impl<'a> Walk<'a> {
    fn new(rule: &'a Rule) -> Walk<'a> {
        let nodes = rule.nodes();
        let mut ends = vec![0; nodes.len() + 1];
        for (at, node) in nodes.iter().enumerate().rev() {
            ends[at] = match node.parts() {
                0 => at + 1,
                1 => ends[at + 1],
                _ => ends[ends[at + 1]],
            };
        }
        let mut walk = Walk { nodes, ends, binders: vec![0; nodes.len()] };
        walk.bind(0, &mut Vec::new());
        walk
    }

    fn bind(&mut self, at: usize, around: &mut Vec<usize>) {
        match self.nodes[at] {
            Node::Variable(index) => self.binders[at] = around[around.len() - 1 - usize::from(index)],
            Node::After(_) => self.bind(at + 1, around),
            Node::Both => {
                self.bind(at + 1, around);
                self.bind(self.ends[at + 1], around);
            }
            Node::Greatest => {
                around.push(at);
                self.bind(at + 1, around);
                around.pop();
            }
            Node::True | Node::Output(..) => {}
        }
    }

    /// The demands of the node at a place come into a set.
    fn gather(&self, at: usize, set: &mut Set) {
        match self.nodes[at] {
            Node::True => {}
            Node::After(_) | Node::Output(..) => set[at / 64] |= 1 << (at % 64),
            Node::Both => {
                self.gather(at + 1, set);
                self.gather(self.ends[at + 1], set);
            }
            Node::Greatest => self.gather(at + 1, set),
            Node::Variable(_) => self.gather(self.binders[at], set),
        }
    }

    fn table(&self, set_up: &SetUp) -> Result<(usize, Vec<u8>), Refusal> {
        let mut first = [0; 4];
        self.gather(0, &mut first);
        let mut states = vec![first];
        let mut bytes = Vec::new();
        let mut done = 0;
        while done < states.len() {
            let mut values = vec![set_up.top(); set_up.events()];
            let mut nexts = vec![[0; 4]; set_up.events()];
            for at in (0..self.nodes.len()).filter(|at| states[done][at / 64] >> (at % 64) & 1 == 1) {
                match self.nodes[at] {
                    Node::Output(event, value) => {
                        let meet = &mut values[usize::from(event)];
                        *meet = set_up.meet(*meet, value);
                    }
                    Node::After(event) => self.gather(at + 1, &mut nexts[usize::from(event)]),
                    _ => unreachable!("a state is a set of G and O node numbers"),
                }
            }
            for (value, next) in values.into_iter().zip(nexts) {
                let number = states.iter().position(|state| *state == next).unwrap_or(states.len());
                if number == STATE_LIMIT {
                    return Err(Refusal::new(10));
                }
                if number == states.len() {
                    states.push(next);
                }
                bytes.extend([value as u8, number as u8]);
            }
            done += 1;
        }
        Ok((states.len(), bytes))
    }
}
