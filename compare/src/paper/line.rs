//! The written line, and its direct reading.

use super::bytes::number;
use super::description::{Concept, Description};
use super::evidence::Node;
use super::label::{Literal, Width};
use super::Refusal;

pub const MOST_ELEMENTS: usize = 64;

/// An interpretation of d elements.
#[derive(Clone, PartialEq, Eq, Debug)]
pub struct Line {
    /// For each element the mask of its name entries.
    pub names: Vec<u64>,
    /// `pairs[x][y]`: the mask of the roles from x to y.
    pub pairs: Vec<Vec<u16>>,
}

/// The length of a line of d elements.
pub fn length(width: Width, d: usize) -> usize {
    1 + width.names() * d + 2 * d * d
}

/// K: the greatest total of counts from one node to one node, at least 1.
pub fn copies(nodes: &[Node]) -> usize {
    let total = |x: &Node, y: usize| -> usize {
        let edges = x.edges.iter().filter(|edge| edge.target == y);
        edges.map(|edge| edge.count as usize).sum()
    };
    let totals = nodes
        .iter()
        .flat_map(|x| (0..nodes.len()).map(move |y| total(x, y)));
    totals.max().unwrap_or(1).max(1)
}

/// The bytes of a graph's line, unless it is too big (21) or has no room (22).
pub fn write(description: &Description, nodes: &[Node], room: usize) -> Result<Vec<u8>, Refusal> {
    let d = nodes.len() * copies(nodes);
    if d > MOST_ELEMENTS {
        return Err(Refusal::whole(21));
    }
    if room < length(description.width(), d) {
        return Err(Refusal::whole(22));
    }
    let mut line = Line::unfold(description, nodes);
    line.close(description);
    Ok(line.bytes(description.width()))
}

impl Line {
    /// Element x·K+i is copy i of node x. An edge to y takes the next `count` copies of y
    /// after earlier edges from x to y, from every copy of x.
    pub fn unfold(description: &Description, nodes: &[Node]) -> Line {
        let k = copies(nodes);
        let d = nodes.len() * k;
        let mut line = Line {
            names: vec![0; d],
            pairs: vec![vec![0; d]; d],
        };
        for (x, node) in nodes.iter().enumerate() {
            let mut taken = vec![0; nodes.len()];
            for i in 0..k {
                line.names[x * k + i] = names(description, node);
            }
            for edge in &node.edges {
                for _ in 0..edge.count {
                    let to = edge.target * k + taken[edge.target];
                    for i in 0..k {
                        line.pairs[x * k + i][to] |= edge.mask;
                    }
                    taken[edge.target] += 1;
                }
            }
        }
        line
    }

    /// Each transitive role is closed, and its pairs go to its ancestors.
    pub fn close(&mut self, description: &Description) {
        let d = self.names.len();
        for (t, role) in description.roles.iter().enumerate() {
            if !role.transitive {
                continue;
            }
            for middle in 0..d {
                for x in 0..d {
                    if !self.has(t, x, middle) {
                        continue;
                    }
                    for y in 0..d {
                        if self.has(t, middle, y) {
                            self.pairs[x][y] |= description.ancestors[t];
                        }
                    }
                }
            }
        }
    }

    /// Is (x, y) a pair of the role?
    pub fn has(&self, role: usize, x: usize, y: usize) -> bool {
        self.pairs[x][y] >> role & 1 == 1
    }

    /// d, the name masks, then the rows of role masks; high bytes first.
    pub fn bytes(&self, width: Width) -> Vec<u8> {
        let mut bytes = vec![self.names.len() as u8];
        for mask in &self.names {
            bytes.extend(&mask.to_be_bytes()[8 - width.names()..]);
        }
        for mask in self.pairs.iter().flatten() {
            bytes.extend(mask.to_be_bytes());
        }
        bytes
    }

    /// 23: length, d outside 1 to 64, or a bit for no name or role.
    pub fn read(description: &Description, bytes: &[u8]) -> Result<Line, Refusal> {
        Line::of_bytes(description, bytes).ok_or(Refusal::whole(23))
    }

    fn of_bytes(description: &Description, bytes: &[u8]) -> Option<Line> {
        let width = description.width();
        let d = *bytes.first()? as usize;
        if !(1..=MOST_ELEMENTS).contains(&d) || bytes.len() != length(width, d) {
            return None;
        }
        let (names, pairs) = bytes[1..].split_at(width.names() * d);
        let name = |b: &[u8]| b.iter().fold(0, |mask, &byte| mask << 8 | byte as u64);
        let row = |b: &[u8]| b.chunks(2).map(|mask| number(mask, 0)).collect();
        let line = Line {
            names: names.chunks(width.names()).map(name).collect(),
            pairs: pairs.chunks(2 * d).map(row).collect(),
        };
        line.bits_ok(description).then_some(line)
    }

    /// Name bits are for name entries, role bits for roles of the table.
    fn bits_ok(&self, description: &Description) -> bool {
        let is_name = |e: usize| description.concepts.get(e) == Some(&Concept::Name);
        let is_role = |r: usize| r < description.roles.len();
        let bits_name = |mask: u64| (0..64).all(|e| mask >> e & 1 == 0 || is_name(e));
        let bits_role = |mask: u16| (0..16).all(|r| mask >> r & 1 == 0 || is_role(r));
        self.names.iter().all(|&mask| bits_name(mask))
            && self.pairs.iter().flatten().all(|&mask| bits_role(mask))
    }

    /// Inclusions, transitivity, roles that never share a filler, all rules everywhere, the root
    /// somewhere.
    pub fn holds(&self, description: &Description) -> bool {
        let truth = self.truth(description);
        let d = self.names.len();
        let has = |x: usize, l: Literal| truth[l as usize / 2][x] == (l % 2 == 0);
        self.keeps_inclusions(description)
            && self.keeps_transitivity(description)
            && self.keeps_apart(description)
            && (0..d).all(|x| description.rules.iter().all(|&l| has(x, l)))
            && (0..d).any(|x| has(x, description.root))
    }

    fn keeps_inclusions(&self, description: &Description) -> bool {
        self.pairs.iter().flatten().all(|&mask| {
            let roles = description.roles.iter().enumerate();
            let mut held = roles.filter(|(r, _)| mask >> r & 1 == 1);
            held.all(|(_, role)| role.parents & !mask == 0)
        })
    }

    fn keeps_transitivity(&self, description: &Description) -> bool {
        let d = self.names.len();
        let transitive = |t: usize| {
            (0..d).all(|x| {
                let next = (0..d).filter(|&y| self.has(t, x, y));
                next.into_iter()
                    .all(|y| (0..d).all(|z| !self.has(t, y, z) || self.has(t, x, z)))
            })
        };
        (0..description.roles.len()).all(|t| !description.roles[t].transitive || transitive(t))
    }

    /// No pair of elements is one of both roles of a record.
    fn keeps_apart(&self, description: &Description) -> bool {
        let mut masks = self.pairs.iter().flatten();
        masks.all(|&mask| !description.barred(mask))
    }

    /// For each entry, the elements that have it; an entry uses only earlier ones.
    pub fn truth(&self, description: &Description) -> Vec<Vec<bool>> {
        let d = self.names.len();
        let mut truth: Vec<Vec<bool>> = Vec::new();
        for (e, concept) in description.concepts.iter().enumerate() {
            let has = |x: usize, l: Literal| truth[l as usize / 2][x] == (l % 2 == 0);
            let fillers = |role: usize, x: usize| (0..d).filter(move |&y| self.has(role, x, y));
            let holds = |x: usize| match *concept {
                Concept::Top => true,
                Concept::Name => self.names[x] >> e & 1 == 1,
                Concept::Both(a, b) => has(x, a) && has(x, b),
                Concept::Every { role, literal } => fillers(role, x).all(|y| has(y, literal)),
                Concept::AtLeast {
                    number,
                    role,
                    literal,
                } => fillers(role, x).filter(|&y| has(y, literal)).count() >= number as usize,
            };
            let held = (0..d).map(holds).collect();
            truth.push(held);
        }
        truth
    }
}

/// Bit e: name entry e is in the node's label.
fn names(description: &Description, node: &Node) -> u64 {
    let entries = description.concepts.iter().enumerate();
    let held = entries.filter(|(e, c)| **c == Concept::Name && node.label.has(2 * *e as Literal));
    held.fold(0, |mask, (e, _)| mask | 1 << e)
}
