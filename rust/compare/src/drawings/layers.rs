//! Where the nodes of a graph without cycles stand in a drawing: each in a level above
//! all that it rests on, the lines between levels short and with few crossings.

use crate::random::Random;

mod places;

/// What stands at a spot of a level: a node, or a bend where the line to a node that is
/// more than one level below passes. All lines to one node share a bend.
#[derive(Clone, Copy, Debug, PartialEq, Eq)]
pub enum What {
    Node(usize),
    Bend(usize),
}

#[derive(Clone, Copy, Debug)]
pub struct Spot {
    pub what: What,
    pub level: usize,
    /// How far its middle is from the left.
    pub x: f64,
    width: f64,
}

/// A piece of a line, between spots of two levels that follow one another.
#[derive(Clone, Copy, Debug)]
pub struct Piece {
    pub below: usize,
    pub above: usize,
}

pub struct Layers {
    pub spots: Vec<Spot>,
    pub pieces: Vec<Piece>,
    /// The spots of each level, from the left.
    levels: Vec<Vec<usize>>,
}

/// How wide a bend is.
const BEND: f64 = 10.0;

/// How many orders to begin with are tried, and how often the levels are passed through
/// from each.
const STARTS: usize = 40;
const PASSES: usize = 8;

/// Lays out nodes of these widths between the left and the right; `rests_on` has, for
/// each node, those that it rests on. Lines are only drawn to those that it does not rest
/// on by another one, too.
pub fn lay(widths: &[f64], rests_on: &[Vec<usize>], left: f64, right: f64) -> Layers {
    let lines = direct(rests_on);
    let mut layers = Layers::of(widths, &lines);
    layers.put_in_order();
    layers.put_in_place(left, right);
    layers.straighten();
    layers.centre(left, right);
    layers
}

/// For each node those that it rests on and that no other of these rests on.
pub fn direct(rests_on: &[Vec<usize>]) -> Vec<Vec<usize>> {
    let mut reached = vec![vec![false; rests_on.len()]; rests_on.len()];
    for _ in rests_on {
        for (node, below) in rests_on.iter().enumerate() {
            for &other in below {
                let by_other = reached[other].clone();
                reached[node][other] = true;
                for (here, there) in reached[node].iter_mut().zip(by_other) {
                    *here |= there;
                }
            }
        }
    }
    let needed = |below: &[usize], node: usize| !below.iter().any(|&other| reached[other][node]);
    let lines = rests_on.iter().map(|below| {
        let direct = below.iter().copied().filter(|&node| needed(below, node));
        direct.collect()
    });
    lines.collect()
}

/// The level of each node: one above the highest that it rests on; but just below the
/// lowest that rests on it, where as many lines become shorter by that as longer, or more.
fn levels(lines: &[Vec<usize>]) -> Vec<usize> {
    let mut levels = vec![0; lines.len()];
    for _ in lines {
        for (node, below) in lines.iter().enumerate() {
            let above_all = below.iter().map(|&other| levels[other] + 1).max();
            levels[node] = above_all.unwrap_or(0);
        }
    }
    let mut from_above: Vec<usize> = (0..lines.len()).collect();
    from_above.sort_by_key(|&node| usize::MAX - levels[node]);
    for node in from_above {
        let users = |user: &usize| lines[*user].contains(&node);
        let users: Vec<usize> = (0..lines.len()).filter(users).collect();
        if let Some(lowest) = users.iter().map(|&user| levels[user]).min() {
            if users.len() >= lines[node].len() {
                levels[node] = lowest - 1;
            }
        }
    }
    levels
}

impl Layers {
    /// The spots and the pieces, in the order of the nodes.
    fn of(widths: &[f64], lines: &[Vec<usize>]) -> Layers {
        let level = levels(lines);
        let spot = |what, level, width| Spot {
            what,
            level,
            x: 0.0,
            width,
        };
        let nodes = widths.iter().enumerate();
        let nodes = nodes.map(|(node, &width)| spot(What::Node(node), level[node], width));
        let mut spots: Vec<Spot> = nodes.collect();
        let mut pieces = Vec::new();
        for node in 0..lines.len() {
            // The spot from which the lines to this node go on up, level by level.
            let mut below = node;
            let users = |user: &usize| lines[*user].contains(&node);
            let users: Vec<usize> = (0..lines.len()).filter(users).collect();
            let Some(highest) = users.iter().map(|&user| level[user]).max() else {
                continue;
            };
            for height in level[node] + 1..=highest {
                let here = users.iter().filter(|&&user| level[user] == height);
                pieces.extend(here.map(|&above| Piece { below, above }));
                if height < highest {
                    spots.push(spot(What::Bend(node), height, BEND));
                    let above = spots.len() - 1;
                    pieces.push(Piece { below, above });
                    below = above;
                }
            }
        }
        let highest = level.iter().max().map_or(0, |highest| highest + 1);
        let in_level = |height: usize| {
            let spots = (0..spots.len()).filter(|&i| spots[i].level == height);
            spots.collect()
        };
        let levels = (0..highest).map(in_level).collect();
        Layers {
            spots,
            pieces,
            levels,
        }
    }

    /// Orders each level: of what the passes make of many orders, that with the fewest
    /// crossings.
    fn put_in_order(&mut self) {
        let mut random = Random::new(1);
        let mut best = (usize::MAX, self.levels.clone());
        for _ in 0..STARTS {
            for level in &mut self.levels {
                for i in (1..level.len()).rev() {
                    level.swap(i, random.below(i + 1));
                }
            }
            for pass in 0..PASSES {
                self.pass(pass % 2 == 0);
                self.swap_neighbours();
                let crossings = self.crossings();
                if crossings < best.0 {
                    best = (crossings, self.levels.clone());
                }
            }
        }
        self.levels = best.1;
    }

    /// Puts each spot where the middle of those is that it is tied to in the level before:
    /// upward or downward through the levels.
    fn pass(&mut self, upward: bool) {
        let mut heights: Vec<usize> = (0..self.levels.len()).collect();
        if !upward {
            heights.reverse();
        }
        for height in heights {
            let places = self.places();
            let level = std::mem::take(&mut self.levels[height]);
            let middle = |spot: usize| {
                let tied: Vec<usize> = self.tied(spot, upward).collect();
                let sum: usize = tied.iter().map(|&other| places[other]).sum();
                match tied.len() {
                    0 => places[spot] as f64,
                    count => sum as f64 / count as f64,
                }
            };
            let mut level: Vec<(f64, usize)> =
                level.into_iter().map(|spot| (middle(spot), spot)).collect();
            level.sort_by(|a, b| a.0.total_cmp(&b.0));
            self.levels[height] = level.into_iter().map(|(_, spot)| spot).collect();
        }
    }

    /// The spots below, or above, to which one is tied by a piece.
    fn tied(&self, spot: usize, below: bool) -> impl Iterator<Item = usize> + '_ {
        let ends = move |piece: &Piece| {
            if below {
                (piece.above == spot).then_some(piece.below)
            } else {
                (piece.below == spot).then_some(piece.above)
            }
        };
        self.pieces.iter().filter_map(ends)
    }

    /// The place of each spot in its level.
    fn places(&self) -> Vec<usize> {
        let mut places = vec![0; self.spots.len()];
        for level in &self.levels {
            for (place, &spot) in level.iter().enumerate() {
                places[spot] = place;
            }
        }
        places
    }

    /// Exchanges spots that stand side by side wherever fewer lines cross after it.
    fn swap_neighbours(&mut self) {
        let mut crossings = self.crossings();
        for height in 0..self.levels.len() {
            for i in 1..self.levels[height].len() {
                self.levels[height].swap(i - 1, i);
                let now = self.crossings();
                if now < crossings {
                    crossings = now;
                } else {
                    self.levels[height].swap(i - 1, i);
                }
            }
        }
    }

    /// How many pairs of pieces cross.
    fn crossings(&self) -> usize {
        let places = self.places();
        let pairs = self.pieces.iter().enumerate().map(|(i, one)| {
            let others = self.pieces[..i].iter();
            let crosses = |other: &&Piece| {
                self.spots[one.below].level == self.spots[other.below].level
                    && (places[one.below] < places[other.below])
                        != (places[one.above] < places[other.above])
                    && one.below != other.below
                    && one.above != other.above
            };
            others.filter(crosses).count()
        });
        pairs.sum()
    }
}
