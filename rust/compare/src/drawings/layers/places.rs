//! Where the spots of each level stand, from the left to the right, in their order.

use super::{Layers, Piece, What};

/// What lies between two spots of a level.
const BETWEEN: f64 = 16.0;

/// How often the levels are passed through, and the bends straightened.
const PASSES: usize = 60;
const TURNS: usize = 10;

impl Layers {
    /// Puts each spot at the middle of those that it is tied to, as near as its level has
    /// room between the left and the right.
    pub(super) fn put_in_place(&mut self, left: f64, right: f64) {
        for pass in 0..PASSES {
            let mut heights: Vec<usize> = (0..self.levels.len()).collect();
            if pass % 2 == 1 {
                heights.reverse();
            }
            for height in heights {
                let wanted = |&spot: &usize| self.wanted(spot, (left + right) / 2.0);
                let wanted: Vec<f64> = self.levels[height].iter().map(wanted).collect();
                self.place_level(height, &wanted, left, right);
            }
        }
    }

    /// Where a spot would stand best: at the middle of those that it is tied to, as far as
    /// they have a place yet.
    fn wanted(&self, spot: usize, middle: f64) -> f64 {
        let below = self.tied(spot, true);
        let tied: Vec<f64> = below
            .chain(self.tied(spot, false))
            .map(|other| self.spots[other].x)
            .filter(|&x| x > 0.0)
            .collect();
        match tied.len() {
            0 => middle,
            count => tied.iter().sum::<f64>() / count as f64,
        }
    }

    /// Places a level in its order, each spot as near to where it is wanted as the others
    /// let it: spots that would overlap stand together, around the middle of what they want.
    fn place_level(&mut self, height: usize, wanted: &[f64], left: f64, right: f64) {
        let level = &self.levels[height];
        // How far the middle of each spot is from that of the first, if all stand together.
        let mut offsets = vec![0.0];
        for pair in level.windows(2) {
            let [one, next] = [pair[0], pair[1]].map(|spot| self.spots[spot].width / 2.0);
            offsets.push(offsets[offsets.len() - 1] + one + BETWEEN + next);
        }
        // The spots that stand together: where their first one would stand, and how many.
        let mut together: Vec<(f64, usize)> = Vec::new();
        for (wanted, offset) in wanted.iter().zip(&offsets) {
            let mut new = (wanted - offset, 1);
            while let Some(&(first, count)) = together.last().filter(|last| last.0 > new.0) {
                let sum = first * count as f64 + new.0 * new.1 as f64;
                new = (sum / (count + new.1) as f64, count + new.1);
                together.pop();
            }
            together.push(new);
        }
        let (Some(&first), Some(&last)) = (level.first(), level.last()) else {
            return;
        };
        let least = left + self.spots[first].width / 2.0;
        let most = right - self.spots[last].width / 2.0 - offsets[offsets.len() - 1];
        let firsts = together
            .into_iter()
            .flat_map(|(first, count)| std::iter::repeat_n(first, count));
        for ((&spot, first), offset) in level.iter().zip(firsts).zip(offsets) {
            self.spots[spot].x = first.min(most).max(least) + offset;
        }
    }

    /// Brings the bends of the lines to a node under one another, as far as their levels
    /// have room: of the places where one of them stands, or an end of the lines, to that
    /// with which the lines turn least.
    pub(super) fn straighten(&mut self) {
        for _ in 0..TURNS {
            for node in 0..self.spots.len() {
                let is_bend = |spot: usize| self.spots[spot].what == What::Bend(node);
                let bends: Vec<usize> = (0..self.spots.len()).filter(|&i| is_bend(i)).collect();
                let pieces = self.pieces.iter().copied();
                let pieces: Vec<Piece> = pieces
                    .filter(|piece| is_bend(piece.below) || is_bend(piece.above))
                    .collect();
                let places: Vec<f64> = pieces
                    .iter()
                    .flat_map(|piece| [self.spots[piece.below].x, self.spots[piece.above].x])
                    .collect();
                let mut best = self.turns(&pieces);
                for place in places {
                    let before: Vec<f64> = bends.iter().map(|&bend| self.spots[bend].x).collect();
                    for &bend in &bends {
                        let (least, most) = self.room(bend);
                        self.spots[bend].x = place.min(most).max(least);
                    }
                    let turns = self.turns(&pieces);
                    if turns < best {
                        best = turns;
                    } else {
                        for (&bend, x) in bends.iter().zip(before) {
                            self.spots[bend].x = x;
                        }
                    }
                }
            }
        }
    }

    /// How many pieces lead to the side, and then how far, as one number.
    fn turns(&self, pieces: &[Piece]) -> f64 {
        let aside = |piece: &Piece| (self.spots[piece.below].x - self.spots[piece.above].x).abs();
        let turn = |aside: f64| if aside < 1.0 { 0.0 } else { 1000.0 + aside };
        pieces.iter().map(|piece| turn(aside(piece))).sum()
    }

    /// How far to the left and to the right a spot can be between its neighbours.
    fn room(&self, spot: usize) -> (f64, f64) {
        let level = &self.levels[self.spots[spot].level];
        let place = level.iter().position(|&other| other == spot).unwrap_or(0);
        let apart =
            |other: usize| (self.spots[spot].width + self.spots[other].width) / 2.0 + BETWEEN;
        let before = place.checked_sub(1).map(|place| level[place]);
        let after = level.get(place + 1).copied();
        (
            before.map_or(f64::MIN, |other| self.spots[other].x + apart(other)),
            after.map_or(f64::MAX, |other| self.spots[other].x - apart(other)),
        )
    }

    /// Puts all in the middle between the left and the right.
    pub(super) fn centre(&mut self, left: f64, right: f64) {
        let edge = |side: f64| {
            let edges = self
                .spots
                .iter()
                .map(move |spot| side * spot.x + spot.width / 2.0);
            edges.fold(f64::MIN, f64::max)
        };
        let aside = (left + right - edge(1.0) + edge(-1.0)) / 2.0;
        for spot in &mut self.spots {
            spot.x += aside;
        }
    }
}
