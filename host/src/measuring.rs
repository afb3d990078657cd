//! Times that are to be compared: taken in one process, turn and turn about, so that a busy machine slows all alike.

/// The median time of each contestant. In every round each has its turn, and each round begins one turn further on.
pub fn medians(rounds: usize, contestants: usize, mut time: impl FnMut(usize) -> f64) -> Vec<f64> {
    let mut times = vec![Vec::with_capacity(rounds); contestants];
    for round in 0..rounds {
        for step in 0..contestants {
            let turn = (round + step) % contestants;
            times[turn].push(time(turn));
        }
    }
    times.into_iter().map(median).collect()
}

/// The middle one; of two in the middle, the larger.
fn median(mut times: Vec<f64>) -> f64 {
    times.sort_by(f64::total_cmp);
    times[times.len() / 2]
}

#[cfg(test)]
mod tests {
    use super::*;

    #[test]
    fn everyone_has_a_turn_in_every_round() {
        let mut turns = Vec::new();
        medians(3, 3, |turn| {
            turns.push(turn);
            0.0
        });
        assert_eq!(turns, [0, 1, 2, 1, 2, 0, 2, 0, 1]);
    }

    #[test]
    fn the_middle_time_counts() {
        let mut times = [5.0, 1.0, 2.0].into_iter();
        assert_eq!(medians(3, 1, |_| times.next().expect("a time")), [2.0]);
        assert_eq!(median(vec![4.0, 1.0, 2.0, 3.0]), 3.0);
    }
}
