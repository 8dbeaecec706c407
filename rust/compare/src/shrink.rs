//! The search for a small schedule that still fails.

/// How many schedules one search tries at most.
const TRIALS: usize = 20_000;

/// Removes lines greedily, many at a time and then one by one, while `fails`
/// says that the rest still fails.
pub fn shrink(input: &[u8], mut fails: impl FnMut(&[u8]) -> bool) -> Vec<u8> {
    let mut lines: Vec<&[u8]> = input.split_inclusive(|&byte| byte == b'\n').collect();
    let mut trials = 0;
    let mut width = lines.len().div_ceil(2);
    while width > 0 {
        let mut removed = false;
        let mut at = 0;
        while at < lines.len() && trials < TRIALS {
            let end = (at + width).min(lines.len());
            let rest: Vec<&[u8]> = [&lines[..at], &lines[end..]].concat();
            trials += 1;
            if fails(&rest.concat()) {
                lines = rest;
                removed = true;
            } else {
                at = end;
            }
        }
        if !removed {
            width /= 2;
        }
    }
    lines.concat()
}
