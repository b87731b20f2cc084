//! Shortens a call list that shows something.

use crate::calls::Call;

/// A list that still shows it, of which no single call can be left out and
/// no argument be made simpler by the means below.
pub fn shortest(calls: &[Call], mut shows: impl FnMut(&[Call]) -> bool) -> Vec<Call> {
    // What shows it goes on showing it with more calls behind.
    let lengths: Vec<usize> = (0..calls.len()).collect();
    let needed = lengths.partition_point(|&length| !shows(&calls[..length]));
    let mut list = calls[..needed].to_vec();
    loop {
        let before = list.clone();
        drop_calls(&mut list, &mut shows);
        join_advances(&mut list, &mut shows);
        simplify(&mut list, &mut shows);
        if list == before {
            return list;
        }
    }
}

/// Keeps the other list if it shows it too.
fn keep(list: &mut Vec<Call>, other: Vec<Call>, shows: &mut impl FnMut(&[Call]) -> bool) -> bool {
    let better = shows(&other);
    if better {
        *list = other;
    }
    better
}

/// Parts left out, from half the list down to single calls, the last first.
fn drop_calls(list: &mut Vec<Call>, shows: &mut impl FnMut(&[Call]) -> bool) {
    let mut size = list.len().div_ceil(2);
    while size > 0 {
        let mut end = list.len();
        while end > 0 {
            let start = end.saturating_sub(size);
            let other = [&list[..start], &list[end..]].concat();
            keep(list, other, shows);
            end = start;
        }
        size /= 2;
    }
}

fn join_advances(list: &mut Vec<Call>, shows: &mut impl FnMut(&[Call]) -> bool) {
    let mut i = 1;
    while i < list.len() {
        let both = list[i - 1].ticks().zip(list[i].ticks());
        let joined = both.is_some_and(|(a, b)| {
            let mut other = list.clone();
            other[i] = Call::Advance(a + b, (a + b) as usize);
            other.remove(i - 1);
            keep(list, other, shows)
        });
        i += usize::from(!joined);
    }
}

/// Fewer ticks, a list as long as they need, fewer bits in a written value.
fn simplify(list: &mut Vec<Call>, shows: &mut impl FnMut(&[Call]) -> bool) {
    for i in 0..list.len() {
        let mut tried = 0;
        while let Some(&simpler) = simpler(list[i]).get(tried) {
            let mut other = list.clone();
            other[i] = simpler;
            tried = if keep(list, other, shows) {
                0
            } else {
                tried + 1
            };
        }
    }
}

fn simpler(call: Call) -> Vec<Call> {
    match call {
        Call::Read(_) => Vec::new(),
        Call::Write(address, value) => (0..16)
            .filter(|bit| value & 1 << bit != 0)
            .map(|bit| Call::Write(address, value & !(1 << bit)))
            .collect(),
        Call::Advance(n, length) => {
            let fits = (length != n as usize && call.ticks().is_some()).then_some(n);
            let fewer = (0..32).map(|half| n >> half).take_while(|&by| by > 0);
            fits.into_iter()
                .chain(fewer.map(|by| n - by))
                .map(|n| Call::Advance(n, length.min(n as usize)))
                .collect()
        }
    }
}
