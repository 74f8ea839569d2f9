//! The places that a Report or a Top asks for, and what a Report gives of a plain list.

use crate::Key;
use std::collections::BTreeMap;

/// The places from x1 onward, in stretches with both ends: one, or, where x1 is greater than x2, all from x1 up and then all up to x2.
pub fn stretches(x1: i32, x2: i32) -> impl Iterator<Item = (i32, i32)> {
    let [first, second] = if x1 <= x2 { [Some((x1, x2)), None] } else { [Some((x1, i32::MAX)), Some((i32::MIN, x2))] };
    first.into_iter().chain(second)
}

/// Whether the place is one of the range.
pub fn holds(x1: i32, x2: i32, place: i32) -> bool {
    stretches(x1, x2).any(|(first, last)| first <= place && place <= last)
}

/// Whether a range of identities, from the first up to, and without, the second, has one of the places; None has no end.
pub(crate) fn meets(x1: i32, x2: i32, from: Option<Key>, to: Option<Key>) -> bool {
    stretches(x1, x2).any(|(first, last)| {
        let begin = from.unwrap_or((i32::MIN, i32::MIN)).max((first, i32::MIN));
        begin <= (last, i32::MAX) && to.is_none_or(|end| begin < end)
    })
}

/// What Report(x1, x2, y) gives: stretch after stretch the spots of rank y or more, each in place order.
pub fn reported(live: &BTreeMap<Key, u32>, x1: i32, x2: i32, y: i32) -> Vec<(Key, u32)> {
    let mut out = vec![];
    for (first, last) in stretches(x1, x2) {
        let spots = live.range((first, i32::MIN)..=(last, i32::MAX));
        out.extend(spots.filter(|(k, _)| k.1 >= y).map(|(k, t)| (*k, *t)));
    }
    out
}

/// What a Report of many ranges gives, each of them x1, x2 and y: how many spots for each, and the spots, those of one range behind those of the other.
pub fn reported_many(live: &BTreeMap<Key, u32>, ranges: &[(i32, i32, i32)]) -> (Vec<u32>, Vec<(Key, u32)>) {
    let (mut counts, mut all) = (vec![], vec![]);
    for (x1, x2, y) in ranges {
        let own = reported(live, *x1, *x2, *y);
        counts.push(own.len() as u32);
        all.extend(own);
    }
    (counts, all)
}

#[cfg(test)]
mod tests {
    use super::*;
    use crate::{HIGHEST_PLACE, LOWEST_PLACE};

    const ENDS: (i32, i32) = (i32::MIN, i32::MAX);
    const LIMITS: (i32, i32) = (LOWEST_PLACE, HIGHEST_PLACE);

    #[test]
    fn stretches_from_the_first_place_on() {
        let given = |x1, x2| stretches(x1, x2).collect::<Vec<_>>();
        assert_eq!(given(3, 5), [(3, 5)]);
        assert_eq!(given(4, 4), [(4, 4)]);
        assert_eq!(given(ENDS.0, ENDS.1), [ENDS]);
        assert_eq!(given(5, 3), [(5, ENDS.1), (ENDS.0, 3)]);
        assert_eq!(given(4, 3), [(4, ENDS.1), (ENDS.0, 3)]);
        assert_eq!(given(ENDS.1, ENDS.0), [(ENDS.1, ENDS.1), (ENDS.0, ENDS.0)]);
        assert!(holds(5, 3, 5) && holds(5, 3, 3) && !holds(5, 3, 4) && holds(4, 3, 4) && !holds(ENDS.1, ENDS.0, 0));
    }

    /// Case M5 of the scope paper, as request 2026-05 has it, and spots at both limits of the places; the ends of a range may lie beyond them.
    #[test]
    fn reports_past_the_door() {
        let keys = [(LIMITS.0, 7), (-3, 7), (0, 7), (240, 5), (240, 7), (LIMITS.1, 7)];
        let live = BTreeMap::from(keys.map(|k| (k, 0)));
        let given = |x1, x2, y| reported(&live, x1, x2, y).into_iter().map(|s| s.0).collect::<Vec<_>>();
        assert_eq!(given(240, 0, 7), [(240, 7), (LIMITS.1, 7), (LIMITS.0, 7), (-3, 7), (0, 7)]);
        assert_eq!(given(240, -4, 0), [(240, 5), (240, 7), (LIMITS.1, 7), (LIMITS.0, 7)]);
        assert_eq!(given(LIMITS.1, LIMITS.0, 0), [(LIMITS.1, 7), (LIMITS.0, 7)]);
        assert_eq!(given(LIMITS.1 + 1, LIMITS.0, 0), [(LIMITS.0, 7)]);
        assert_eq!(given(LIMITS.1, LIMITS.0 - 1, 0), [(LIMITS.1, 7)]);
        assert_eq!(given(ENDS.1, ENDS.0, 0), []);
        assert_eq!(given(LIMITS.1, ENDS.1, 0), [(LIMITS.1, 7)]);
        assert_eq!(given(1, 0, 6), [(240, 7), (LIMITS.1, 7), (LIMITS.0, 7), (-3, 7), (0, 7)]);
        assert_eq!(given(240, 240, 0), [(240, 5), (240, 7)]);
        let two = BTreeMap::from([((0, 7), 1), ((240, 7), 2)]);
        assert_eq!(reported(&two, 240, 0, 7), [((240, 7), 2), ((0, 7), 1)]);
    }

    #[test]
    fn reports_many() {
        let (door, far) = (((0, 7), 1), ((240, 5), 2));
        let live = BTreeMap::from([door, far]);
        let given = |ranges: &[(i32, i32, i32)]| reported_many(&live, ranges);
        assert_eq!(given(&[]), (vec![], vec![]));
        assert_eq!(given(&[(240, 0, 5), (1, 239, 0), (0, 240, 5), (0, 240, 6)]), (vec![2, 0, 2, 1], vec![far, door, door, far, door]));
    }
}
