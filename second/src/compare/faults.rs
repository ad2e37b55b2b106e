//! Calls with several faults at once. Their answer is known: it is the refusal that the scope's order judges first.

use crate::random::Random;

/// The refusal that a fault earns, and how it is put into a call. A list of them stands in the order of judgement.
pub type Fault<T> = (u32, fn(&mut T, &mut Random));

/// Some faults, by their places in the list, in its order.
type Set = Vec<usize>;

/// Puts each set of faults into a call that has none, and hands it on with the answer that this must bring.
pub fn each_set<T>(
    faults: &[Fault<T>],
    sets: Vec<Set>,
    random: &mut Random,
    faultless: impl Fn(&mut Random) -> T,
    mut with: impl FnMut(&T, u32, &mut Random),
) {
    for set in sets {
        let mut subject = faultless(random);
        let known = put_in(faults, &set, &mut subject, random);
        with(&subject, known, random);
    }
}

/// Puts a set of faults in, from the last to the first, so that an earlier one finds what it changes and stays as it was
/// put in. Answers the refusal that the first earns, or 0 for no fault.
fn put_in<T>(faults: &[Fault<T>], set: &[usize], subject: &mut T, random: &mut Random) -> u32 {
    for place in set.iter().rev() {
        faults[*place].1(subject, random);
    }
    set.first().map_or(0, |first| faults[*first].0)
}

/// Every set of some faults, so many times.
pub fn every_set(count: usize, times: usize) -> Vec<Set> {
    let members = |set: usize| (0..count).filter(|place| set >> place & 1 == 1).collect();
    (0..1 << count).map(members).flat_map(|set: Set| vec![set; times]).collect()
}

/// Each fault alone and every two, so many times, and as many larger sets as that makes.
pub fn small_sets(count: usize, times: usize, random: &mut Random) -> Vec<Set> {
    let twos = (0..count).flat_map(|first| (first..count).map(move |second| vec![first, second]));
    let mut sets: Vec<Set> = twos.flat_map(|set| vec![set; times]).collect();
    for _ in 0..sets.len() {
        let places = random.between(3..=6);
        sets.push((0..places).map(|_| random.between(0..=count - 1)).collect());
    }
    for set in &mut sets {
        set.sort_unstable();
        set.dedup();
    }
    sets
}
