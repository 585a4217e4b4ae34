//! Conditions of refusals, made to hold in a case together.

/// What makes the condition of a number hold.
pub type Fault<T> = fn(&mut T);

/// The case with each number made to hold in each of these ways, together with any of the others in any of theirs, and
/// the numbers. The ways are tried in the order of `faults`, so that a later one may look at what earlier ones did.
pub fn together<T: Clone>(base: T, faults: &[(u64, &[Fault<T>])]) -> Vec<(T, Vec<u64>)> {
    let mut cases = vec![(base, vec![])];
    for (code, ways) in faults {
        for (case, codes) in cases.clone() {
            cases.extend(ways.iter().map(|way| {
                let mut case = case.clone();
                way(&mut case);
                (case, [&codes[..], &[*code]].concat())
            }));
        }
    }
    cases
}
