//! The smallest case found on which the two still disagree.
use crate::case::Case;

/// Bytes are taken out in ever smaller runs, then bytes and numbers are made plainer, until nothing helps.
pub fn smallest(case: &Case, fails: impl FnMut(&Case) -> bool) -> Case {
    let mut best = case.clone();
    let mut tries = 4000;
    let began = std::time::Instant::now();
    let mut fails = fails;
    let mut fails = move |c: &Case| began.elapsed().as_secs() < 20 && fails(c);
    loop {
        let before = best.clone();
        for i in 0..best.strings.len() {
            shorter(&mut best, i, &mut tries, &mut fails);
            plainer(&mut best, i, &mut tries, &mut fails);
        }
        for i in 0..best.numbers.len() {
            lower(&mut best, i, &mut tries, &mut fails);
        }
        if best == before || tries == 0 {
            return best;
        }
    }
}

fn attempt(best: &mut Case, other: Case, tries: &mut u32, fails: &mut impl FnMut(&Case) -> bool) -> bool {
    if *tries == 0 || other == *best {
        return false;
    }
    *tries -= 1;
    let helps = fails(&other);
    if helps {
        *best = other;
    }
    helps
}

fn shorter(best: &mut Case, i: usize, tries: &mut u32, fails: &mut impl FnMut(&Case) -> bool) {
    let mut run = best.strings[i].len();
    while run > 0 {
        let mut at = 0;
        while at < best.strings[i].len() {
            let mut other = best.clone();
            let end = (at + run).min(other.strings[i].len());
            other.strings[i].drain(at..end);
            if !attempt(best, other, tries, fails) {
                at += run;
            }
        }
        run /= 2;
    }
}

fn plainer(best: &mut Case, i: usize, tries: &mut u32, fails: &mut impl FnMut(&Case) -> bool) {
    for at in 0..best.strings[i].len() {
        for plain in [0, 1, b'a', b' '] {
            if best.strings[i][at] <= plain {
                continue;
            }
            let mut other = best.clone();
            other.strings[i][at] = plain;
            if attempt(best, other, tries, fails) {
                break;
            }
        }
    }
}

fn lower(best: &mut Case, i: usize, tries: &mut u32, fails: &mut impl FnMut(&Case) -> bool) {
    for f in [|_| 0, |n: u64| n / 2, |n: u64| n.saturating_sub(1)] {
        loop {
            let mut other = best.clone();
            other.numbers[i] = f(other.numbers[i]);
            if !attempt(best, other, tries, fails) {
                break;
            }
        }
    }
}
