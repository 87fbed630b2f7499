//! The smallest image that still shows a difference, as far as cutting and simplifying goes.

pub fn shrink(image: &[u8], mut shows: impl FnMut(&[u8]) -> bool) -> Vec<u8> {
    let mut best = image.to_vec();
    loop {
        let before = best.clone();
        cut(&mut best, &mut shows);
        simplify(&mut best, &mut shows);
        if best == before {
            return best;
        }
    }
}

/// Takes parts out, larger ones first.
fn cut(best: &mut Vec<u8>, shows: &mut impl FnMut(&[u8]) -> bool) {
    let mut width = best.len().next_power_of_two();
    while width > 0 {
        let mut at = 0;
        while at < best.len() {
            let mut less = best.clone();
            less.drain(at..best.len().min(at + width));
            if shows(&less) {
                *best = less;
            } else {
                at += width;
            }
        }
        width /= 2;
    }
}

/// Puts smaller bytes in.
fn simplify(best: &mut [u8], shows: &mut impl FnMut(&[u8]) -> bool) {
    for at in 0..best.len() {
        let was = best[at];
        for less in [0, 1, was / 2] {
            if less < best[at] {
                let now = best[at];
                best[at] = less;
                if !shows(best) {
                    best[at] = now;
                }
            }
        }
    }
}
