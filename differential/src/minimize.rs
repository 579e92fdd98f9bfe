//! Delta debugging: the shortest list of steps that still shows a difference.

/// The ways to make a list of steps simpler, beside dropping some.
pub trait Simpler: Clone {
    /// Steps that may stand in this one's place.
    fn simpler(&self) -> Vec<Self>;

    /// Lists that may stand in the whole list's place.
    fn rewritten(_steps: &[Self]) -> Vec<Vec<Self>> {
        Vec::new()
    }
}

/// Drops steps, in halves and at last one by one, and puts simpler ones in their places, while `differs` holds.
/// It holds for the list handed in.
pub fn minimize<T: Simpler>(mut steps: Vec<T>, differs: impl Fn(&[T]) -> bool) -> Vec<T> {
    loop {
        let length = steps.len();
        steps = drop_steps(steps, &differs);
        let rewritten = rewrite(&mut steps, &differs);
        let simplified = simplify(&mut steps, &differs);
        if steps.len() == length && !rewritten && !simplified {
            return steps;
        }
    }
}

fn drop_steps<T: Clone>(mut steps: Vec<T>, differs: &impl Fn(&[T]) -> bool) -> Vec<T> {
    let mut size = steps.len().div_ceil(2).max(1);
    loop {
        let mut dropped = false;
        let mut end = steps.len();
        while end > 0 {
            let start = end.saturating_sub(size);
            let candidate = [&steps[..start], &steps[end..]].concat();
            if differs(&candidate) {
                steps = candidate;
                dropped = true;
            }
            end = start;
        }
        if size == 1 && !dropped {
            return steps;
        }
        size = size.div_ceil(2);
    }
}

/// Says whether another list stands there now.
fn rewrite<T: Simpler>(steps: &mut Vec<T>, differs: &impl Fn(&[T]) -> bool) -> bool {
    let found = T::rewritten(steps).into_iter().find(|list| differs(list));
    let changed = found.is_some();
    if let Some(list) = found {
        *steps = list;
    }
    changed
}

/// Says whether anything is simpler now.
fn simplify<T: Simpler>(steps: &mut [T], differs: &impl Fn(&[T]) -> bool) -> bool {
    let mut changed = false;
    for index in 0..steps.len() {
        'again: loop {
            for step in steps[index].simpler() {
                let kept = std::mem::replace(&mut steps[index], step);
                if differs(steps) {
                    changed = true;
                    continue 'again;
                }
                steps[index] = kept;
            }
            break;
        }
    }
    changed
}

#[cfg(test)]
mod tests {
    use super::{minimize, Simpler};

    impl Simpler for u32 {
        fn simpler(&self) -> Vec<u32> {
            self.checked_sub(1).into_iter().collect()
        }
    }

    #[test]
    fn finds_the_two_steps_that_matter() {
        let steps: Vec<u32> = (0..1000).collect();
        let differs = |steps: &[u32]| steps.contains(&17) && steps.iter().any(|&step| step >= 900);
        assert_eq!(minimize(steps, differs), [17, 900]);
    }
}
