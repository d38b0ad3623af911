//! A short list that still fails.

/// Leaves out what can be left out while the list still fails: long stretches first, then shorter
/// ones, at last one thing at a time until none can go.
pub fn shrink<T: Clone>(mut list: Vec<T>, fails: impl Fn(&[T]) -> bool) -> Vec<T> {
    let mut stretch = list.len() / 2;
    while stretch > 0 {
        let length = list.len();
        let mut at = 0;
        while at < list.len() {
            let end = list.len().min(at + stretch);
            let shorter = [&list[..at], &list[end..]].concat();
            if fails(&shorter) {
                list = shorter;
            } else {
                at = end;
            }
        }
        if stretch > 1 || list.len() == length {
            stretch /= 2;
        }
    }
    list
}
