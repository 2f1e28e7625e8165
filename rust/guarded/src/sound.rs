//! What must hold of strokes that were joined, read plainly.

use std::collections::BTreeMap;

/// The strokes of a good table, empty ones too.
pub fn split(points: &[u32], starts: &[u32]) -> Vec<Vec<u32>> {
    ramikohy::strokes(points, starts).map(|s| s.to_vec()).collect()
}

/// How often each undirected pair of neighbours is drawn.
pub fn pairs(strokes: &[Vec<u32>]) -> BTreeMap<(u32, u32), usize> {
    let mut bag = BTreeMap::new();
    for w in strokes.iter().flat_map(|s| s.windows(2)) {
        *bag.entry((w[0].min(w[1]), w[0].max(w[1]))).or_default() += 1;
    }
    bag
}

/// How many ends of open strokes each vertex has.
fn ends(strokes: &[Vec<u32>]) -> BTreeMap<u32, usize> {
    let mut bag = BTreeMap::new();
    for s in strokes.iter().filter(|s| s.first() != s.last()) {
        *bag.entry(s[0]).or_default() += 1;
        *bag.entry(s[s.len() - 1]).or_default() += 1;
    }
    bag
}

/// Each pair of neighbours is drawn as often as before, and a vertex ends one open stroke if an odd number of strokes' ends met
/// there, and none otherwise.
pub fn joined(before: &[Vec<u32>], after: &[Vec<u32>]) {
    assert!(pairs(before) == pairs(after), "other pairs are drawn");
    let odd: Vec<u32> = ends(before).into_iter().filter(|(_, n)| n % 2 == 1).map(|(v, _)| v).collect();
    let open = ends(after);
    assert!(open.values().all(|&n| n == 1) && open.keys().copied().eq(odd), "a pen lift too many");
}
