//! Every way of picking some of a list in some order.

/// All arrangements of some of these values, of any length.
pub fn arrangements<T: Copy>(all: &[T]) -> Vec<Vec<T>> {
    let mut ways = vec![Vec::new()];
    for (place, &first) in all.iter().enumerate() {
        let mut others = all.to_vec();
        others.remove(place);
        for mut way in arrangements(&others) {
            way.insert(0, first);
            ways.push(way);
        }
    }
    ways
}
