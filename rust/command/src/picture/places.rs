//! The heights at which the stops of a picture stand: in the order of their columns, with room for each.
use super::stops::Stops;

/// How often the columns are moved, there and back.
const PASSES: usize = 40;

/// The height of the middle of each stop, from 0 at the top, as near to what it is linked to as can be, so that edges are as level as can
/// be. A stop takes up `rooms` of height, the distance to its neighbours included.
pub(super) fn level(stops: &Stops, columns: &[Vec<usize>], rooms: &[f64]) -> Vec<f64> {
    let mut heights = vec![0.0; rooms.len()];
    for column in columns {
        let wanted = vec![(0.0, 1.0); column.len()];
        put(&mut heights, column, &wanted, rooms);
    }
    for _ in 0..PASSES {
        for column in columns.iter().chain(columns.iter().rev()) {
            let wanted: Vec<(f64, f64)> = column.iter().map(|&stop| wanted(stops, stop, &heights)).collect();
            put(&mut heights, column, &wanted, rooms);
        }
    }
    let top = heights.iter().zip(rooms).map(|(height, room)| height - room / 2.0).fold(f64::INFINITY, f64::min);
    heights.iter().map(|height| height - top).collect()
}

/// The height of the middle of each stop, from 0 at the top, with the stops of every column spread over the whole height.
pub(super) fn even(columns: &[Vec<usize>], rooms: &[f64]) -> Vec<f64> {
    let needed = |column: &Vec<usize>| column.iter().map(|&stop| rooms[stop]).sum::<f64>();
    let highest = columns.iter().map(needed).fold(0.0, f64::max);
    let mut heights = vec![0.0; rooms.len()];
    for column in columns {
        let more = (highest - needed(column)) / column.len().max(1) as f64;
        let mut top = 0.0;
        for &stop in column {
            heights[stop] = top + (rooms[stop] + more) / 2.0;
            top += rooms[stop] + more;
        }
    }
    heights
}

/// The height at which a stop wants to be, which is the average of its links, and how much. One without links wants to stay.
fn wanted(stops: &Stops, stop: usize, heights: &[f64]) -> (f64, f64) {
    let links = stops.before[stop].iter().chain(&stops.after[stop]);
    let (sum, pull) = links.fold((0.0, 0.0), |(sum, pulls), &link| {
        let pull = pull(stops.is_point(stop), stops.is_point(link));
        (sum + pull * heights[link], pulls + pull)
    });
    if pull > 0.0 {
        (sum / pull, pull)
    } else {
        (heights[stop], 1.0)
    }
}

/// How much a link wants to be level: most between two points, since a long edge should have few bends.
fn pull(point: bool, other: bool) -> f64 {
    match (point, other) {
        (true, true) => 8.0,
        (false, false) => 1.0,
        _ => 3.0,
    }
}

fn put(heights: &mut [f64], column: &[usize], wanted: &[(f64, f64)], rooms: &[f64]) {
    let distances: Vec<f64> = column.windows(2).map(|two| (rooms[two[0]] + rooms[two[1]]) / 2.0).collect();
    for (&stop, height) in column.iter().zip(spread(wanted, &distances)) {
        heights[stop] = height;
    }
}

/// The places that are nearest to the wanted ones, by the sum of squares times how much each is wanted, among those in the same order with
/// the distances kept: what would come too close is pushed apart as one group around its average.
fn spread(wanted: &[(f64, f64)], distances: &[f64]) -> Vec<f64> {
    let mut offsets = vec![0.0];
    for distance in distances {
        offsets.push(offsets[offsets.len() - 1] + distance);
    }
    let mut groups: Vec<(f64, f64, usize)> = Vec::new();
    for ((place, pull), offset) in wanted.iter().zip(&offsets) {
        let mut group = (place - offset, *pull, 1);
        while let Some(above) = groups.last().copied().filter(|above| above.0 > group.0) {
            let pull = above.1 + group.1;
            group = ((above.0 * above.1 + group.0 * group.1) / pull, pull, above.2 + group.2);
            groups.pop();
        }
        groups.push(group);
    }
    let averages = groups.iter().flat_map(|&(average, _, count)| std::iter::repeat_n(average, count));
    averages.zip(&offsets).map(|(average, offset)| average + offset).collect()
}

#[cfg(test)]
mod tests {
    use super::*;

    fn spread_evenly(wanted: &[f64], distances: &[f64]) -> Vec<f64> {
        let wanted: Vec<(f64, f64)> = wanted.iter().map(|&place| (place, 1.0)).collect();
        spread(&wanted, distances)
    }

    #[test]
    fn what_is_too_close_is_pushed_apart_around_its_average() {
        assert_eq!(spread_evenly(&[0.0, 10.0, 30.0], &[10.0, 10.0]), [0.0, 10.0, 30.0]);
        assert_eq!(spread_evenly(&[5.0, 5.0, 5.0], &[10.0, 10.0]), [-5.0, 5.0, 15.0]);
        assert_eq!(spread_evenly(&[0.0, 0.0, 100.0], &[4.0, 4.0]), [-2.0, 2.0, 100.0]);
        assert_eq!(spread_evenly(&[9.0, 1.0], &[2.0]), [4.0, 6.0]);
        assert_eq!(spread(&[(8.0, 3.0), (8.0, 1.0)], &[4.0]), [7.0, 11.0]);
        assert!(spread(&[], &[]).is_empty());
    }
}
