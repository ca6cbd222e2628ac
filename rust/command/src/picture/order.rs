//! The order of the stops within each column: by the average place of what they are linked to, so that few edges cross.
use super::stops::Stops;

/// How often the columns are put in order, there and back.
const PASSES: usize = 6;

/// The stops of each column from top to bottom. The first column, of the inputs and the gates without feeds, stays in the order of signals.
pub(super) fn columns(stops: &Stops, count: usize) -> Vec<Vec<usize>> {
    let mut order = vec![Vec::new(); count];
    for (stop, &column) in stops.columns.iter().enumerate() {
        order[column].push(stop);
    }
    let mut best = order.clone();
    let mut fewest = usize::MAX;
    for _ in 0..PASSES {
        for column in 1..count {
            sort(&mut order, column, &stops.before);
        }
        let crossings = crossings(&order, stops);
        if crossings < fewest {
            fewest = crossings;
            best.clone_from(&order);
        }
        for column in (1..count).rev() {
            sort(&mut order, column, &stops.after);
        }
    }
    best
}

/// Sorts one column by the average place of the stops' links, which are measured from 0 at the top to 1 at the bottom of their columns.
fn sort(order: &mut [Vec<usize>], column: usize, links: &[Vec<usize>]) {
    let places = places(order);
    let average = |&stop: &usize| {
        let linked = &links[stop];
        let sum: f64 = linked.iter().map(|&link| places[link]).sum();
        if linked.is_empty() {
            places[stop]
        } else {
            sum / linked.len() as f64
        }
    };
    order[column].sort_by(|one, other| average(one).total_cmp(&average(other)));
}

fn places(order: &[Vec<usize>]) -> Vec<f64> {
    let mut places = vec![0.0; order.iter().map(Vec::len).sum()];
    for column in order {
        for (place, &stop) in column.iter().enumerate() {
            places[stop] = (place as f64 + 0.5) / column.len() as f64;
        }
    }
    places
}

/// How often links cross that lead out of the same column.
fn crossings(order: &[Vec<usize>], stops: &Stops) -> usize {
    let places = places(order);
    let mut count = 0;
    for column in order {
        let mut passed: Vec<f64> = Vec::new();
        for &stop in column {
            let mut ends: Vec<f64> = stops.after[stop].iter().map(|&next| places[next]).collect();
            ends.sort_by(f64::total_cmp);
            for &end in &ends {
                count += passed.len() - passed.partition_point(|&other| other <= end);
            }
            passed.extend(ends);
            passed.sort_by(f64::total_cmp);
        }
    }
    count
}
