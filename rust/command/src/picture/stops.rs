//! The stops of a picture's edges: the nodes, and for edges that lead over more than one column, the points where they pass the columns
//! between. The edges of one node pass a column in one point, and part in the gap before the column that they lead to.
use super::graph::Graph;

/// With more points than this on the way of all edges together, edges lead straight to their ends.
const MOST_POINTS: usize = 1500;

/// The stops: those below the number of nodes are the nodes, the others are points.
pub(super) struct Stops {
    nodes: usize,
    /// whether edges lead straight to their ends, since there would be too many points
    pub straight: bool,
    /// the column of each stop
    pub columns: Vec<usize>,
    /// for each stop those in earlier columns that an edge links to it
    pub before: Vec<Vec<usize>>,
    /// for each stop those in later columns that an edge links it to
    pub after: Vec<Vec<usize>>,
    /// for each edge its stops, both ends included
    pub routes: Vec<Vec<usize>>,
}

impl Stops {
    pub fn of(graph: &Graph) -> Stops {
        let between = |from: usize, to: usize| (graph.nodes[to].column - graph.nodes[from].column).saturating_sub(1);
        let straight = graph.edges.iter().map(|edge| between(edge.from, edge.to)).sum::<usize>() > MOST_POINTS;
        let mut stops = Stops {
            nodes: graph.nodes.len(),
            straight,
            columns: graph.nodes.iter().map(|node| node.column).collect(),
            before: vec![Vec::new(); graph.nodes.len()],
            after: vec![Vec::new(); graph.nodes.len()],
            routes: Vec::new(),
        };
        let mut points = vec![Vec::new(); graph.nodes.len()];
        for edge in &graph.edges {
            let passed = if straight { 0 } else { between(edge.from, edge.to) };
            while points[edge.from].len() < passed {
                let column = graph.nodes[edge.from].column + points[edge.from].len() + 1;
                points[edge.from].push(stops.add(column));
            }
            let mut route = vec![edge.from];
            route.extend(&points[edge.from][..passed]);
            route.push(edge.to);
            stops.link(&route);
            stops.routes.push(route);
        }
        stops
    }

    /// Whether a stop is a point where edges pass a column.
    pub fn is_point(&self, stop: usize) -> bool {
        stop >= self.nodes
    }

    fn add(&mut self, column: usize) -> usize {
        self.columns.push(column);
        self.before.push(Vec::new());
        self.after.push(Vec::new());
        self.columns.len() - 1
    }

    fn link(&mut self, route: &[usize]) {
        for link in route.windows(2) {
            if !self.after[link[0]].contains(&link[1]) {
                self.after[link[0]].push(link[1]);
                self.before[link[1]].push(link[0]);
            }
        }
    }
}
