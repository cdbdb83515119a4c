//! Codes 9 and 10 of FORMAT, "Codes and places", in one pass over the rows, with the open elements on a stack.

pub type Node = [u32; 5];

const NONE: u32 = u32::MAX;
const WIDEST: usize = 63;

/// What an open element has so far.
struct Open {
    row: u32,
    attributes: Vec<(u32, u32)>,
    /// The kind of the last child, or 0.
    last: u32,
}

pub fn nodes(words: &[u32]) -> Vec<Node> {
    words.chunks_exact(5).map(|w| [w[0], w[1], w[2], w[3], w[4]]).collect()
}

fn fields_are_right(strings: u32, node: Node) -> bool {
    match node {
        [1, _, namespace, local, 0] => namespace < strings && (1..strings).contains(&local),
        [2, _, namespace, local, string] => namespace.max(string) < strings && (1..strings).contains(&local),
        [3, _, string, 0, 0] => (1..strings).contains(&string),
        _ => false,
    }
}

/// Adds a row to the open elements; false for a row that breaks the rule.
fn add(strings: u32, open: &mut Vec<Open>, row: u32, node: Node) -> bool {
    let [kind, parent, a, b, _] = node;
    let root = row == 0 && kind == 1 && parent == NONE;
    while row != 0 && open.last().is_some_and(|element| element.row != parent) {
        open.pop();
    }
    let placed = match (open.last_mut(), kind) {
        (None, _) => root,
        (Some(element), 2) => {
            let new = !element.attributes.contains(&(a, b));
            element.attributes.push((a, b));
            new && element.last == 0
        }
        (Some(element), _) => {
            let apart = kind != 3 || element.last != 3;
            element.last = kind;
            apart
        }
    };
    if kind == 1 {
        open.push(Open { row, attributes: vec![], last: 0 });
    }
    placed && fields_are_right(strings, node)
}

/// The first row that breaks the rule of instance rows, width apart.
fn broken_row(strings: u32, words: &[u32]) -> Option<usize> {
    let nodes = nodes(words);
    if words.len() % 5 != 0 || nodes.is_empty() || nodes.len() > 1024 {
        return Some(0);
    }
    let mut open = vec![];
    (0..nodes.len()).find(|&row| !add(strings, &mut open, row as u32, nodes[row]))
}

/// The first element with too many attributes or too many children.
fn wide_element(nodes: &[Node]) -> Option<usize> {
    let mut counts = vec![[0, 0]; nodes.len()];
    for [kind, parent, ..] in &nodes[1..] {
        counts[*parent as usize][usize::from(*kind == 2)] += 1;
    }
    counts.iter().position(|[children, attributes]| *children > WIDEST || *attributes > WIDEST)
}

/// The code and place of a fault in an instance.
pub fn fault(strings: usize, words: &[u32]) -> Option<(u64, usize)> {
    if let Some(row) = broken_row(strings as u32, words) {
        return Some((9, row));
    }
    wide_element(&nodes(words)).map(|row| (10, row))
}
