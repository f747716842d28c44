//! Document 01, "A description" and "Refusals by number": the nodes of a description, or the refusal that the check gives.

pub const MOST_NODES: usize = 64;
pub const MOST_BINDS: usize = 31;
pub const MOST_BYTES: usize = 1024;

#[derive(Clone, Copy)]
pub enum Operand {
    Constant(i64),
    Bound(usize),
}

#[derive(Clone, Copy)]
pub enum Node {
    Unit,
    Bottom,
    Bits(u32),
    Signed(u32),
    Then(usize, usize),
    Bind(usize, usize),
    Either(usize, usize),
    Both(usize, usize),
    Where { child: usize, relation: u8, operand: Operand },
    Sequence { element: usize, separator: usize, terminator: usize, operand: Operand },
    Compute { width: u32, operator: u8, a: Operand, b: Operand },
    Absorb(usize),
    Scan(usize),
}

/// A refusal: its number and the node given.
pub type Refusal = (u32, u32);

const BODY_BYTES: [usize; 13] = [0, 0, 1, 1, 2, 2, 2, 2, 7, 8, 12, 1, 1];

pub fn check(desc: &[u8]) -> Result<Vec<Node>, Refusal> {
    if desc.is_empty() || desc.len() > MOST_BYTES {
        return Err((1, 0));
    }
    let mut nodes = Vec::new();
    let mut named = vec![false; MOST_NODES];
    let mut rest = desc;
    while let Some((&kind, after)) = rest.split_first() {
        let n = nodes.len();
        let refused = |number| (number, n as u32);
        if n == MOST_NODES {
            return Err(refused(4));
        }
        let &length = BODY_BYTES.get(kind as usize).ok_or(refused(2))?;
        if after.len() < length {
            return Err(refused(3));
        }
        let (body, next) = after.split_at(length);
        let node = fields(kind, body).ok_or(refused(5))?;
        let children = node.children();
        if children.iter().any(|&c| c >= n) {
            return Err(refused(6));
        }
        for &c in &children {
            if named[c] {
                return Err(refused(7));
            }
            named[c] = true;
        }
        if node.wants_number() && !is_number(&nodes[children[0]]) {
            return Err(refused(8));
        }
        nodes.push(node);
        rest = next;
    }
    whole(&nodes, &named)?;
    Ok(nodes)
}

/// 9 to 11, which are of the description as a whole. The library asks 11 no more (request 4): a case that reached it would differ.
fn whole(nodes: &[Node], named: &[bool]) -> Result<(), Refusal> {
    let root = nodes.len() - 1;
    if let Some(lowest) = (0..root).find(|&n| !named[n]) {
        return Err((9, lowest as u32));
    }
    let around = binds_around(nodes);
    let unbound = |n: usize| nodes[n].operands().iter().any(|o| matches!(o, Operand::Bound(k) if *k >= around[n]));
    if (0..nodes.len()).any(unbound) {
        return Err((10, root as u32));
    }
    if around.iter().any(|&binds| binds > MOST_BINDS) {
        return Err((11, root as u32));
    }
    Ok(())
}

/// How many binds enclose each node: a parent's number is above its children's, so one pass from the root down settles all.
fn binds_around(nodes: &[Node]) -> Vec<usize> {
    let mut around = vec![0; nodes.len()];
    for n in (0..nodes.len()).rev() {
        for c in nodes[n].children() {
            around[c] = around[n];
        }
        if let Node::Bind(_, second) = nodes[n] {
            around[second] += 1;
        }
    }
    around
}

fn is_number(node: &Node) -> bool {
    matches!(node, Node::Bits(_) | Node::Signed(_) | Node::Where { .. } | Node::Compute { .. })
}

fn fields(kind: u8, body: &[u8]) -> Option<Node> {
    let child = |i: usize| body[i] as usize;
    Some(match kind {
        0x00 => Node::Unit,
        0x01 => Node::Bottom,
        0x02 => Node::Bits(width(body[0])?),
        0x03 if matches!(body[0], 8 | 16 | 32) => Node::Signed(body[0] as u32),
        0x03 => return None,
        0x04 => Node::Then(child(0), child(1)),
        0x05 => Node::Bind(child(0), child(1)),
        0x06 => Node::Either(child(0), child(1)),
        0x07 => Node::Both(child(0), child(1)),
        0x08 if body[1] <= 5 => Node::Where { child: child(0), relation: body[1], operand: operand(&body[2..7])? },
        0x08 => return None,
        0x09 => Node::Sequence { element: child(0), separator: child(1), terminator: child(2), operand: operand(&body[3..8])? },
        0x0A if body[1] <= 1 => {
            Node::Compute { width: width(body[0])?, operator: body[1], a: operand(&body[2..7])?, b: operand(&body[7..12])? }
        }
        0x0A => return None,
        0x0B => Node::Absorb(child(0)),
        _ => Node::Scan(child(0)),
    })
}

fn width(byte: u8) -> Option<u32> {
    (1..=32).contains(&byte).then_some(byte as u32)
}

fn operand(bytes: &[u8]) -> Option<Operand> {
    match *bytes {
        [0, a, b, c, d] => Some(Operand::Constant(i32::from_be_bytes([a, b, c, d]) as i64)),
        [1, 0, 0, 0, k] => Some(Operand::Bound(k as usize)),
        _ => None,
    }
}

impl Node {
    /// Its kind byte.
    pub fn kind(&self) -> u8 {
        match self {
            Node::Unit => 0x00,
            Node::Bottom => 0x01,
            Node::Bits(_) => 0x02,
            Node::Signed(_) => 0x03,
            Node::Then(..) => 0x04,
            Node::Bind(..) => 0x05,
            Node::Either(..) => 0x06,
            Node::Both(..) => 0x07,
            Node::Where { .. } => 0x08,
            Node::Sequence { .. } => 0x09,
            Node::Compute { .. } => 0x0A,
            Node::Absorb(_) => 0x0B,
            Node::Scan(_) => 0x0C,
        }
    }

    pub fn children(&self) -> Vec<usize> {
        match *self {
            Node::Unit | Node::Bottom | Node::Bits(_) | Node::Signed(_) | Node::Compute { .. } => vec![],
            Node::Then(a, b) | Node::Bind(a, b) | Node::Either(a, b) | Node::Both(a, b) => vec![a, b],
            Node::Where { child, .. } | Node::Absorb(child) | Node::Scan(child) => vec![child],
            Node::Sequence { element, separator, terminator, .. } => vec![element, separator, terminator],
        }
    }

    pub fn operands(&self) -> Vec<Operand> {
        match *self {
            Node::Where { operand, .. } | Node::Sequence { operand, .. } => vec![operand],
            Node::Compute { a, b, .. } => vec![a, b],
            _ => vec![],
        }
    }

    fn wants_number(&self) -> bool {
        matches!(self, Node::Bind(..) | Node::Where { .. })
    }
}
