//! Document 01's check of a description, written in Rust.

pub const MOST_NODES: usize = 64;

/// How many nodes there are, with where each begins left in `starts`; or a refusal, with its node.
pub fn examine(desc: &[u8], starts: &mut [usize; MOST_NODES]) -> Result<usize, (u32, usize)> {
    if desc.is_empty() || desc.len() > 1024 {
        return Err((1, 0));
    }
    let mut named = [false; MOST_NODES];
    let (mut at, mut n) = (0, 0);
    while at < desc.len() {
        if n == MOST_NODES {
            return Err((4, MOST_NODES));
        }
        let end = node(desc, at, n, starts, &mut named).map_err(|refusal| (refusal, n))?;
        starts[n] = at;
        n += 1;
        at = end;
    }
    let root = n - 1;
    if let Some(lowest) = (0..root).find(|&i| !named[i]) {
        return Err((9, lowest));
    }
    if needs(desc, starts, root) > 0 {
        return Err((10, root));
    }
    Ok(n)
}

fn node(desc: &[u8], at: usize, n: usize, starts: &[usize; MOST_NODES], named: &mut [bool; MOST_NODES]) -> Result<usize, u32> {
    let kind = desc[at];
    let (bytes, count) = body(kind).ok_or(2u32)?;
    let end = at + 1 + bytes;
    let body = desc.get(at + 1..end).ok_or(3u32)?;
    if !listed(kind, body) {
        return Err(5);
    }
    let children = &body[..count];
    if children.iter().any(|&c| c as usize >= n) {
        return Err(6);
    }
    for &c in children {
        if std::mem::replace(&mut named[c as usize], true) {
            return Err(7);
        }
    }
    if matches!(kind, 5 | 8) && !matches!(desc[starts[children[0] as usize]], 2 | 3 | 8 | 10) {
        return Err(8);
    }
    Ok(end)
}

fn body(kind: u8) -> Option<(usize, usize)> {
    match kind {
        0 | 1 => Some((0, 0)),
        2 | 3 => Some((1, 0)),
        4..=7 => Some((2, 2)),
        8 => Some((7, 1)),
        9 => Some((8, 3)),
        10 => Some((12, 0)),
        11 | 12 => Some((1, 1)),
        _ => None,
    }
}

fn listed(kind: u8, body: &[u8]) -> bool {
    match kind {
        2 => width(body[0]),
        3 => matches!(body[0], 8 | 16 | 32),
        8 => body[1] < 6 && operand(&body[2..7]),
        9 => operand(&body[3..8]),
        10 => width(body[0]) && body[1] < 2 && operand(&body[2..7]) && operand(&body[7..12]),
        _ => true,
    }
}

fn width(w: u8) -> bool {
    (1..=32).contains(&w)
}

fn operand(o: &[u8]) -> bool {
    o[0] == 0 || o[..4] == [1, 0, 0, 0]
}

fn children(desc: &[u8], at: usize) -> &[u8] {
    let count = body(desc[at]).map_or(0, |b| b.1);
    &desc[at + 1..at + 1 + count]
}

fn needs(desc: &[u8], starts: &[usize; MOST_NODES], node: usize) -> usize {
    let at = starts[node];
    let operand = |i: usize| if desc[i] == 0 { 0 } else { desc[i + 4] as usize + 1 };
    let own = match desc[at] {
        8 => operand(at + 3),
        9 => operand(at + 4),
        10 => operand(at + 3).max(operand(at + 8)),
        _ => 0,
    };
    let inside = |j: usize| (desc[at] == 5 && j == 1) as usize;
    let below = children(desc, at).iter().enumerate().map(|(j, &c)| needs(desc, starts, c as usize).saturating_sub(inside(j)));
    below.fold(own, usize::max)
}
