//! The draw behind another secret. A listed post's polynomial is copied; one inverse for each of the two products.

use gantsorol::{check_points_len, message_len, row_draw_len, MAX_POSTS};

use super::{any_beyond, checked_points, checked_shape, is_point, powers, product, reduced, value};
use super::{FEW, FEW_SENT, MOST_SENT, P};

/// The call.
pub fn other_draw(
    [n, t, points]: [usize; 3],
    check_points: &[u32],
    draw: &[u32],
    [secret, wanted]: [u32; 2],
    posts: &[u32],
    out: &mut [u32],
) -> u8 {
    let checked = checked([n, t, points], check_points, draw, [secret, wanted], posts, out);
    if let Err(refusal) = checked {
        return refusal;
    }
    if secret == wanted {
        out.copy_from_slice(draw);
        return 0;
    }
    let delta = reduced(u64::from(wanted) + P - u64::from(secret));
    let change = match n <= FEW {
        true => change::<FEW, FEW_SENT>,
        false => change::<MAX_POSTS, MOST_SENT>,
    };
    change([n, t, points], check_points, draw, delta, posts, out);
    0
}

fn checked(
    [n, t, points]: [usize; 3],
    check_points: &[u32],
    draw: &[u32],
    [secret, wanted]: [u32; 2],
    posts: &[u32],
    out: &[u32],
) -> Result<(), u8> {
    checked_shape(n, t)?;
    checked_points(points)?;
    let length = row_draw_len(n, t, points);
    let lengths = [check_points_len(n, points), length, length];
    let rising = posts.windows(2).all(|pair| pair[0] < pair[1]);
    match () {
        () if !check_points.iter().all(|&point| is_point(point)) => Err(4),
        () if [check_points.len(), draw.len(), out.len()] != lengths => Err(5),
        () if any_beyond(draw) | any_beyond(&[secret, wanted]) => Err(8),
        () if !rising || posts.first() == Some(&0) => Err(18),
        () if posts.last().is_some_and(|&last| last as usize > n) => Err(18),
        () if secret != wanted && posts.len() > t => Err(19),
        () => Ok(()),
    }
}

fn inverse(x: u64) -> u64 {
    let (mut u, mut scale) = (x, 1);
    while u > 1 {
        scale = product(P - P / u, scale);
        u = P % u;
    }
    scale
}

/// The product of 1 - z/x: of z - x, then by the inverse of its constant. On the way a coefficient is no remainder, but folded to at
/// most p.
fn vanishing<const N: usize>(numbers: &[u32]) -> [u32; N] {
    let mut list = [0; N];
    list[0] = 1;
    for (i, &x) in numbers.iter().enumerate() {
        let (negative, mut before) = (P - u64::from(x), 0);
        for c in &mut list[..i + 2] {
            let now = u64::from(*c);
            let whole = negative * now + before;
            let once = ((whole & P) + (whole >> 31)) as u32;
            *c = (once & P as u32) + (once >> 31);
            before = now;
        }
    }
    let scale = inverse(u64::from(list[0]) % P);
    for c in &mut list[..=numbers.len()] {
        *c = reduced(scale * u64::from(*c)) as u32;
    }
    list
}

fn add_multiple(scale: u64, list: &[u32], from: &[u32], to: &mut [u32]) {
    for ((to, &from), &c) in to.iter_mut().zip(from).zip(list) {
        *to = reduced(scale * u64::from(c) + u64::from(from)) as u32;
    }
}

fn change<const N: usize, const SENT: usize>(
    [_, t, points]: [usize; 3],
    check_points: &[u32],
    draw: &[u32],
    delta: u64,
    posts: &[u32],
    out: &mut [u32],
) {
    let (f, vs) = draw.split_at(t + 1);
    let (new_f, new_vs) = out.split_at_mut(t + 1);
    let root = vanishing::<N>(posts);
    add_multiple(delta, &root, f, new_f);
    if posts.is_empty() {
        new_vs.copy_from_slice(vs);
        return;
    }
    let (mut known, mut count) = ([0; SENT], 0);
    for &post in posts {
        let own = &check_points[(post as usize - 1) * points..][..points];
        known[count..count + points].copy_from_slice(own);
        count += points;
    }
    known[..count].sort_unstable();
    let mut distinct = 1;
    for i in 1..count {
        if known[i] != known[distinct - 1] {
            known[distinct] = known[i];
            distinct += 1;
        }
    }
    let factor = vanishing::<SENT>(&known[..distinct]);
    let (length, mut listed) = (message_len(t, points), posts.iter().peekable());
    let pairs = vs.chunks_exact(length).zip(new_vs.chunks_exact_mut(length));
    for ((from, to), post) in pairs.zip(1u32..) {
        if listed.next_if(|&&next| next == post).is_some() {
            to.copy_from_slice(from);
            continue;
        }
        let at = value(&root[..=t], &powers::<N>(post, t + 1)[..=t]);
        add_multiple(P - product(delta, at), &factor, from, to);
    }
}
