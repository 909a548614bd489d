//! Pull lists with numbers at the ends of 32 bits.

use super::{document::zeros, Case, Group};
use crate::document;
use crate::draft::Draft;
use crate::families::parallel::between_two;
use second::sheet::{PLAIN, STRAIGHT, WIDTH_LIMIT};

/// The least number.
const MIN: i32 = i32::MIN;
/// The greatest number.
const MAX: i32 = i32::MAX;

/// Two such numbers behind each other, at each index.
pub fn neighbours() -> Group {
    let mut group = Group::new("two numbers at the ends of 32 bits");
    let drawn = document::sheets().into_iter();
    let drawn = drawn.filter_map(|(name, draft)| Some((name, Case::solved(&draft)?)));
    // the two boundaries of a single node push against each other
    for (name, case) in drawn.filter(|(_, case)| case.places.len() > 1) {
        group.note(&format!("{name}: no"));
        for i in 1..case.list.len() {
            for pair in [[MAX, MIN], [MIN, MAX], [MIN, MIN], [MAX, MAX]] {
                let mut case = case.clone();
                case.list[i - 1..=i].copy_from_slice(&pair);
                group.check(&case);
            }
        }
    }
    group
}

/// Pulls of straight edges.
pub fn pulls() -> Group {
    let mut group = Group::new("pulls of straight edges at the ends of 32 bits");
    sums(&mut group);
    parallel_pulls(&mut group);
    pushes_against(&mut group);
    group
}

/// Four layers of two nodes at 0 and 1. The first three have straight edges between equal positions; the
/// last one has room.
fn ladder() -> Draft {
    let mut draft = Draft::new(1, &[2; 4])
        .separation(2, 1, 1, 1)
        .separation(4, 1, 1, 5);
    for layer in [1, 2] {
        for position in [1, 2] {
            draft = draft.edge(layer, position, position, STRAIGHT);
        }
    }
    draft
}

/// A list of the ladder: these pulls, balanced in the first and the third layer; the pushes of the second
/// one, and those of both separations of the last one.
fn ladder_list(pull: i32, second: [i32; 4], last: i32) -> Vec<i32> {
    let pulls = [pull, -pull, -pull, pull];
    let outer = [0, pull, 0, 0];
    [pulls, outer, second, outer, [0, last, last, 0]].concat()
}

/// Adds pulls and pushes whose sums at a node pass 32 bits.
fn sums(group: &mut Group) {
    let case = |list: &[i32]| Case::new(&ladder(), &[0, 1].repeat(4), list);
    group.note("two pulls at a node, balanced: yes");
    for pull in [1, MAX / 2, MAX / 2 + 1, MAX] {
        group.check_tight(&case(&ladder_list(pull, [pull, 0, pull, pull], 0)));
    }
    group.note("two pulls at a node, balanced in 32 bits only: no");
    for pull in [MAX, MAX - 1, MAX - 9] {
        let rest = pull.wrapping_mul(-2);
        group.check_tight(&case(&ladder_list(pull, [0, rest, 0, 0], 1 << 30)));
    }
    group.note("two pulls at a node, one of them not balanced: no");
    for second in [[MAX, 0, 0, 0], [0, 0, MAX, 0], [0; 4]] {
        group.check(&case(&ladder_list(MAX, second, 0)));
    }
}

/// Adds parallel straight edges of which later ones pull; the sums are 0, some in 32 bits only.
fn parallel_pulls(group: &mut Group) {
    group.note("parallel straight edges, later ones pull: no");
    let cancelling: [&[i32]; 9] = [
        &[MAX, -MAX],
        &[-MAX, MAX],
        &[MIN, MIN],
        &[MAX, MIN, 1],
        &[1, MAX, MIN],
        &[MAX, MAX, 2],
        &[0, MIN, MIN],
        &[MIN; 32],
        &[MAX, MAX, -MAX, -MAX],
    ];
    for pulls in cancelling {
        let draft = between_two(3, &vec![STRAIGHT; pulls.len()]);
        let list = [pulls, &[0; 4]].concat();
        group.check_tight(&Case::new(&draft, &[1, 1], &list));
    }
}

/// One node in each of three layers, one below the other, with straight edges.
fn chain(width: u16) -> Draft {
    Draft::new(width, &[1, 1, 1])
        .edge(1, 1, 1, STRAIGHT)
        .edge(2, 1, 1, STRAIGHT)
}

/// Adds straight edges whose pulls are balanced by pushes of boundaries.
fn pushes_against(group: &mut Group) {
    let down = [MAX, MAX, 0, MAX, 0, 0, MAX, 0];
    let up = [-MAX, -MAX, MAX, 0, 0, 0, 0, MAX];
    group.note("boundaries push against the pulls, width 0: yes");
    group.check_tight(&Case::new(&chain(0), &[0; 3], &down));
    group.check_tight(&Case::new(&chain(0), &[0; 3], &up));
    group.note("the same, width 1 and 4,095: no");
    for width in [1, WIDTH_LIMIT] {
        group.check(&Case::new(&chain(width), &[0; 3], &down));
        group.check(&Case::new(&chain(width), &[0; 3], &up));
        group.check(&Case::new(&chain(width), &[width; 3], &down));
    }
    group.note("no push is as large as the least pull: no");
    for push in [MAX, MIN, 0] {
        let list = [MIN, MIN, push, 0, 0, 0, 0, push];
        group.check_tight(&Case::new(&chain(0), &[0; 3], &list));
    }
}

/// Pushes, and floors that pass 32 bits.
pub fn pushes() -> Group {
    let mut group = Group::new("pushes at the ends of 32 bits");
    for distance in [1, WIDTH_LIMIT] {
        rigid_pair(&mut group, distance);
    }
    loose_pair(&mut group);
    wrapped_floors(&mut group);
    wrapped_balance(&mut group);
    long_floors(&mut group);
    group
}

/// Adds pushes on two nodes that can only stand at 0 and at the width.
fn rigid_pair(group: &mut Group, width: u16) {
    let draft = Draft::new(width, &[2]).separation(1, 1, width, width);
    let mut add = |answer: &str, lists: &[[i32; 4]]| {
        group.note(&format!("a rigid pair, width {width}: {answer}"));
        for list in lists {
            group.check_tight(&Case::new(&draft, &[0, width], list));
        }
    };
    let good = [
        [MAX, MAX, 0, MAX],
        [0, MAX, MAX, 0],
        [1, MAX, MAX - 1, 1],
        [MAX - 1, MAX, 1, MAX - 1],
    ];
    let bad = [
        [MAX, 0, -MAX, MAX],
        [0, MIN, MIN, 0],
        [MIN, MIN, 0, MIN],
        [MAX, MAX, MAX, 0],
        [0, MAX, 0, MAX],
        [MAX, 0, 0, 0],
        [MIN, 0, 0, 0],
    ];
    add("yes", &good);
    add("no", &bad);
}

/// Adds pushes on two nodes that can stand one step closer.
fn loose_pair(group: &mut Group) {
    group.note("a pair with a minimum one below its maximum: no");
    for width in [2, WIDTH_LIMIT] {
        let draft = Draft::new(width, &[2]).separation(1, 1, width - 1, width);
        for list in [[MAX, MAX, 0, MAX], [0, MAX, MAX, 0], [1, MAX, MAX - 1, 1]] {
            group.check(&Case::new(&draft, &[0, width - 1], &list));
            group.check(&Case::new(&draft, &[0, width], &list));
        }
    }
}

/// Adds lists whose floor equals the total in 32 bits only.
fn wrapped_floors(group: &mut Group) {
    const PART: i32 = 1 << 30;
    group.note("the floor equals the total in 32 bits only: no");
    let loose = Draft::new(5, &[2]).separation(1, 1, 1, 5);
    for list in [[0, PART, PART, 0], [PART, PART, 0, PART]] {
        group.check(&Case::new(&loose, &[0, 1], &list));
    }
    let first = document::first().separation(1, 1, 1, 5);
    for list in [
        [1, -1, 0, 1 + PART, PART, 0, 0, 0],
        [1, -1, PART, 1 + PART, 0, PART, 0, 0],
    ] {
        group.check(&Case::new(&first, &[0, 1, 0], &list));
    }
    let one = Draft::new(4, &[1]);
    group.check(&Case::new(&one, &[0], &[PART, PART]));
    group.note("the floor equals the total in 40 bits only: no");
    let wide = Draft::new(1024, &[1]);
    group.check(&Case::new(&wide, &[0], &[PART, PART]));
}

/// Adds lists whose balance holds in 32 bits only; their floor equals the total.
fn wrapped_balance(group: &mut Group) {
    let draft = Draft::new(2, &[1, 3, 2])
        .separation(2, 2, 1, 1)
        .edge(1, 1, 3, STRAIGHT)
        .edge(2, 2, 1, PLAIN)
        .edge(2, 2, 2, PLAIN);
    let pulls = [-MAX, 1, 1];
    let layers = [MAX, 0, MAX, MAX, 0, 0, MAX, 0, 2, 1, 0, 0];
    group.note("the balance holds in 32 bits only: no");
    let list = [&pulls[..], &layers].concat();
    group.check_tight(&Case::new(&draft, &[2, 0, 1, 2, 1, 2], &list));
    let chain = chain(0);
    for list in [
        [MAX, -MAX, 0, MAX, 0, 2, 0, MAX],
        [-MAX, MAX, MAX, 0, 2, 0, MAX, 0],
        [MAX, 1 - MAX, 0, MAX, 0, 3, 0, MAX - 1],
    ] {
        group.check_tight(&Case::new(&chain, &[0; 3], &list));
    }
    group.note("the same edges, balanced: yes");
    for list in [
        [MAX, 1, 0, MAX, MAX - 1, 0, 1, 0],
        [MAX, 0, 0, MAX, MAX, 0, 0, 0],
        [-MAX, 0, MAX, 0, 0, MAX, 0, 0],
        [MAX, MAX, 0, MAX, MAX, MAX, MAX, 0],
        [1, -MAX + 1, MAX - 1, MAX, MAX, 0, 0, MAX - 1],
    ] {
        group.check_tight(&Case::new(&chain, &[0; 3], &list));
    }
}

/// Adds long layers, the floors of which pass 32 bits by far.
fn long_floors(group: &mut Group) {
    let places: Vec<u16> = (0..32).map(|i| i % 16 * 273).collect();
    let mut draft = Draft::new(WIDTH_LIMIT, &[16, 16]);
    for separation in draft.layers.iter_mut().flatten() {
        separation.minimum = 273;
    }
    let layer = [&[MAX][..], &[MAX, 0].repeat(15), &[MAX]].concat();
    let case = Case::new(&draft, &places, &layer.repeat(2));
    group.note("two rigid layers of 16 nodes, all pushed: yes");
    group.check_tight(&case);
    group.note("one push one less, at the left, in the middle and at the right: no");
    for i in [0, 15, 31] {
        let mut case = case.clone();
        case.list[i] -= 1;
        group.check(&case);
    }
    for separation in draft.layers.iter_mut().flatten() {
        separation.minimum = 272;
        separation.maximum = 273;
    }
    let pairs = [&[0][..], &[MAX; 30], &[0]].concat().repeat(2);
    let case = Case::new(&draft, &places, &pairs);
    group.note("room of one step between all nodes, the floor far below: no");
    group.check(&case);
    group.note("the same with zeros: yes");
    group.check_lists(&case, vec![zeros(&draft.sheet())]);
}
