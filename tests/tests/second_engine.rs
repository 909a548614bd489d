//! The second implementation's engine: document 01's answers and refusals, and sheets that have a
//! drawing.

use second::certificate;
use second::checker::check;
use second::drawing::Sheet;
use second::engine;
use second::refusal::Refusal;
use second::sheet::STRAIGHT;
use strip_tests::document::{self, NO_DRAWING, ONE_NODE, REFUSED};
use strip_tests::draft::Draft;
use strip_tests::planted::{planted, Plan};
use strip_tests::random::Random;

/// What the slices hold before a call.
const BEFORE: (u16, i32) = (0xa5a5, -7);

/// A total and the places it was found with; or number and offset of the refusal.
type Answer = Result<(u32, Vec<u16>), (u32, usize)>;

/// Draws into slices of these lengths, and checks what is kept and that the checker says yes.
fn draw(bytes: &[u8], places: usize, list: usize) -> Answer {
    let mut places = vec![BEFORE.0; places];
    let mut list = vec![BEFORE.1; list];
    match engine::draw(bytes, &mut places, &mut list) {
        Ok(total) => {
            let sheet = Sheet::from_bytes(bytes).expect("a good sheet");
            assert_eq!(check(bytes, &places, &list), Ok(true));
            let kept = list.split_off(certificate::length(&sheet));
            assert!(kept.iter().all(|&n| n == BEFORE.1));
            let kept = places.split_off(sheet.node_count());
            assert!(kept.iter().all(|&place| place == BEFORE.0));
            Ok((total, places))
        }
        Err(Refusal { number, offset }) => {
            assert!(places.iter().all(|&place| place == BEFORE.0));
            assert!(list.iter().all(|&n| n == BEFORE.1));
            Err((number, offset))
        }
    }
}

/// Draws a sheet into slices of just the lengths it needs.
fn draw_exactly(draft: &Draft) -> Answer {
    let sheet = draft.sheet();
    let list = certificate::length(&sheet);
    draw(&draft.bytes(), sheet.node_count(), list)
}

#[test]
fn sheets_of_the_document_get_its_answers() {
    let answers: [Option<(u32, &[u16])>; 12] = [
        Some((1, &[0, 1, 0])),
        None,
        Some((2, &[0, 1, 0, 1, 0, 1])),
        Some((1, &[0, 1, 0, 1, 1, 2])),
        Some((0, &[0, 1, 1, 2, 2, 3])),
        None,
        Some((1, &[0, 1, 0, 1, 1, 2])),
        None,
        Some((1, &[0, 1, 0, 1, 2])),
        Some((0, &[0, 2, 0, 1, 2])),
        Some((2, &[0, 0, 1, 2])),
        Some((0, &[0])),
    ];
    let sheets = document::sheets();
    assert_eq!(sheets.len(), answers.len());
    for ((name, draft), answer) in sheets.iter().zip(answers) {
        let expected = match answer {
            Some((total, places)) => Ok((total, places.to_vec())),
            None => Err((8, 0)),
        };
        assert_eq!(draw_exactly(draft), expected, "{name}");
    }
}

#[test]
fn refusals_of_the_document() {
    let offsets = [2, 0, 3, 4, 7, 7];
    for ((number, (name, bytes)), offset) in (1..).zip(REFUSED).zip(offsets) {
        assert_eq!(draw(bytes, 9, 9), Err((number, offset)), "{name}");
        assert_eq!(draw(bytes, 0, 0), Err((number, offset)), "{name}");
    }
    assert_eq!(draw(&ONE_NODE, 0, 2), Err((7, 0)));
    assert_eq!(draw(&ONE_NODE, 1, 1), Err((7, 0)));
    assert_eq!(draw(&ONE_NODE, 1, 2), Ok((0, vec![0])));
    assert_eq!(draw(&NO_DRAWING, 2, 4), Err((8, 0)));
    assert_eq!(draw(&NO_DRAWING, 1, 4), Err((7, 0)));
    assert_eq!(draw(&NO_DRAWING, 2, 3), Err((7, 0)));
}

#[test]
fn planted_sheets_have_drawings() {
    let mut random = Random::new(36);
    let (mut long, mut straight, mut limited) = (0, 0, 0);
    for i in 0..300 {
        let plan = Plan {
            layers: 1 + i % 7,
            nodes: 7 + i % 20,
            edges: 2 * (i % 20),
            distance: 1 + i % 9,
            play: i % 5,
            margin: i % 11,
            straight: 1 + i % 3,
            maximum: 1 + i % 4,
        };
        let draft = planted(&mut random, &plan);
        let (total, _) = draw_exactly(&draft).expect("a drawing");
        long += usize::from(total > 0);
        straight += usize::from(draft.edges.iter().any(|edge| edge.kind == STRAIGHT));
        let mut separations = draft.layers.iter().flatten();
        limited += usize::from(separations.any(|pair| pair.maximum > 0));
    }
    assert!(long > 100 && straight > 100 && limited > 200);
}
