//! Comparing totals at many widths.

use crate::format::{lent, same};
use crate::narrowest::in_width;
use crate::{drawing, seed, Library};
use second::refusal::{Refusal, NO_DRAWING};
use second::sheet::WIDTH_LIMIT;
use second::totals::{Totals, NO_TOTAL, WIDTHS_LIMIT};
use strip_tests::random::Random;

/// What every element holds before a call.
const FILL: u32 = 0xa5a5_a5a5;
/// One good sheet in so many gets a list of 64 widths.
pub const SHARE: u16 = 16;
/// The first number past the limit of a width.
const TOO_GREAT: u32 = WIDTH_LIMIT as u32 + 1;

/// How many lists of 64 widths have been compared, and how many entries of all lists.
#[derive(Clone, Copy, Debug, Default)]
pub struct Entries {
    pub full_lists: usize,
    /// Entries that are totals.
    pub totals: usize,
    /// Entries for widths without a drawing.
    pub without: usize,
}

impl Entries {
    /// Counts the entries of a list.
    pub fn count(&mut self, entries: &[u32]) {
        let without = entries.iter().filter(|&&entry| entry == NO_TOTAL).count();
        self.without += without;
        self.totals += entries.len() - without;
        self.full_lists += usize::from(entries.len() == WIDTHS_LIMIT);
    }

    /// The counts as the page has them.
    pub fn row(&self) -> [usize; 3] {
        [self.full_lists, self.totals, self.without]
    }

    /// Takes the counts of another sheet.
    pub fn add(&mut self, other: &Entries) {
        self.full_lists += other.full_lists;
        self.totals += other.totals;
        self.without += other.without;
    }
}

/// Compares the totals at widths in slices of this length, and gives them.
pub fn into(
    library: &impl Library,
    bytes: &[u8],
    widths: &[u32],
    room: usize,
) -> Result<Vec<u32>, Refusal> {
    asked(library, bytes, &mut Totals::of(bytes), widths, room)
}

/// The same for a sheet that the second implementation has read, which draws each width once.
fn asked(
    library: &impl Library,
    bytes: &[u8],
    sheet: &mut Result<Totals, Refusal>,
    widths: &[u32],
    room: usize,
) -> Result<Vec<u32>, Refusal> {
    same(
        lent(FILL, room, |slice| library.totals(bytes, widths, slice)),
        lent(FILL, room, |slice| match sheet {
            Ok(sheet) => sheet.write(widths, slice),
            Err(refusal) => Err(*refusal),
        }),
        || format!("totals of {bytes:02x?} at {widths:?}, length {room}"),
    )
}

/// Compares the totals of bytes that are not a sheet, which is told whatever the widths are.
pub fn bad(library: &impl Library, bytes: &[u8]) {
    let mut random = Random::new(seed(bytes));
    let mut lists = refused(&mut random);
    lists.extend([(vec![], 0), (vec![5, 0], 0), (vec![5, 0], 5)]);
    for (widths, room) in lists {
        let answer = into(library, bytes, &widths, room);
        assert!(answer.is_err(), "totals of {bytes:02x?}");
    }
}

/// Compares the totals of a good sheet with these numbers at widths of several lists, in slices that are
/// exact, longer, one short and empty, and lists that are refused. Each entry must be what the library
/// draws for the sheet with that width.
pub fn good(
    library: &impl Library,
    bytes: &[u8],
    numbers: &[u16],
    minimum: Option<u16>,
) -> Entries {
    let mut random = Random::new(seed(bytes));
    let mut sheet = Totals::of(bytes);
    let mut entries = Entries::default();
    for widths in lists(&mut random, numbers[0], minimum) {
        let exact = widths.len();
        let mut into = |room| asked(library, bytes, &mut sheet, &widths, room);
        entries.count(&into(exact).expect("a list to be taken"));
        for room in [exact + 3, exact.saturating_sub(1), 0] {
            let answer = into(room);
            assert_eq!(answer.is_ok(), room >= exact, "{widths:?}, length {room}");
        }
    }
    for (widths, room) in refused(&mut random) {
        let answer = asked(library, bytes, &mut sheet, &widths, room);
        assert!(answer.is_err(), "{widths:?}, length {room}");
    }
    for (width, entry) in sheet.iter().flat_map(Totals::known) {
        let expected = match entry {
            NO_TOTAL => Err(Refusal::new(NO_DRAWING, 0)),
            total => Ok(total),
        };
        let found = drawing::total(library, &in_width(numbers, width));
        assert_eq!(found, expected, "at width {width}, {bytes:02x?}");
    }
    entries
}

/// Lists of none, one and two widths, and for some sheets one of 64.
fn lists(random: &mut Random, own: u16, minimum: Option<u16>) -> Vec<Vec<u32>> {
    let is_full = random.once_in(SHARE);
    let mut width = || u32::from(any_width(random, own, minimum.unwrap_or(own)));
    let (one, other) = (width(), width());
    let mut lists = vec![vec![], vec![one], vec![other, one]];
    if is_full {
        let widths = (0..WIDTHS_LIMIT).map(|_| width()).collect();
        lists.push(full_list(random, widths));
    }
    lists
}

/// 64 widths, all of those given or the first few again and again: as they come, or falling.
fn full_list(random: &mut Random, widths: Vec<u32>) -> Vec<u32> {
    let different = [3, 10, WIDTHS_LIMIT][random.index(3)];
    let again = widths[..different].iter().copied().cycle();
    let mut list: Vec<u32> = again.take(WIDTHS_LIMIT).collect();
    if random.once_in(2) {
        list.sort_by(|one, other| other.cmp(one));
    }
    list
}

/// A width: at or around the minimum, 0, the greatest, the sheet's own, or any.
fn any_width(random: &mut Random, own: u16, minimum: u16) -> u16 {
    let most = 1 << random.within(0..=11);
    let beside = random.within(0..=most);
    match random.within(0..=7) {
        0 => 0,
        1 => WIDTH_LIMIT,
        2 => own,
        3 => random.within(0..=WIDTH_LIMIT),
        4 => minimum,
        5 => minimum.saturating_sub(beside),
        _ => (minimum + beside).min(WIDTH_LIMIT),
    }
}

/// Lists that are refused, with the lengths of their slices: more than 64 widths, all good or one too
/// great; one of 64 too great, any or the last, in a slice that is too short or not; two too great; and
/// one that is good but for its upper 16 bits.
fn refused(random: &mut Random) -> Vec<(Vec<u32>, usize)> {
    let too_great = match random.within(0..=3) {
        0 => TOO_GREAT,
        1 => NO_TOTAL,
        _ => TOO_GREAT + random.signed() as u32 % (NO_TOTAL - TOO_GREAT),
    };
    let good: Vec<u32> = (0..=WIDTHS_LIMIT)
        .map(|_| random.within(0..=WIDTH_LIMIT).into())
        .collect();
    let with = |at: usize| {
        let mut widths = good.clone();
        widths[at] = too_great;
        widths
    };
    let (first, second) = (random.index(WIDTHS_LIMIT), random.index(WIDTHS_LIMIT));
    let mut both = with(first);
    both[second] = TOO_GREAT;
    let last = WIDTHS_LIMIT - 1;
    vec![
        (good.clone(), good.len()),
        (with(first), random.index(good.len())),
        (with(first)[..=last].to_vec(), random.index(WIDTHS_LIMIT)),
        (with(last)[..=last].to_vec(), WIDTHS_LIMIT),
        (both[..=last].to_vec(), WIDTHS_LIMIT),
        (vec![good[0], 65_536 + good[1]], 2),
    ]
}
