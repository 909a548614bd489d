//! The cases of totals at many widths.

use super::{Call, Group};
use crate::document::{self, NO_DRAWING, ONE_NODE, REFUSED};
use crate::draft::Draft;
use crate::families::conflicts::spiral;
use crate::families::sizes::{longest_edges, longest_parallel};
use crate::families::widths::{in_width, layer};
use second::sheet::{LAYER_LIMIT, PLAIN, STRAIGHT, WIDTH_LIMIT};
use second::totals::WIDTHS_LIMIT;

/// The greatest width.
const GREATEST: u32 = WIDTH_LIMIT as u32;
/// The first number past it.
const TOO_GREAT: u32 = GREATEST + 1;

impl Group {
    /// Adds a sheet, good or bad, whose totals at widths go to a slice of this length.
    fn totals(&mut self, bytes: &[u8], widths: &[u32], room: usize) {
        self.add(Call::Totals {
            bytes: bytes.to_vec(),
            widths: widths.to_vec(),
            room,
        });
    }

    /// Adds a sheet whose totals go to a slice of just the length they need.
    fn totals_exactly(&mut self, draft: &Draft, widths: &[u32]) {
        self.totals(&draft.bytes(), widths, widths.len());
    }
}

/// The groups that are stored, in the order of the files.
pub fn stored() -> Vec<Group> {
    vec![sheets(), refusals()]
}

/// The groups that are not stored.
pub fn others() -> Vec<Group> {
    vec![widths(), limits(), extremes(), lengths(), order()]
}

/// The sheets on either side of each edge at widths on either side of their minimum widths.
fn sheets() -> Group {
    let mut group = Group::new("totals of the sheets on either side of each edge");
    group.note(
        "T ROOM COUNT WIDTHS BYTES writes the totals at so many widths into a slice of so many,",
    );
    group.note("each a5a5a5a5 before; ffffffff stands for a width without a drawing");
    let stair = document::stair(3, PLAIN);
    group.note("stair at 0, 1, 2, 3 and 4, exact room and 2 more");
    group.totals_exactly(&stair, &[0, 1, 2, 3, 4]);
    group.totals(&stair.bytes(), &[0, 1, 2, 3, 4], 7);
    group.note("the same in width 0, at widths that fall and repeat");
    group.totals_exactly(&document::stair(0, PLAIN), &[3, 2, 1, 1, 0, 2, 4095]);
    group.note("stair, second edge straight, at 0, 1, 2, 3 and 4");
    group.totals_exactly(&document::stair(1, STRAIGHT), &[0, 1, 2, 3, 4]);
    group.note("first sheet at 5 and 0");
    group.totals_exactly(&document::first(), &[5, 0]);
    group.note("layers of two and three, upper maximum 0 and 1, at 1, 2 and 3");
    for maximum in [0, 1] {
        group.totals_exactly(&document::two_over_three(maximum), &[1, 2, 3]);
    }
    group.note("one node over three at 1, 2 and 3");
    group.totals_exactly(&document::one_over_three(), &[1, 2, 3]);
    group.note("crossing straight edges at 4,095, 0 and 1");
    group.totals_exactly(&document::crossing(), &[4095, 0, 1]);
    group.note("a sheet without a drawing at its own width");
    group.totals(&NO_DRAWING, &[0, 1], 2);
    group.note("no widths, exact room and 2 more");
    group.totals(&ONE_NODE, &[], 0);
    group.totals(&ONE_NODE, &[], 2);
    group.note("64 widths");
    group.totals(&ONE_NODE, &[0; WIDTHS_LIMIT], WIDTHS_LIMIT);
    group
}

/// The table of refusals.
fn refusals() -> Group {
    let mut group = Group::new("totals and the table of refusals");
    group.note("1 to 6 of the sheet, before 4 and 7, and a cut-off sheet without widths: refused");
    for (_, bytes) in REFUSED {
        group.totals(bytes, &[TOO_GREAT], 0);
    }
    group.totals(&ONE_NODE[..6], &[], 0);
    group.note("11: 65 widths, the first too great, no room: refused");
    group.totals(&ONE_NODE, &with(TOO_GREAT, 0, 65), 0);
    group.note("4: 4,096, 65,541 and 4,294,967,295 behind a good width: refused");
    for width in [TOO_GREAT, 65_541, u32::MAX] {
        group.totals(&ONE_NODE, &[5, width], 2);
    }
    group.note("4 before 7: refused");
    group.totals(&ONE_NODE, &[5, 5, TOO_GREAT], 1);
    group.note("7: slices of 2 and 0 for three widths: refused");
    group.totals(&ONE_NODE, &[5, 0, 5], 2);
    group.totals(&ONE_NODE, &[5, 0, 5], 0);
    group
}

/// So many widths of 5, with another one at an index.
fn with(width: u32, at: usize, count: usize) -> Vec<u32> {
    let mut widths = vec![5; count];
    widths[at] = width;
    widths
}

/// The same sheet in every kind of width of its own, which is read and does not count.
fn widths() -> Group {
    let mut group = Group::new("totals of sheets in several widths");
    for (name, draft) in document::sheets() {
        group.note(&name);
        group.totals_exactly(&draft, &[0, 1, 2, 3, 4, 5, 127, 128, GREATEST]);
        for own in [0, 2, WIDTH_LIMIT] {
            let widths = [GREATEST, 2, 1, 2, own.into()];
            group.totals_exactly(&in_width(&draft, own), &widths);
        }
    }
    for traced in document::traced() {
        group.note(traced.name);
        group.totals_exactly(&traced.draft, &[4, 3, 2, 1, 0]);
    }
    group.note("a width of the sheet that is outside its limits or badly written: refused");
    for width in [[0x80, 0x20], [0x80, 0x80], [0x80, 0x00]] {
        let sheet = [&ONE_NODE[..3], &width, &ONE_NODE[4..]].concat();
        group.totals(&sheet, &[5], 1);
        group.totals(&sheet, &[], 0);
    }
    group
}

/// Counts and widths on either side of each limit.
fn limits() -> Group {
    let mut group = Group::new("totals at the limits of lists and widths");
    let stair = document::stair(2, PLAIN).bytes();
    group.note("1, 2, 63 and 64 widths, rising and all the same");
    for count in [1, 2, 63, 64] {
        let rising: Vec<u32> = (0..count as u32).collect();
        group.totals(&stair, &rising, count);
        group.totals(&stair, &vec![2; count], count);
    }
    group.note("65, 66 and 128 widths, all good or too great, in any slice: refused");
    for count in [65, 66, 128] {
        for (widths, room) in [
            (vec![2; count], count),
            (vec![2; count], 0),
            (vec![TOO_GREAT; count], count),
        ] {
            group.totals(&stair, &widths, room);
        }
    }
    group.note("widths up to the greatest");
    for width in [0, 1, 127, 128, 4094, GREATEST] {
        group.totals(&stair, &[width], 1);
    }
    group.note("wider ones, whose lower bits may be good: refused");
    for width in [
        TOO_GREAT,
        TOO_GREAT + 2,
        16_383,
        16_384,
        65_535,
        65_536,
        65_538,
        65_541,
        1 << 24,
        1 << 31,
        (1 << 31) + 2,
        u32::MAX - 1,
        u32::MAX,
    ] {
        group.totals(&stair, &[width], 1);
        group.totals(&stair, &[1, 2, width, 2], 4);
    }
    group.note("one of 64 too great, at several indices: refused");
    for at in [0, 1, 31, 62, 63] {
        group.totals(&stair, &with(TOO_GREAT, at, 64), 64);
    }
    group.note("several too great, of which the first is told: refused");
    group.totals(&stair, &[1, u32::MAX, TOO_GREAT], 3);
    group.totals(&stair, &[TOO_GREAT, 1, u32::MAX], 3);
    group
}

/// Sheets with extreme numbers.
fn extremes() -> Group {
    let mut group = Group::new("totals of sheets with extreme numbers");
    group.note("512 edges about as long as the greatest width, no two parallel");
    group.totals_exactly(&longest_edges(), &[4094, GREATEST]);
    group.note("512 parallel edges as long as the greatest width");
    group.totals_exactly(&longest_parallel(), &[GREATEST, 4094, 0]);
    group.note("layers that need 4,095 and 4,096");
    group.totals_exactly(&layer(&[4094, 1]), &[4094, GREATEST]);
    group.totals_exactly(&layer(&[4095, 1]), &[4094, GREATEST]);
    group.note("64 nodes in one layer");
    group.totals_exactly(&Draft::new(0, &[64]), &[62, 63, 64]);
    group.note("spirals of straight edges that just close and that miss by 1");
    for missing in [0, 1] {
        let spiral = spiral(&[1; LAYER_LIMIT as usize], missing);
        group.totals_exactly(&spiral, &[GREATEST, 64, 65, 66]);
    }
    group
}

/// Slices that are too short, exact and longer.
fn lengths() -> Group {
    let mut group = Group::new("totals in slices of every length");
    let stair = document::stair(2, PLAIN).bytes();
    for count in [0, 1, 2, 5] {
        let widths: Vec<u32> = (0..count as u32).collect();
        group.note(&format!("{count} widths, exact and longer"));
        for more in [0, 1, 2, 9] {
            group.totals(&stair, &widths, count + more);
        }
        if count > 0 {
            group.note(&format!("{count} widths, too short: refused"));
        }
        for room in 0..count {
            group.totals(&stair, &widths, room);
        }
    }
    group.note("64 widths, one short: refused");
    group.totals(&stair, &[2; WIDTHS_LIMIT], WIDTHS_LIMIT - 1);
    group
}

/// Refusals that come before others.
fn order() -> Group {
    let mut group = Group::new("the order of refusals, totals");
    group.note("1 to 6 of the sheet before 11 and 7: refused");
    for (_, bytes) in REFUSED {
        group.totals(bytes, &with(TOO_GREAT, 64, 65), 0);
        group.totals(bytes, &[5, 0], 0);
    }
    group.note("1 to 6 of the sheet, without widths: refused");
    for (_, bytes) in REFUSED {
        group.totals(bytes, &[], 0);
    }
    group.note("inputs without a sheet: refused");
    for bytes in [&[][..], &[0x53], &[0x53, 0x50, 0x31]] {
        group.totals(bytes, &[5], 1);
        group.totals(bytes, &[], 0);
    }
    group.note("11 before 4 and 7, and 4 before 7, of a sheet without a drawing: refused");
    let crossing = document::crossing().bytes();
    group.totals(&crossing, &with(TOO_GREAT, 64, 65), 0);
    group.totals(&crossing, &with(TOO_GREAT, 63, 64), 0);
    group.totals(&crossing, &with(TOO_GREAT, 63, 64), 63);
    group.totals(&crossing, &[5; 64], 63);
    group
}
