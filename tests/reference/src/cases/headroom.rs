//! The limits of a header's fourth number H, each on both sides, as a fixed list of texts.

use super::damage::{FIELDS, POWERS};
use super::limits::{as_both, past_power, Pair, FEW};

/// Headers that a fourth field is put behind: F, W and L at both ends of their ranges and between.
const HEADERS: [&str; 20] = [
    "60 20 1", "60 20 2", "60 20 3", "60 20 60", "60 60 1", "60 60 60", "60 1 1", "60 1 60", "59 60 2", "59 60 60", "1 1 1",
    "1 1 60", "1 60 60", "2 2 2", "10 60 7", "30 30 30", "45 15 5", "20 5 9", "9 9 9", "50 25 4",
];
/// The ends of the range of H and the first numbers outside, what is no number, numbers of many digits, numbers that are legal modulo a power of
/// two, and a fifth field.
const FOURTH: [&str; 21] = [
    "0",
    "1",
    "60",
    "61",
    "",
    "01",
    "060",
    "-1",
    "-60",
    "+1",
    "x",
    "99999999999",
    "100000000000",
    "999999999999",
    "65537",
    "4294967356",
    "5 5",
    "5 61",
    "5 ",
    " 5",
    "61 x",
];
/// Circuits and schedules, most of which some H just leaves room for.
const WORKED: [&str; 12] = [
    "@ 60 20 1 H/in/mul 0 0/",
    "@ 60 20 1 H/in/neg 0/rot 1 3/add 1 2/out 3/",
    "@ 60 20 2 H/in/mul 0 0/mul 1 1/mul 2 2/",
    "@ 60 20 2 H/in/const 7/mul 0 1/mul 2 1/mul 3 3/out 4/",
    "@ 60 20 2 H/in/const 7/enc 1 20 2/mul 0 2/enc 1 20 2/mul 3 4/us 5 20/rs 6 1/us 5 20/rs 8 1/mul 7 9/out 10/",
    "@ 60 20 2 H/in/us 0 60/rs 1 1/",
    "@ 60 20 2 H/in/us 0 59/rs 1 1/",
    "@ 60 20 3 H/in/ds 0/ds 1/",
    "@ 30 20 3 H/in/const 7/add 0 1/mul 2 0/",
    "@ 60 20 2 H/const 7/const 8/",
    // The last product has 20 bits, of operands with unequal m's.
    "@ 60 20 2 H/in/const 7/mul 0 1/mul 2 1/mul 3 1/mul 0 4/",
    // H = 60 just fits.
    "@ 60 60 2 H/in/us 0 1/",
];

/// Every case of the list.
pub fn limits(list: &mut Vec<Pair>) {
    fields(list);
    pairs_of_fields(list);
    for headroom in 1..=60 {
        let number = headroom.to_string();
        list.extend(WORKED.map(|shown| as_both(&shown.replace('H', &number))));
        list.extend(just_fitting(headroom, 0));
        list.extend(just_fitting(headroom, 1));
        list.extend(products(headroom));
        list.extend(of_another(headroom));
    }
}

/// Every fourth field, and those at a limit behind other headers.
fn fields(list: &mut Vec<Pair>) {
    for field in FIELDS {
        list.push(as_both(&format!("@ 60 20 2 {field}/in/")));
        list.push(as_both(&format!("@ 60 20 2 {field}")));
    }
    for number in POWERS.into_iter().flat_map(|power| ["1", "2", "60"].map(|number| past_power(number, power))) {
        list.push(as_both(&format!("@ 60 20 2 {number}/in/")));
    }
    for header in HEADERS {
        list.extend(FOURTH.map(|field| as_both(&format!("@ {header} {field}/in/out 0/"))));
    }
}

/// Two fields at once, the fourth among them: form comes before range.
fn pairs_of_fields(list: &mut Vec<Pair>) {
    for one in FEW {
        for other in FEW {
            list.push(as_both(&format!("@ 60 20 {one} {other}/in/")));
            list.push(as_both(&format!("@ {one} 20 2 {other}/x/")));
            list.push(as_both(&format!("@ 60 {one} 2 {other}/in/")));
            list.push(as_both(&format!("@ 60 20 2 {one} {other}/in/")));
        }
    }
}

/// Lines of each kind, and best reserves, for which there is just room beside an H where `past` is 0, and one bit too little where it is 1; an H of 60
/// leaves no waterline. A `ds` stands in listings alone.
fn just_fitting(headroom: i32, past: i32) -> [Pair; 8] {
    // At F = 60 a scale of this leaves H bits at level 1, and no more.
    let scale = 60 - headroom + past;
    [
        format!("@ 60 {scale} 1 {headroom}/in/out 0/"),
        format!("@ 60 {scale} 2 {headroom}/in/const 5/enc 1 {scale} 1/"),
        format!("@ 60 {scale} 2 {headroom}/in/ms 0 1/"),
        format!("@ 60 {scale} 2 {headroom}/in/ds 0/neg 1/"),
        format!("@ 60 20 2 {headroom}/in/us 0 {}/neg 1/", 40 + scale),
        format!("@ 60 20 2 {headroom}/in/us 0 {}/mul 0 1/out 2/", 20 + scale),
        // No level is left above this one.
        format!("@ 1 {scale} 60 {headroom}/in/"),
        format!("@ 1 {scale} 1 {headroom}/const 5/in/add 1 0/out 2/"),
    ]
    .map(|shown| as_both(&shown))
}

/// Products that leave just H bits where it is even, and one bit too little where it is odd.
fn products(headroom: i32) -> [Pair; 2] {
    let waterline = (61 - headroom) / 2;
    ["in/mul 0 0/", "in/const 7/mul 0 1/"].map(|lines| as_both(&format!("@ 60 {waterline} 1 {headroom}/{lines}")))
}

/// An H in one file alone, and another one in each.
fn of_another(headroom: i32) -> [Pair; 3] {
    let of = |number: String| as_both(&format!("@ 60 20 2{number}/in/out 0/"));
    let [with, other, without] = [format!(" {headroom}"), format!(" {}", 61 - headroom), String::new()];
    [[&with, &without], [&without, &with], [&with, &other]]
        .map(|[one, other]| Pair { circuit: of(one.clone()).circuit, schedule: of(other.clone()).schedule })
}
