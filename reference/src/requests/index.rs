//! Fixed questions about the index of the difference, or of inclusion's piece, that decided. Their
//! answers are worked out by hand, or from how the question is put together.

use crate::cases::{case, Case};
use crate::notation::{c, f, h, r, w1};

pub fn all() -> Vec<Case> {
    let members = [every_holder(), late_holders(), member_widths()];
    let regions = [every_boundary(), late_members(), empty_widths()];
    let cuts = [every_sequence(), every_cut()];
    let inclusions = [first_piece(), long_first_piece(), inclusion_widths()];
    let told = [written(), looked_up(), cubes()];
    let faults = [cube_faults(), record_faults(), file_faults(), full_files()];
    let refusals = [great_results(), plain_refusals(), no_such_cube()];
    let decided = members.into_iter().chain(regions).chain(cuts).chain(inclusions);
    let undecided = told.into_iter().chain(faults).chain(refusals);
    let readings = [settled(), whole_lines(), exercises()];
    let all = readings.into_iter().chain(decided).chain(undecided);
    all.flatten().collect()
}

/// The cases that tell the readings apart.
fn settled() -> Vec<Case> {
    let (one, covered) = (r("1*", &[]), r("1*", &["**"]));
    let first_covered = f(2, &[covered.clone(), r("**", &[])]);
    let halves = f(2, &[one.clone(), r("0*", &[])]);
    let skipping = format!("{one} {}", r("1*", &["00", "0*", "11"]));
    vec![
        case("B12", format!("diff_member 2 {one} {}", h("10")), "1 0 0 0 0 0 -"),
        case("B12", format!("diff_member 2 {one} {}", h("00")), "2 0 0 0 0 65535 -"),
        case("B12", format!("diff_empty 2 {one} 9 1"), "2 0 0 1 1 0 80"),
        case("B12", format!("diff_empty 2 {covered} 9 1"), "1 0 0 1 0 65535 -"),
        case("B12", format!("diff_empty 2 {one} 0 1"), "3 0 0 0 0 0 -"),
        case("B12", format!("ceiling 2 {one}"), "0 0 0 1 0 65535 -"),
        case("B13", format!("view {halves} 1 0"), "1 0 0 0 0 65535 7F 17"),
        case("B13", format!("region_tidy {}02000200 99", f(2, &[one])), "17 1 12 0 0 65535 -"),
        case("B14", format!("region_empty {first_covered} 1 1"), "3 0 0 1 0 1 -"),
        case("B14", format!("region_empty {first_covered} 0 1"), "3 0 0 0 0 0 -"),
        case("B14", format!("region_empty {} 0 1", w1(2)), "1 0 0 0 0 65535 -"),
        case("B15", format!("diff_in 2 {skipping} 9 1"), "2 0 0 2 1 3 C0"),
        case("B15", format!("diff_in 2 {skipping} 1 1"), "3 0 0 1 0 3 -"),
        case("B72", format!("cube_in 2 {} {}", c("1*"), c("**")), "1 0 0 0 0 65535 -"),
    ]
}

/// A line of each sort, spelled out.
fn whole_lines() -> Vec<Case> {
    vec![
        case("B12", "region_member 0400010002000400020000FF 80", "1 0 0 0 0 0 -"),
        case("B13", "view 0400010002000400020000FF 0 0", "1 0 0 0 0 65535 FF 11"),
        case("B13", "read_on 0400010002000400020000FF 0", "1 0 6 0 0 65535 12"),
    ]
}

/// What docs/TRAINING.md asks beside these: 11 is in differences 0 and 2, and 01 is in 1 and 2.
fn exercises() -> Vec<Case> {
    let three = f(2, &[r("1*", &[]), r("**", &["11"]), r("*1", &[])]);
    let one = f(2, &[r("1*", &[])]);
    let first_covered = f(2, &[r("1*", &["**"]), r("**", &[])]);
    vec![
        case("B12", format!("region_member {three} {}", h("11")), "1 0 0 0 0 0 -"),
        case("B12", format!("region_member {three} {}", h("01")), "1 0 0 0 0 1 -"),
        case("B12", format!("region_member {one} {}", h("00")), "2 0 0 0 0 65535 -"),
        case("B14", format!("region_empty {first_covered} 2 1"), "2 0 0 2 1 1 00"),
    ]
}

/// Membership's answer, by the first difference that holds the header.
fn held(first: Option<usize>) -> String {
    match first {
        Some(index) => format!("1 0 0 0 0 {index} -"),
        None => "2 0 0 0 0 65535 -".to_string(),
    }
}

/// Each choice of those among five differences that hold the header 1000. The others have it in a
/// cut, or not even in their base.
fn every_holder() -> Vec<Case> {
    let holding: [(&str, &[&str]); 5] = [
        ("1***", &[]),
        ("1***", &["11**"]),
        ("****", &[]),
        ("*0**", &["0***"]),
        ("1000", &["0000"]),
    ];
    let other: [(&str, &[&str]); 5] = [
        ("0***", &[]),
        ("1***", &["10**"]),
        ("1111", &[]),
        ("****", &["11**", "1000"]),
        ("1***", &["1***"]),
    ];
    let asked = |choice: usize| {
        let chosen = |i: &usize| choice >> i & 1 == 1;
        let drawings = (0..5).map(|i| if chosen(&i) { holding[i] } else { other[i] });
        let records: Vec<String> = drawings.map(|(base, cuts)| r(base, cuts)).collect();
        let question = format!("region_member {} {}", f(4, &records), h("1000"));
        case("B12", question, held((0..5).find(chosen)))
    };
    (0..32).map(asked).collect()
}

/// A file of 256 records, this one but for those at some places.
fn full(w: u16, record: &str, other: &str, places: &[usize]) -> String {
    let at = |i: usize| if places.contains(&i) { other } else { record };
    w1(w) + &(0..256).map(at).collect::<String>()
}

/// Of 256 differences one holds the header, the last two or all from one on do, or none does.
fn late_holders() -> Vec<Case> {
    let asked = |places: &[usize], first| {
        let file = full(4, &r("0***", &[]), &r("1***", &[]), places);
        case("B12", format!("region_member {file} {}", h("1000")), held(first))
    };
    let one = |place: usize| asked(&[place], Some(place));
    let from = |place: usize| asked(&Vec::from_iter(place..256), Some(place));
    let others = [from(3), from(254), asked(&[], None)];
    [0, 1, 127, 128, 254, 255].map(one).into_iter().chain(others).collect()
}

/// The widths of the cases: the least and the greatest, whole bytes, and one position more.
const WIDTHS: [usize; 5] = [1, 4, 8, 9, 320];

/// 0..0, then 1..1 with all of it cut, then all but 0..0 twice. So 0..0 is in difference 0 alone,
/// and 1..1 in 2 and 3.
fn member_widths() -> Vec<Case> {
    let asked = |w: usize| {
        let [free, zeros, ones] = ["*", "0", "1"].map(|value| value.repeat(w));
        let last = r(&free, &[&zeros]);
        let records = [r(&zeros, &[]), r(&ones, &[&free]), last.clone(), last];
        let file = f(w as u16, &records);
        let [zeros, ones] = [zeros, ones].map(|header| h(&header));
        [
            case("B12", format!("region_member {file} {zeros}"), held(Some(0))),
            case("B12", format!("region_member {file} {ones}"), held(Some(2))),
            case("B12", format!("diff_member {w} {} {ones}", records[3]), held(Some(0))),
            case("B12", format!("diff_member {w} {} {zeros}", records[3]), held(None)),
        ]
    };
    WIDTHS.into_iter().flat_map(asked).collect()
}

/// A difference or piece that is walked: its index, how many pieces its own walk has, and the
/// header that the last of them shows, unless all are covered.
type Walked<'a> = (usize, usize, Option<&'a str>);

/// A walk's answer: each is paid in full or decides, and the first that shows a header decides.
fn walk(walked: &[Walked], allowance: usize) -> String {
    let mut count = 0;
    for (index, pieces, shown) in walked {
        count += pieces;
        if count > allowance {
            return format!("3 0 0 {allowance} 0 {index} -");
        }
        if let Some(header) = shown {
            return format!("2 0 0 {count} {} {index} {}", header.len().div_ceil(8), h(header));
        }
    }
    format!("1 0 0 {count} 0 65535 -")
}

/// A free base whose walk has so many pieces: each cut but the last leaves one piece to the next,
/// `0***` after `1***`, then `00**` after `01**`. The last cut covers what is left, or there is
/// none and 0..0 is shown.
fn chain(w: usize, pieces: usize, shows: bool) -> String {
    let cut = |i: usize| "0".repeat(i) + "1" + &"*".repeat(w - i - 1);
    let mut cuts: Vec<String> = (0..pieces - 1).map(cut).collect();
    if !shows {
        cuts.push("0".repeat(pieces - 1) + &"*".repeat(w + 1 - pieces));
    }
    let cuts: Vec<&str> = cuts.iter().map(String::as_str).collect();
    r(&"*".repeat(w), &cuts)
}

/// A region of differences with so many pieces each. One of them shows 0..0, or none does.
fn chains(w: usize, pieces: &[usize], shows: Option<usize>, allowance: usize) -> Case {
    let zeros = "0".repeat(w);
    let record = |(i, &pieces): (usize, &usize)| chain(w, pieces, shows == Some(i));
    let records: Vec<String> = pieces.iter().enumerate().map(record).collect();
    let each = |(i, &pieces)| (i, pieces, (shows == Some(i)).then_some(zeros.as_str()));
    let walked: Vec<Walked> = pieces.iter().enumerate().map(each).collect();
    let room = w.div_ceil(8);
    let question = format!("region_empty {} {allowance} {room}", f(w as u16, &records));
    case("B14", question, walk(&walked, allowance))
}

/// Every allowance up to one more than all pieces, with every difference as the one that shows a
/// header, and with none.
fn every_boundary() -> Vec<Case> {
    let lists: [&'static [usize]; 3] = [&[2], &[2, 1, 3], &[1, 2, 1, 3, 1]];
    let asked = |pieces: &'static [usize]| {
        let shows = (0..pieces.len()).map(Some).chain([None]);
        let allowances = 0..pieces.iter().sum::<usize>() + 2;
        shows.flat_map(move |shows| allowances.clone().map(move |a| chains(4, pieces, shows, a)))
    };
    lists.into_iter().flat_map(asked).collect()
}

/// 256 differences that cost one piece each, of which one shows 0000 or none does.
fn late_members() -> Vec<Case> {
    let asked = |shows: Option<usize>, allowance: usize| chains(4, &[1; 256], shows, allowance);
    vec![
        asked(Some(0), 1),
        asked(Some(1), 4_294_967_295),
        asked(Some(127), 127),
        asked(Some(128), 129),
        asked(Some(254), 255),
        asked(Some(255), 256),
        asked(Some(255), 255),
        asked(Some(255), 128),
        asked(None, 256),
        asked(None, 255),
    ]
}

/// The longest chain of each width, or a shorter one of the greatest, between two short ones, with
/// allowances inside them and at their ends.
fn empty_widths() -> Vec<Case> {
    let asked = |w: usize| {
        let longest = if w > 9 { 3 } else { w + 1 };
        let pieces = [2, longest, 1];
        let ends = [0, 1, 2, longest + 1, longest + 2, longest + 3];
        let each = move |shows| ends.map(|allowance| chains(w, &pieces, shows, allowance));
        [Some(1), None].into_iter().flat_map(each)
    };
    WIDTHS.into_iter().flat_map(asked).collect()
}

/// Whether the first of two records is in the second.
fn inclusion(w: usize, records: &[String; 2], walked: &[Walked], allowance: usize) -> Case {
    let [first, second] = records;
    let room = w.div_ceil(8);
    let question = format!("diff_in {w} {first} {second} {allowance} {room}");
    case("B15", question, walk(walked, allowance))
}

/// `1***` less `11**` in `1***` less three cuts. Piece 0 has two pieces, both covered. A cut `0***`
/// misses and is no piece; `111*` gives back what the first's cut takes; `10**` shows 1000.
fn every_sequence() -> Vec<Case> {
    let asked = |sequence: usize| {
        let turns = [sequence / 9, sequence / 3 % 3, sequence % 3];
        let cuts = turns.map(|turn| ["0***", "111*", "10**"][turn]);
        let piece = |(turn, j)| match turn {
            0 => None,
            1 => Some((j, 1, None)),
            _ => Some((j, 1, Some("1000"))),
        };
        let given_back = turns.into_iter().zip(1..).filter_map(piece);
        let walked: Vec<Walked> = [(0, 2, None)].into_iter().chain(given_back).collect();
        let records = [r("1***", &["11**"]), r("1***", &cuts)];
        [2, 3, 5].map(|allowance| inclusion(4, &records, &walked, allowance))
    };
    (0..27).flat_map(asked).collect()
}

/// 64 cuts in the second, of which the j-th alone gives back a header. The others miss the first's
/// base, or give back what its cut takes.
fn every_cut() -> Vec<Case> {
    let second = |other: &'static str, j: usize| {
        let mut cuts = [other; 64];
        cuts[j - 1] = "10**";
        r("1***", &cuts)
    };
    let skipping = |allowance: usize, j: usize| {
        let walked = [(0, 1, None), (j, 1, Some("1000"))];
        let records = [r("1***", &[]), second("0***", j)];
        inclusion(4, &records, &walked, allowance)
    };
    let covered = |j: usize| {
        let before = (1..j).map(|i| (i, 1, None));
        let start = [(0, 2, None)].into_iter().chain(before);
        let walked: Vec<Walked> = start.chain([(j, 1, Some("1000"))]).collect();
        let records = [r("1***", &["11**"]), second("11**", j)];
        [j, j + 1, j + 2].map(|allowance| inclusion(4, &records, &walked, allowance))
    };
    let none = [r("1***", &[]), r("1***", &["0***"; 64])];
    let none = inclusion(4, &none, &[(0, 1, None)], 1);
    let each = (1..=64).map(|j| skipping(2, j));
    let unpaid = [1, 2, 32, 63, 64].map(|j| skipping(1, j));
    let later = [1, 2, 32, 63, 64].into_iter().flat_map(covered);
    each.chain(unpaid).chain(later).chain([none]).collect()
}

/// Piece 0 shows a header, whatever the second's cuts are.
fn first_piece() -> Vec<Case> {
    let shown = |first: &str, second: &str, cuts: &[&str], walked: Walked| {
        let records = [r(first, &[]), r(second, cuts)];
        [0, 1, 2, 9].map(|allowance| inclusion(4, &records, &[walked], allowance))
    };
    let (left, beside) = ((0, 2, Some("0000")), (0, 1, Some("1000")));
    let all = [
        shown("****", "1***", &[], left),
        shown("****", "1***", &["1***"], left),
        shown("****", "1***", &["0***"; 64], left),
        shown("1***", "0***", &[], beside),
        shown("1***", "0***", &["1***", "****"], beside),
    ];
    all.into_iter().flatten().collect()
}

/// Piece 0 costs four pieces before what is given back, or has 65 cuts.
fn long_first_piece() -> Vec<Case> {
    let asked = |first: &str, second: String, walked: &[Walked]| {
        let records = [first.to_string(), second];
        [0, 1, 2, 3, 4, 5, 6].map(|allowance| inclusion(4, &records, walked, allowance))
    };
    let four = chain(4, 4, true);
    let (none, zeros) = ((0, 4, None), Some("0000"));
    let most = r("1***", &["11**"; 64]);
    let all = [
        asked(&four, r("****", &[]), &[none]),
        asked(&four, r("****", &["0000"]), &[none, (1, 1, zeros)]),
        asked(&four, r("****", &["1111", "0000"]), &[none, (1, 1, None), (2, 1, zeros)]),
        asked(&most, r("1***", &["0***", "10**"]), &[(0, 2, None), (2, 1, Some("1000"))]),
    ];
    all.into_iter().flatten().collect()
}

/// `1***` in all less 0..0, which misses it, and 1..1, which is piece 2.
fn inclusion_widths() -> Vec<Case> {
    let asked = |w: usize| {
        let [free, zeros, ones] = ["*", "0", "1"].map(|value| value.repeat(w));
        let records = [r(&format!("1{}", &free[1..]), &[]), r(&free, &[&zeros, &ones])];
        let walked = [(0, 1, None), (2, 1, Some(ones.as_str()))];
        [0, 1, 2, 3].map(|allowance| inclusion(w, &records, &walked, allowance))
    };
    WIDTHS.into_iter().flat_map(asked).collect()
}

/// Three differences, tidy as they are.
fn three() -> String {
    f(2, &[r("1*", &["11"]), r("0*", &[]), r("**", &["00", "11"])])
}

/// What writes a file, a record or a cube, and the ceiling.
fn written() -> Vec<Case> {
    let three = three();
    let free = f(2, &[r("**", &[])]);
    let wrote = |bytes: &str| format!("0 0 0 0 {} 65535 {bytes}", bytes.len() / 2);
    let (one, both) = (f(2, &[r("1*", &[])]), f(2, &[r("11", &[])]));
    let rest = f(2, &[r("**", &["1*"])]);
    vec![
        case("B13", format!("region_tidy {three} 99"), wrote(&three)),
        case("B13", format!("region_tidy {} 99", f(2, &[r("1*", &["**"])])), wrote(&w1(2))),
        case("B13", format!("region_intersect {three} {free} 99"), wrote(&three)),
        case("B13", format!("region_less {one} {} 99", r("0*", &[])), wrote(&one)),
        case("B13", format!("diff_intersect 2 {} {} 99", r("1*", &[]), r("*1", &[])), wrote(&both)),
        case("B13", format!("diff_less 2 {} {} 99", r("**", &[]), r("1*", &[])), wrote(&rest)),
        case("B13", "prefix 2 0 1 1 80 1", wrote("BF")),
        case("B13", "equal_fields 2 0 1 1 8", wrote("0600020002FF6F9F")),
        case("B13", format!("ceiling 2 {}", r("**", &["1*", "0*"])), "0 0 0 3 0 65535 -"),
        case("B13", format!("ceiling 2 {}", r("1*", &["**"])), "0 0 0 1 0 65535 -"),
    ]
}

/// Views of each cube and each step of reading on, of the differences 0, 1 and 2; a view of 255.
fn looked_up() -> Vec<Case> {
    let three = three();
    let view = |d: usize, i: usize, cube: &str, start: usize| {
        let right = format!("1 0 0 0 0 65535 {} {start}", c(cube));
        case("B13", format!("view {three} {d} {i}"), right)
    };
    let step = |place: usize, right| case("B13", format!("read_on {three} {place}"), right);
    let full = full(2, &r("**", &[]), "", &[]);
    vec![
        view(0, 0, "1*", 11),
        view(0, 1, "11", 12),
        view(1, 0, "0*", 18),
        view(2, 0, "**", 24),
        view(2, 1, "00", 25),
        view(2, 2, "11", 26),
        step(0, "1 0 6 0 0 65535 13"),
        step(6, "1 0 6 0 0 65535 13"),
        step(13, "1 0 13 0 0 65535 19"),
        step(19, "1 0 19 0 0 65535 27"),
        step(27, "2 0 0 0 0 65535 27"),
        case("B13", format!("view {full} 255 0"), "1 0 0 0 0 65535 FF 1541"),
    ]
}

/// The questions about two cubes.
fn cubes() -> Vec<Case> {
    let [free, one, zero] = ["**", "1*", "0*"].map(c);
    vec![
        case("B72", format!("cube_meet 2 {one} {free} 1"), "0 0 0 0 1 65535 BF"),
        case("B72", format!("cube_meet 2 {one} {zero} 1"), "2 0 0 0 0 65535 -"),
        case("B72", format!("cube_in 2 {free} {one}"), "2 0 0 0 0 65535 -"),
        case("B72", format!("wider 2 {free} {one}"), "1 0 0 0 0 65535 FF"),
        case("B72", format!("wider 2 {zero} {free}"), "1 0 0 0 0 65535 FF"),
        case("B72", format!("wider 2 {zero} {one}"), "2 0 0 0 0 65535 -"),
    ]
}

/// A question with a fault in place of the @, and the refusal's answer.
fn fault(frame: &str, operand: u8, (number, lent): (u8, &str), offset: usize) -> Case {
    let tail = match frame.split(' ').next() {
        Some("view") => "- 0",
        Some("read_on") => "12",
        _ => "-",
    };
    let right = format!("{number} {operand} {offset} 0 0 65535 {tail}");
    case("B13", frame.replace('@', lent), right)
}

/// Each fault of a lent cube in each call that takes one.
fn cube_faults() -> Vec<Case> {
    let faults = [(12, "-"), (13, "CF"), (14, "FC")];
    let frames = [("cube_meet 3 FF @ 1", 2), ("cube_in 3 @ FF", 1), ("wider 3 FF @", 2)];
    let each = |(frame, operand)| faults.map(|lent| fault(frame, operand, lent, 0));
    frames.into_iter().flat_map(each).collect()
}

/// The least records with each fault.
const FAULTS: [(u8, &str); 5] = [
    (13, "0400020000CF"),
    (14, "0400020000FC"),
    (16, "02000300"),
    (17, "02000200"),
    (18, "0300020041"),
];

/// Each fault of a record in each call that takes one.
fn record_faults() -> Vec<Case> {
    let frames = [
        ("diff_member 3 @ 00", 1),
        ("diff_intersect 3 @ 0400020000FF 99", 1),
        ("diff_less 3 0400020000FF @ 99", 2),
        ("region_less 0400010003000400020000FF @ 99", 2),
        ("diff_empty 3 @ 9 1", 1),
        ("diff_in 3 @ 0400020000FF 9 1", 1),
        ("diff_in 3 0400020000FF @ 9 1", 2),
        ("ceiling 3 @", 1),
    ];
    let each = |(frame, operand)| {
        let faults = FAULTS.into_iter().chain([(15, "-")]);
        faults.map(move |lent| fault(frame, operand, lent, 0))
    };
    frames.into_iter().flat_map(each).collect()
}

/// Each fault of a file in each call that takes one; but for W, in difference 1.
fn file_faults() -> Vec<Case> {
    let frames = [
        ("region_member @ 00", 1),
        ("region_intersect 040001000300 @ 99", 2),
        ("region_less @ 0400020000FF 99", 1),
        ("region_empty @ 9 1", 1),
        ("region_tidy @ 99", 1),
        ("view @ 0 0", 1),
        ("read_on @ 12", 1),
    ];
    let front = f(3, &[r("***", &[])]);
    let each = |(frame, operand)| {
        let faults = FAULTS.into_iter().chain([(15, "00")]);
        let second = faults
            .map(|(number, lent)| fault(frame, operand, (number, &format!("{front}{lent}")), 12));
        second.chain([fault(frame, operand, (10, "040001000000"), 0)]).collect::<Vec<_>>()
    };
    frames.into_iter().flat_map(each).collect()
}

/// A 257th difference that is read.
fn full_files() -> Vec<Case> {
    let more = full(3, &r("***", &[]), "", &[]) + "02000200";
    let frames = [
        "region_member @ 00",
        "region_intersect @ 040001000300 99",
        "region_less @ 0400020000FF 99",
        "region_empty @ 9 1",
        "region_tidy @ 99",
        "view @ 0 0",
    ];
    frames.into_iter().map(|frame| fault(frame, 1, (19, &more), 1542)).collect()
}

/// A question with a refusal that no operand is at fault for.
fn refused(number: u8, question: impl Into<String>) -> Case {
    case("B13", question, format!("{number} 0 0 0 0 65535 -"))
}

/// Results with 65 cuts, and with 272 and 258 differences.
fn great_results() -> Vec<Case> {
    let cuts: Vec<String> = (0..65).map(|j| format!("{j:07b}")).collect();
    let cuts: Vec<&str> = cuts.iter().map(String::as_str).collect();
    let (most, one) = (r("*******", &cuts[..64]), r("*******", &cuts[64..]));
    let (width, last) = (w1(7), r(cuts[64], &[]));
    let free = |count: usize| f(3, &vec![r("***", &[]); count]);
    vec![
        refused(18, format!("diff_intersect 7 {most} {one} 99")),
        refused(18, format!("region_intersect {width}{most} {width}{one} 99")),
        refused(18, format!("diff_less 7 {most} {last} 99")),
        refused(18, format!("region_less {width}{most} {last} 99")),
        refused(18, "equal_fields 66 0 33 33 99"),
        refused(19, format!("region_intersect {} {} 99", free(16), free(17))),
        refused(19, format!("region_less {} {} 99", free(129), r("1**", &["11*"]))),
    ]
}

/// The other refusals that no operand is at fault for, in each call that has them.
fn plain_refusals() -> Vec<Case> {
    let (one, file) = (r("***", &[]), f(3, &[r("***", &[])]));
    vec![
        refused(10, "cube_meet 0 FF FF 1"),
        refused(10, "cube_in 0 FF FF"),
        refused(10, "wider 0 FF FF"),
        refused(10, format!("diff_member 0 {one} 00")),
        refused(10, format!("diff_intersect 0 {one} {one} 99")),
        refused(10, format!("diff_less 0 {one} {one} 99")),
        refused(10, format!("diff_empty 0 {one} 9 1")),
        refused(10, format!("diff_in 0 {one} {one} 9 1")),
        refused(10, format!("ceiling 0 {one}")),
        refused(10, "prefix 0 0 1 1 80 1"),
        refused(10, "equal_fields 0 0 1 1 8"),
        refused(11, format!("diff_member 3 {one} 01")),
        refused(11, format!("region_member {file} -")),
        refused(11, "prefix 3 0 2 1 40 1"),
        refused(20, format!("region_intersect {file} {} 99", w1(4))),
        refused(21, "prefix 3 0 4 1 80 1"),
        refused(21, "equal_fields 3 0 3 1 8"),
        refused(22, "cube_meet 3 FF FF 0"),
        refused(22, format!("diff_intersect 3 {one} {one} 11")),
        refused(22, format!("region_intersect {file} {file} 11")),
        refused(22, format!("diff_less 3 {one} {one} 5")),
        refused(22, format!("region_less {file} {one} 5")),
        refused(22, format!("diff_empty 3 {one} 9 0")),
        refused(22, format!("region_empty {file} 9 0")),
        refused(22, format!("diff_in 3 {one} {one} 9 0")),
        refused(22, format!("region_tidy {file} 11")),
        refused(22, "prefix 3 0 2 1 80 0"),
        refused(22, "equal_fields 2 0 1 1 7"),
    ]
}

/// A view of a difference, and of a cube, that is not there.
fn no_such_cube() -> Vec<Case> {
    let file = f(3, &[r("***", &[])]);
    let asked = |index| case("B13", format!("view {file} {index}"), "23 0 0 0 0 65535 - 0");
    ["1 0", "0 1", "256 0", "65535 0"].map(asked).into()
}
