//! What docs/RULES.md says of outlines from SVG, so that the rules as restated here are seen to be the rules.

use rules::records::Line;
use rules::svg::outline;

fn lines(text: &str, depth: u32) -> Vec<Line> {
    outline(text.as_bytes(), depth).unwrap_or_else(|place| panic!("{text:?} is refused at {place}"))
}

#[test]
fn the_language() {
    for text in ["", " \t\r\n", "M1 2", "m.5.5", "M1.5.5", "M5. 6.", "M-1+2", "M1,2,3,4", "M1 2 ,3 4z\n", "M0 0ZZ", "M000001 999999.999"] {
        lines(text, 0);
    }
    let refused = [
        ("M1 2,", 5),
        ("M,1 2", 1),
        ("M1 2,L3 4", 5),
        ("M1,,2", 3),
        ("L1 2", 0),
        ("M", 1),
        ("M1", 2),
        ("M.", 2),
        ("M. 1", 2),
        ("M+-1 2", 2),
        ("M1234567 2", 7),
        ("M1.2345 2", 6),
        ("M1e3 2", 2),
        ("M1 2C", 4),
        ("M1 2Z3 4", 5),
        ("M1 2Z,M3 4", 5),
        ("M1 2\x0bL3 4", 4),
    ];
    for (text, place) in refused {
        assert_eq!(outline(text.as_bytes(), 0), Err(place), "{text:?}");
    }
}

#[test]
fn what_is_drawn() {
    assert_eq!(lines("M1 2", 0), [[0.0; 4]; 0]);
    // pairs after the first are lines; what is left open is closed; small letters are relative
    assert_eq!(lines("m1 1 2 0", 0), [[1.0, 1.0, 3.0, 1.0], [3.0, 1.0, 1.0, 1.0]]);
    // Z draws always, of no length too
    assert_eq!(lines("M1 2ZZ", 0), [[1.0, 2.0, 1.0, 2.0]; 2]);
    // the next outline closes the one before, and counts from the point last drawn
    let two = [[0.0, 0.0, 1.0, 0.0], [1.0, 0.0, 0.0, 0.0], [2.0, 1.0, 2.0, 0.0], [2.0, 0.0, 2.0, 1.0]];
    assert_eq!(lines("M0 0H1m1 1V0", 0), two);
    // after Z the point is the start
    assert_eq!(lines("M1 1h1zl0 1z", 0)[2], [1.0, 1.0, 1.0, 2.0]);
    // both points of q count from the curve's start
    assert_eq!(lines("M1 1q1 1 2 0z", 0)[0], [1.0, 1.0, 3.0, 1.0]);
    let halved = [[0.0, 0.0, 0.25, 0.75], [0.25, 0.75, 1.0, 1.0], [1.0, 1.0, 0.0, 0.0]];
    assert_eq!(lines("M0 0Q0 1 1 1", 1), halved);
    assert_eq!(lines("M0 0Q0 1 1 1", 6).len(), 65);
    assert_eq!(lines("M-0 0h1", 0)[0][0].to_bits(), (-0.0f32).to_bits());
}
