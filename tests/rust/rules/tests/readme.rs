//! README.md's table of calls has the numbers that each call can really give.

fn text() -> String {
    std::fs::read_to_string(concat!(env!("CARGO_MANIFEST_DIR"), "/../../../README.md")).unwrap()
}

/// 1–4, 9 as 1, 2, 3, 4, 9.
fn numbers(cell: &str) -> Vec<u32> {
    let ends = |part: &str| -> (u32, u32) {
        let (low, high) = part.split_once('–').unwrap_or((part, part));
        (low.trim().parse().unwrap(), high.trim().parse().unwrap())
    };
    cell.split(',').map(ends).flat_map(|(low, high)| low..=high).collect()
}

#[test]
fn the_table_of_calls() {
    let text = text();
    let table = text.split_once("| Call | What it does | Refusals |").unwrap().1.split("\n\n").next().unwrap();
    let mut calls = 0;
    for row in table.lines().skip(2) {
        let cells: Vec<&str> = row.trim_matches('|').split('|').map(str::trim).collect();
        let of_each: Vec<&str> = cells[2].split(';').collect();
        for (call, said) in cells[0].split(", ").zip(of_each) {
            let wanted: Vec<u32> = rules::answers(call).iter().copied().filter(|n| *n != 0).collect();
            assert_eq!(numbers(said), wanted, "{call}");
            calls += 1;
        }
    }
    assert_eq!(calls, 21, "a call is missing in README.md's table");
}
