//! Files made from a good one: its header dressed as Netpbm allows, or the file damaged.

use cases::Rng;
use rules::limits::SIDE_MOST;

/// A good file's three numbers and its raster. Only for files with a plain header, as Netpbm's tools write.
pub fn taken_apart(file: &[u8]) -> Option<([u32; 3], &[u8])> {
    let text = |b: &u8| b.is_ascii_digit();
    let mut at = 2;
    let mut numbers = [0; 3];
    for number in &mut numbers {
        let end = at + 1 + file.get(at + 1..)?.iter().take_while(|b| text(b)).count();
        *number = std::str::from_utf8(&file[at + 1..end]).ok()?.parse().ok()?;
        at = end;
    }
    Some((numbers, file.get(at + 1..)?))
}

/// White space and comments that the manual pages and the tools read alike: no comment touches a number or "P6".
fn gap(rng: &mut Rng) -> Vec<u8> {
    let mut gap = vec![rng.pick(b" \t\r\n")];
    for _ in 0..rng.below(4) {
        if rng.coin() {
            gap.push(b'#');
            gap.extend((0..rng.below(12)).map(|_| rng.pick(b"#0123456789 aP6\t\x0b\xff")));
            gap.push(rng.pick(b"\r\n"));
        }
        gap.push(rng.pick(b" \t\r\n"));
    }
    gap
}

/// The same picture under a header with comments, odd white space and leading zeros.
pub fn dressed(file: &[u8], rng: &mut Rng) -> Option<Vec<u8>> {
    let (numbers, raster) = taken_apart(file)?;
    let mut out = b"P6".to_vec();
    for number in numbers {
        out.extend(gap(rng));
        out.extend(vec![b'0'; rng.below(3) as usize]);
        out.extend(number.to_string().into_bytes());
    }
    out.push(rng.pick(b" \t\r\n"));
    out.extend(raster);
    Some(out)
}

fn with_numbers(file: &[u8], numbers: [String; 3]) -> Vec<u8> {
    let raster = taken_apart(file).map_or(&[][..], |(_, raster)| raster);
    let [width, height, largest] = numbers;
    let mut out = format!("P6\n{width} {height}\n{largest}\n").into_bytes();
    out.extend(raster);
    out
}

fn number(rng: &mut Rng) -> String {
    let odd = ["0", "1", "3", "254", "255", "256", "65535", "4294967296", "18446744073709551617", "-1", "+5", "1e2", "0x9", ""];
    match rng.below(odd.len() as u64 + 2) {
        0 => SIDE_MOST.to_string(),
        1 => (SIDE_MOST + 1).to_string(),
        k => odd[k as usize - 2].into(),
    }
}

/// One change: to a byte of the header, to its numbers, or to where the file ends.
pub fn damaged(file: &[u8], rng: &mut Rng) -> Vec<u8> {
    let mut out = file.to_vec();
    let head = out.len().min(24) as u64;
    let at = rng.below(head.max(1)) as usize;
    let odd = rng.pick(b"#\n\r \t\x0b\x0c0123456789Pp5673\0\xff/:x");
    match rng.below(8) {
        0 => out[at] = odd,
        1 => out.insert(at, odd),
        2 => drop(out.remove(at)),
        3 => out.truncate(rng.below(out.len() as u64) as usize),
        4 => out.truncate(out.len() - 1 - rng.below(3) as usize),
        5 => out.extend((0..1 + rng.below(3)).map(|_| odd)),
        6 => {
            let kept = taken_apart(file).map_or([1; 3], |(numbers, _)| numbers).map(|n| n.to_string());
            let mut numbers = kept;
            numbers[rng.below(3) as usize] = number(rng);
            out = with_numbers(file, numbers);
        }
        _ => {
            let comment = [b"#".to_vec(), vec![b'a'; rng.below(3) as usize], vec![rng.pick(b"\n\r a")]].concat();
            out.splice(at..at, comment);
        }
    }
    out
}
