//! Eight channels by the panel maker's kit: `Panel` holds the memory, works out boxes and sizes, and draws. examples/c/kit.c does
//! the same by the calls themselves, and both print examples/kit.out.
use groatpocket::{Fault, Paint, Panel};

/// What a gauge reads: any numbers will do.
fn reading(channel: u32, sample: u32) -> f32 {
    ((7 * sample * sample + 5 * channel * sample + 3 * channel) % 13) as f32
}

/// A letter for a pixel: red is in its lowest byte, blue in its third.
fn letter(pixel: &u32) -> char {
    match pixel.to_le_bytes() {
        [.., 0..=63] => '.',
        [red, green, blue, _] if red >= green.max(blue) => 'r',
        [_, green, blue, _] if green >= blue => 'g',
        _ => 'b',
    }
}

fn main() -> Result<(), Fault> {
    const COLOURS: [u32; 3] = [0xff0000ff, 0x00ff00ff, 0x0000ffff];
    let mut panel = Panel::new(120, 120);
    for number in 0..8 {
        let colour = COLOURS[number as usize % COLOURS.len()];
        let channel = panel.channel(301 + number, Paint { colour, even_odd: false });
        let base = (15 * number + 14) as f32;
        let mut points = vec![[112.0, base], [2.0, base]];
        points.extend((0..12).map(|k| [(2 + 10 * k) as f32, base - reading(number, k)]));
        panel.outline(channel, &points);
    }
    let picture = panel.draw()?;
    for row in picture.rows().step_by(3) {
        println!("{}", row.iter().map(letter).collect::<String>());
    }
    Ok(())
}
