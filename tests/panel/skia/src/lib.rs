//! The scene by tiny-skia: anti-aliased paths of solid colours over a clear picture.

use tiny_skia::{Color, FillRule, Paint, PathBuilder, PixmapMut, Transform};

/// As panel.h has it.
#[repr(C)]
pub struct Polygon {
    points: *const f32,
    corners: usize,
    red: u8,
    green: u8,
    blue: u8,
    alpha: u8,
}

/// # Safety
/// Each polygon has its corners, and the picture width times height pixels.
#[no_mangle]
pub unsafe extern "C" fn skia_paint(polygons: *const Polygon, many: usize, width: u32, height: u32, pixels: *mut u8) {
    let bytes = std::slice::from_raw_parts_mut(pixels, 4 * width as usize * height as usize);
    let mut picture = PixmapMut::from_bytes(bytes, width, height).unwrap();
    picture.fill(Color::TRANSPARENT);
    for one in std::slice::from_raw_parts(polygons, many) {
        let points = std::slice::from_raw_parts(one.points, 2 * one.corners);
        let mut path = PathBuilder::new();
        path.move_to(points[0], points[1]);
        for p in points[2..].chunks_exact(2) {
            path.line_to(p[0], p[1]);
        }
        path.close();
        let mut paint = Paint { anti_alias: true, ..Paint::default() };
        paint.set_color_rgba8(one.red, one.green, one.blue, one.alpha);
        picture.fill_path(&path.finish().unwrap(), &paint, FillRule::Winding, Transform::identity(), None);
    }
}
