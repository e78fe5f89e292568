//! The picture of the example `triangle`, compared with what the triangle's geometry gives.

use crate::triangle::{picture, png, FIELDS, TARGET_SIDE};

/// How far a colour may be off, in levels.
const TOLERANCE: u8 = 2;
/// How near an edge a pixel is left out, in fields of the checkerboard: a quarter of a pixel.
const NEAR: f64 = 0.01;
const CLEAR: [u8; 4] = [13, 13, 26, 255];

/// The colour of a pixel; none where it is too near an edge to say. The triangle's corners are a tenth of the picture
/// off its edges. Eight by eight fields lie over the square around it, whose upper left corner `across` and `down`
/// count from.
fn colour(x: u32, y: u32) -> Option<[u8; 4]> {
    let tenth = f64::from(TARGET_SIDE) / 10.0;
    let [across, down] = [x, y].map(|at| (f64::from(at) + 0.5) / tenth - 1.0);
    let within = (down / 2.0 - (across - 4.0).abs()).min(8.0 - down);
    if within < -NEAR {
        return Some(CLEAR);
    }
    let near_field = |at: f64| (at - at.round()).abs() < NEAR;
    if within < NEAR || near_field(across) || near_field(down) {
        return None;
    }
    Some(FIELDS[(across as usize + down as usize) % 2])
}

/// How many pixels were compared, and how many are wrong.
fn compare(pixels: &[u8]) -> (u32, u32) {
    let (mut compared, mut wrong) = (0, 0);
    for (at, pixel) in (0..).zip(pixels.chunks_exact(4)) {
        let Some(colour) = colour(at % TARGET_SIDE, at / TARGET_SIDE) else { continue };
        compared += 1;
        wrong += u32::from(pixel.iter().zip(colour).any(|(one, other)| one.abs_diff(other) > TOLERANCE));
    }
    (compared, wrong)
}

#[test]
fn the_triangles_pixels() {
    let Some(device) = super::open("the picture of the triangle") else { return };
    let (mut pixels, report) = picture(&device).expect("the device draws");
    assert_eq!(device.close(), 0);
    assert_eq!(pixels.len() as u32, 4 * TARGET_SIDE * TARGET_SIDE);
    let (compared, wrong) = compare(&pixels);
    assert!(compared > 60_000 && wrong == 0, "{compared} pixels compared, {wrong} wrong");
    // Corners, the middle, and the fields beside it.
    let pixel = |x: u32, y: u32| &pixels[4 * (y * TARGET_SIDE + x) as usize..][..4];
    assert!([(0, 0), (255, 0), (0, 255), (255, 255)].iter().all(|&(x, y)| pixel(x, y) == CLEAR));
    assert_eq!([pixel(135, 135), pixel(120, 135)], FIELDS);
    // Three buffers and two images are live in the report.
    assert_eq!(report.matches(r#""user":0"#).count(), 5, "{report}");
    // It would find a slip of one row, and one wrong field.
    pixels.rotate_right(4 * TARGET_SIDE as usize);
    assert!(compare(&pixels).1 > 100);
}

/// The file's parts in their order, as long as they say, with the pixels in them as they are.
#[test]
fn a_png_of_pixels() {
    let side = TARGET_SIDE as usize;
    let pixels: Vec<u8> = (0..4 * side * side).map(|at| (at / 7) as u8).collect();
    let file = png(&pixels);
    assert_eq!(&file[..8], b"\x89PNG\r\n\x1a\n");
    let (mut rest, mut parts) = (&file[8..], vec![]);
    while let [a, b, c, d, behind @ ..] = rest {
        let length = u32::from_be_bytes([*a, *b, *c, *d]) as usize;
        parts.push((&behind[..4], &behind[4..4 + length]));
        rest = &behind[length + 8..];
    }
    let names: Vec<_> = parts.iter().map(|part| part.0).collect();
    assert_eq!(names, [b"IHDR", b"IDAT", b"IEND"]);
    assert_eq!(parts[0].1, [0, 0, 1, 0, 0, 0, 1, 0, 8, 6, 0, 0, 0]);
    // The checksum of an empty last part is known to all.
    assert_eq!(&file[file.len() - 4..], [0xae, 0x42, 0x60, 0x82]);
    let (mut stored, mut rows) = (&parts[1].1[2..], vec![]);
    loop {
        let length = u16::from_le_bytes([stored[1], stored[2]]);
        assert_eq!(!length, u16::from_le_bytes([stored[3], stored[4]]));
        rows.extend(&stored[5..5 + length as usize]);
        let is_last = stored[0] == 1;
        stored = &stored[5 + length as usize..];
        if is_last {
            break;
        }
    }
    assert_eq!(stored.len(), 4);
    let found: Vec<u8> = rows.chunks(4 * side + 1).flat_map(|row| row[1..].to_vec()).collect();
    assert!(rows.chunks(4 * side + 1).all(|row| row[0] == 0) && found == pixels);
}
