//! The blocks that are meshed. Each is a cube whose outermost layer is empty, so that the interior of the box that is meshed is all of the block.
//! They are made of whole numbers alone, and are the same on every machine.

const OPAQUE: u16 = 2 << 14;
const TRANSLUCENT: u16 = 1 << 14;

/// The voxels of a block, x fastest, then y, then z; or none, where no block has that name.
pub fn block(name: &str, size: u32) -> Option<Vec<u16>> {
    let voxel = match name {
        "empty" => |_: [u32; 3], _: u32| 0,
        "solid" => |_: [u32; 3], _: u32| OPAQUE + 1,
        "sphere" => sphere,
        "checkered" => |p: [u32; 3], _: u32| if (p[0] + p[1] + p[2]) % 2 == 0 { OPAQUE + 1 } else { 0 },
        "random" => random,
        "terrain" => terrain,
        _ => return None,
    };
    let inside = |c: u32| 0 < c && c + 1 < size;
    let mut voxels = Vec::with_capacity((size * size * size) as usize);
    for z in 0..size {
        for y in 0..size {
            for x in 0..size {
                voxels.push(if inside(x) && inside(y) && inside(z) { voxel([x, y, z], size) } else { 0 });
            }
        }
    }
    Some(voxels)
}

/// A ball that touches the interior's six sides, of one merge value.
fn sphere(p: [u32; 3], size: u32) -> u16 {
    let square = |c: u32| {
        let twice = 2 * c as i32 - (size as i32 - 1);
        twice * twice
    };
    let across = size as i32 - 2;
    if square(p[0]) + square(p[1]) + square(p[2]) <= across * across {
        OPAQUE + 1
    } else {
        0
    }
}

/// One voxel in four is there, with one of four merge values. The numbers are SplitMix64's, from the voxel's place.
fn random(p: [u32; 3], size: u32) -> u16 {
    let place = (p[2] * size + p[1]) * size + p[0];
    let mut n = (place as u64 + 1).wrapping_mul(0x9E37_79B9_7F4A_7C15);
    n = (n ^ (n >> 30)).wrapping_mul(0xBF58_476D_1CE4_E5B9);
    n = (n ^ (n >> 27)).wrapping_mul(0x94D0_49BB_1331_11EB);
    n ^= n >> 31;
    if n % 4 == 0 {
        OPAQUE + 1 + (n / 4 % 4) as u16
    } else {
        0
    }
}

/// Hills, y up: stone, three layers of soil and one of grass on it; below a third of the height, translucent water on the ground.
fn terrain(p: [u32; 3], size: u32) -> u16 {
    // up from 0 to half the period and down again
    let wave = |c: u32, period: u32| (c % period).min(period - c % period);
    let wide = size / 2;
    let narrow = size / 4 + 1;
    let top = size / 4 + wave(p[0], wide) / 2 + wave(p[2] + size / 8, wide) / 2 + wave(p[0] + 2 * p[2], narrow) / 4;
    let y = p[1];
    match () {
        _ if y + 4 < top => OPAQUE + 1,
        _ if y + 1 < top => OPAQUE + 2,
        _ if y < top => OPAQUE + 3,
        _ if y < size / 3 => TRANSLUCENT + 4,
        _ => 0,
    }
}
