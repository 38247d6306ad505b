//! Blocks at the largest axis on two and on three axes.

use crate::call::Mesh;
use crate::compare::Tally;
use crate::examples::CANONICAL;
use crate::exhaustive::{whole, O, T};
use crate::random::Random;

/// The block with an empty border and, inside, what `fill` gives.
fn block(shape: [u32; 3], fill: &mut dyn FnMut() -> u16) -> Vec<u16> {
    let mut voxels = Vec::new();
    for z in 0..shape[2] {
        for y in 0..shape[1] {
            for x in 0..shape[0] {
                let inside = [x, y, z].iter().zip(shape).all(|(&c, a)| c > 0 && c + 1 < a);
                voxels.push(if inside { fill() } else { 0 });
            }
        }
    }
    voxels
}

fn both(tally: &mut Tally, shape: [u32; 3], voxels: Vec<u16>, room: usize) {
    for greedy in [true, false] {
        let mut call: Mesh = whole(greedy, shape, CANONICAL, vec![]);
        call.voxels = voxels.clone();
        call.visited = if greedy { vec![1; voxels.len() + 1] } else { vec![] };
        call.out = vec![7; room * call.item() + 1];
        tally.mesh(&call);
    }
}

/// Two axes of 255, 256 or 257 (which is refused): solid, and one voxel in a hundred filled. Then 256 on all three axes: solid
/// but for one voxel in a million.
pub fn large(tally: &mut Tally, seed: u64) {
    let mut random = Random::new(seed);
    for (a, b) in [(256, 256), (255, 256), (256, 257)] {
        for shape in [[a, b, 3], [a, 3, b], [3, a, b]] {
            both(tally, shape, block(shape, &mut || O + 7), 140_000);
            both(tally, shape, block(shape, &mut || if random.percent(1) { random.pick(&[O + 7, O + 8, T + 7]) } else { 0 }), 140_000);
        }
    }
    let shape = [256; 3];
    both(tally, shape, block(shape, &mut || if random.below(1_000_000) == 0 { 0 } else { O + 7 }), 400_000);
}
