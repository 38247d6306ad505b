"""Makes the blocks that the importers are tried on: blocks.py DIR writes DIR/NAME.block for each, and prints a line
NAME X Y Z for each. A block is as host/mesh_file.c reads it. The same blocks every time."""
import random
import struct
import sys

TRANSLUCENT, OPAQUE = 1 << 14, 2 << 14


def block(shape, voxel):
    """The block whose voxel at x, y, z is voxel(x, y, z), with a border of empty ones."""
    inside = [range(1, n - 1) for n in shape]
    return shape, [voxel(x, y, z) if x in inside[0] and y in inside[1] and z in inside[2] else 0
                   for z in range(shape[2]) for y in range(shape[1]) for x in range(shape[0])]


def distance(shape, *place):
    """Four times the square of how far the voxel's middle is from the block's."""
    return sum((2 * p + 1 - n) ** 2 for p, n in zip(place, shape))


def ball(n, radius, hollow=0):
    shape = (n, n, n)

    def voxel(x, y, z):
        inside = 4 * hollow ** 2 <= distance(shape, x, y, z) <= 4 * radius ** 2
        return OPAQUE + 7 if inside else 0
    return block(shape, voxel)


def tunnel(along, length):
    """A bar with a bore from end to end, its rock in bands of a merge value each, with a niche every ten voxels."""
    shape = tuple(length if axis == along else (14, 12)[(axis - along) % 3 - 1] for axis in range(3))

    def voxel(*place):
        at, side, up = (place[(along + k) % 3] for k in range(3))
        bore = 4 <= side <= 9 and 3 <= up <= 8
        niche = at % 10 in (3, 4) and side > 9 and 3 <= up <= 5
        return 0 if bore or niche else OPAQUE + 20 + at // 16
    return block(shape, voxel)


def checkered(n):
    return block((n, n, n), lambda x, y, z: OPAQUE + 1 if (x + y + z) % 2 == 0 else 0)


def random_solid(draw):
    """Opaque voxels at random, of a few merge values; the border is empty."""
    shape = tuple(draw.randint(5, 18) for _ in range(3))
    full, values = draw.uniform(0.05, 1), draw.randint(1, 4)
    return block(shape, lambda *_: OPAQUE + draw.randrange(values) if draw.random() < full else 0)


def random_mixed(draw):
    """Voxels of every class at random, in the border too."""
    shape = tuple(draw.randint(5, 18) for _ in range(3))
    empty, values = draw.uniform(0.05, 0.95), draw.randint(1, 4)
    return shape, [0 if draw.random() < empty else draw.choice((TRANSLUCENT, OPAQUE)) + draw.randrange(values)
                   for _ in range(shape[0] * shape[1] * shape[2])]


def main(folder):
    draw = random.Random(1)
    made = {
        "voxel": block((3, 3, 3), lambda *_: OPAQUE + 7),
        "sphere": ball(40, 18),
        "shell": ball(28, 13, 9),
        "tunnel-x": tunnel(0, 256),
        "tunnel-y": tunnel(1, 256),
        "tunnel-z": tunnel(2, 256),
        "checkered": checkered(24),
        "empty": block((3, 3, 3), lambda *_: 0),
    }
    for k in range(1, 9):
        made[f"random-solid-{k}"] = random_solid(draw)
        made[f"random-mixed-{k}"] = random_mixed(draw)
    for name, (shape, voxels) in made.items():
        with open(f"{folder}/{name}.block", "wb") as out:
            out.write(struct.pack(f"<{len(voxels)}H", *voxels))
        print(name, *shape)


main(sys.argv[1])
