"""Holds what an importer read against what the block and its quads say.

    compare.py X Y Z BLOCK QUADS READER=LISTING..

QUADS is what host/mesh_file --quads printed of BLOCK. A LISTING has what one importer holds after it read the OBJ file:
a line `v X Y Z` for each vertex, `t A B C` for each triangle by its vertices from 0, and `says FIGURE NUMBERS` for what
the importer itself counts or measures. Nothing here looks at the OBJ file.

Prints a line on the block, and one for each reader: `READER same`, or `READER differs` and the figures that do. Exit
status: 0 all the same, 1 not."""
import math
import struct
import sys
from itertools import islice, product

# How many vertices a reader keeps for each quad. assimp makes one for each corner of each triangle; told to join those
# of one place, it keeps as many as the quads have different corners.
VERTICES_A_QUAD = {"assimp": 6, "assimp-joined": None}


def bounds(points):
    points = list(points)
    return tuple(f(axis) for f in (min, max) for axis in zip(*points)) if points else ()


class Quad:
    """A quad of document 01 as a rectangle in space: the axis n that it looks along, its sign, and for each axis the
    lowest and the highest coordinate."""

    def __init__(self, face, x, y, z, width, height):
        self.n = "XYZ".index(face[1])
        self.sign = {"+": 1, "-": -1}[face[0]]
        u, v = (self.n + 1) % 3, (self.n + 2) % 3
        self.low, self.high = [x, y, z], [x, y, z]
        if self.sign > 0:
            self.low[self.n] += 1
            self.high[self.n] += 1
        self.high[u] += width
        self.high[v] += height
        self.area = width * height
        self.corners = set(product(*zip(self.low, self.high)))

    def is_tiled_by(self, triangles):
        """Whether two triangles lie in the rectangle, side by side along a diagonal, and both look out."""
        if len(triangles) != 2 or set(triangles[0]) | set(triangles[1]) != self.corners:
            return False
        shared = list(set(triangles[0]) & set(triangles[1]))
        if len(shared) != 2 or sum(a != b for a, b in zip(*shared)) != 2:
            return False
        out = [0, 0, 0]
        out[self.n] = self.sign * self.area
        return all(cross(t) == out for t in triangles)


def cross(triangle):
    """Twice the area of a triangle, as a vector that looks to where its corners go round against the clock."""
    a, b, c = triangle
    p, q = [i - j for i, j in zip(b, a)], [i - j for i, j in zip(c, a)]
    return [p[1] * q[2] - p[2] * q[1], p[2] * q[0] - p[0] * q[2], p[0] * q[1] - p[1] * q[0]]


def solid_voxels(shape, path):
    """How many voxels the solid has, where the mesh of the block is the whole surface of one: no voxel is translucent
    and the border is empty. Else None."""
    with open(path, "rb") as file:
        voxels = struct.unpack(f"<{shape[0] * shape[1] * shape[2]}H", file.read())
    count = 0
    for index, voxel in enumerate(voxels):
        if voxel >> 14 == 0:
            continue
        place = index % shape[0], index // shape[0] % shape[1], index // shape[0] // shape[1]
        if voxel >> 14 != 2 or any(p in (0, n - 1) for p, n in zip(place, shape)):
            return None
        count += 1
    return count


def read_quads(path):
    with open(path) as file:
        lines = [line.split() for line in file]
    return [Quad(words[0], *map(int, words[1:])) for words in lines if words[0] in ("+X", "-X", "+Y", "-Y", "+Z", "-Z")]


def number(word):
    """A coordinate as the importer has it: whole where it is whole, so that sums are exact."""
    value = float(word)
    return int(value) if value.is_integer() else value


def read_listing(path):
    vertices, triangles, says = [], [], {}
    with open(path) as file:
        for line in file:
            kind, *words = line.split()
            if kind == "v":
                vertices.append(tuple(map(number, words)))
            elif kind == "t":
                triangles.append(tuple(map(int, words)))
            else:
                says[words[0]] = tuple(map(float, words[1:]))
    return vertices, triangles, says


def differing(reader, path, quads, voxels):
    """The figures that differ, in words."""
    try:
        vertices, triangles, says = read_listing(path)
        corners = [tuple(vertices[i] for i in t) for t in triangles]
    except (OSError, ValueError, IndexError) as what:
        return [f"no answer ({what})"]
    each = VERTICES_A_QUAD.get(reader, 4)
    expected = {
        "vertices": (each * len(quads) if each else len({c for q in quads for c in q.corners}),),
        "triangles": (2 * len(quads),),
        "bounds": bounds(c for q in quads for c in q.corners),
        "area": (sum(q.area for q in quads),),
        # the volume between a surface and the origin: a third of area times distance, outward counted up
        "volume": (sum(q.sign * q.low[q.n] * q.area for q in quads) / 3,),
    }
    found = {
        "vertices": (len(vertices),),
        "triangles": (len(triangles),),
        "bounds": bounds(c for t in corners for c in t),
        "area": (sum(math.sqrt(sum(k * k for k in cross(t))) for t in corners) / 2,),
    }
    six_volumes = sum(p * k for t in corners for p, k in zip(t[0], cross(t)))
    found["volume"] = (six_volumes / 6,)
    bad = [words(name, found[name], wanted) for name, wanted in expected.items() if found[name] != wanted]
    if voxels is not None and six_volumes != 6 * voxels:
        bad.append(words("voxels", (six_volumes / 6,), (voxels,)))
    pairs = iter(corners)
    wrong = sum(not quad.is_tiled_by(list(islice(pairs, 2))) for quad in quads)
    if wrong:
        bad.append(f"quads ({wrong} not tiled by their two triangles)")
    # an importer's own sums are as wide as it makes them
    for name, own in says.items():
        wanted = expected[name]
        near = (math.isclose(a, b, rel_tol=1e-5, abs_tol=1e-4) for a, b in zip(own, wanted))
        if len(own) != len(wanted) or not all(near):
            bad.append(words("its own " + name, own, wanted))
    return bad


def words(name, found, wanted):
    return f"{name} ({' '.join(map(str, found))} for {' '.join(map(str, wanted))})"


def main(x, y, z, block, listed, *readers):
    shape = int(x), int(y), int(z)
    quads, voxels = read_quads(listed), solid_voxels(shape, block)
    print(f"{len(quads)} quads of area {sum(q.area for q in quads)}, bounds",
          *bounds(c for q in quads for c in q.corners),
          "and no closed solid" if voxels is None else f"and a solid of {voxels} voxels")
    bad = 0
    for reader, path in (word.split("=", 1) for word in readers):
        figures = differing(reader, path, quads, voxels)
        bad += bool(figures)
        print(reader, "differs in " + ", ".join(figures) if figures else "same")
    sys.exit(1 if bad else 0)


main(*sys.argv[1:])
