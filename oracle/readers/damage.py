"""Damages an OBJ file, so that it can be seen whether the comparison of what is read notices.

    damage.py FILE.obj DIR

FILE has six lines a quad after the first. Writes DIR/damaged-NAME.obj for each damage, to a quad in the middle, and
prints a line for each: NAME, and the figure that has to show it."""
import sys


def main(path, folder):
    with open(path) as file:
        first, *lines = file.read().splitlines()
    quads = [lines[at:at + 6] for at in range(0, len(lines), 6)]
    middle = len(quads) // 2

    def write(name, shown_by, damaged):
        with open(f"{folder}/damaged-{name}.obj", "w") as out:
            out.write("\n".join([first, *(line for quad in damaged for line in quad)]) + "\n")
        print(name, shown_by)

    def instead(quad):
        return quads[:middle] + [quad] + quads[middle + 1:]

    def moved(line, axis):
        words = line.split()
        words[axis + 1] = str(int(words[axis + 1]) + 1)
        return " ".join(words)

    def earlier(line):
        """A line of three numbers once four vertices before them are left out."""
        letter, *numbers = line.split()
        return " ".join([letter, *(str(int(number) - 4) for number in numbers)])

    quad = quads[middle]
    letter, a, b, c = quad[5].split()
    write("flipped-triangle", "volume", instead(quad[:5] + [f"{letter} {a} {c} {b}"]))
    write("moved-vertex", "area", instead([moved(quad[0], 0)] + quad[1:]))
    after = [q[:4] + [earlier(line) for line in q[4:]] for q in quads[middle + 1:]]
    write("left-out-quad", "triangles", quads[:middle] + after)
    # a quad that is moved in its own plane leaves counts, area and volume as they were
    corners = [line.split()[1:] for line in quad[:4]]
    along = next(axis for axis in range(3) if len({corner[axis] for corner in corners}) > 1)
    write("shifted-quad", "quads", instead([moved(line, along) for line in quad[:4]] + quad[4:]))


main(*sys.argv[1:])
