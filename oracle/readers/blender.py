"""Reads OBJ files by Blender, and writes what it then holds, as compare.py has listings.

    blender --background --factory-startup --python-exit-code 1 --python blender.py -- DIR NAME..

reads DIR/NAME.obj and writes DIR/NAME.blender by Blender's own importer, and DIR/NAME.blender-addon by the older one in
Python, where this Blender has it. A file that gives no vertex gets no listing: what Blender makes of it is said in one
line that begins with `NAME: READER: `."""
import sys

import bmesh
import bpy
from mathutils import Vector


# Both turn what they read so that y is up, unless they are told which axes are forward and up in the file.
def own(path):
    bpy.ops.wm.obj_import(filepath=path, forward_axis="Y", up_axis="Z")


def addon(path):
    bpy.ops.import_scene.obj(filepath=path, axis_forward="Y", axis_up="Z")


def write(out, objects):
    """The vertices where they stand in the scene, the polygons, and what Blender itself measures."""
    before, counts = 0, [0, 0]
    area, volume, boxes = 0, 0, []
    for thing in objects:
        mesh, place = thing.data, thing.matrix_world
        for vertex in mesh.vertices:
            out.write("v {:.9g} {:.9g} {:.9g}\n".format(*(place @ vertex.co)))
        for polygon in mesh.polygons:
            out.write("t {}\n".format(" ".join(str(before + i) for i in polygon.vertices)))
        before += len(mesh.vertices)
        counts = [counts[0] + len(mesh.vertices), counts[1] + len(mesh.polygons)]
        measured = bmesh.new()
        measured.from_mesh(mesh)
        measured.transform(place)
        area += sum(face.calc_area() for face in measured.faces)
        volume += measured.calc_volume(signed=True)
        measured.free()
        boxes += [place @ Vector(corner) for corner in thing.bound_box]
    out.write("says vertices {}\nsays triangles {}\nsays area {}\nsays volume {}\n".format(*counts, area, volume))
    out.write("says bounds {} {} {} {} {} {}\n".format(*map(min, zip(*boxes)), *map(max, zip(*boxes))))


def main(folder, names):
    readers = {"blender": own}
    if "obj" in dir(bpy.ops.import_scene):
        readers["blender-addon"] = addon
    for name in names:
        for reader, read in readers.items():
            bpy.ops.wm.read_factory_settings(use_empty=True)
            try:
                read(f"{folder}/{name}.obj")
            except Exception as what:
                print(f'{name}: {reader}: refuses it: "{what}"')
                continue
            objects = list(bpy.data.objects)
            count = sum(len(thing.data.vertices) for thing in objects)
            if count == 0:
                print(f"{name}: {reader}: takes it: vertices 0, objects {len(objects)}")
                continue
            with open(f"{folder}/{name}.{reader}", "w") as out:
                write(out, objects)


words = sys.argv[sys.argv.index("--") + 1:]
main(words[0], words[1:])
