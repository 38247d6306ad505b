"""Renders an OBJ file by Blender's Cycles on the processor, without a screen.

    blender --background --factory-startup --python-exit-code 1 --python picture.py -- FILE.obj OUT.png

The quads' outlines are drawn thick, and the diagonals that cut them into triangles thin. The view is from +X, -Y and
+Z, with z up. One sharp sun and surfaces that glow a little leave nothing to chance, so that no grain is in the
picture."""
import sys

import bpy
from mathutils import Vector


def material(name, colour, glow, toward=(0, 0, 0)):
    """A matt surface. It glows by itself, more where it faces `toward`, which stands in for the light of the sky."""
    made = bpy.data.materials.new(name)
    made.use_nodes = True
    nodes, links = made.node_tree.nodes, made.node_tree.links
    surface = nodes["Principled BSDF"]
    surface.inputs["Base Color"].default_value = (*colour, 1)
    surface.inputs["Emission"].default_value = (*colour, 1)
    surface.inputs["Specular"].default_value = 0
    faces = nodes.new("ShaderNodeVectorMath")
    faces.operation = "DOT_PRODUCT"
    faces.inputs[1].default_value = toward
    links.new(nodes.new("ShaderNodeNewGeometry").outputs["Normal"], faces.inputs[0])
    strength = nodes.new("ShaderNodeMath")
    strength.operation = "ADD"
    strength.inputs[1].default_value = glow
    links.new(faces.outputs["Value"], strength.inputs[0])
    links.new(strength.outputs["Value"], surface.inputs["Emission Strength"])
    return made


def lines(name, segments, thickness, colour):
    """Thin round bars along the segments."""
    curve = bpy.data.curves.new(name, "CURVE")
    curve.dimensions = "3D"
    curve.bevel_depth = thickness
    curve.bevel_resolution = 3
    curve.use_fill_caps = True
    for ends in segments:
        spline = curve.splines.new("POLY")
        spline.points.add(1)
        for point, end in zip(spline.points, ends):
            point.co = (*end, 1)
    curve.materials.append(material(name, colour, 0.5))
    bpy.context.collection.objects.link(bpy.data.objects.new(name, curve))


def leave_out_text(path):
    """Takes the chunks of text out of a PNG: they say when it was rendered and how long that took, and without them the
    same mesh gives the same bytes."""
    with open(path, "rb") as file:
        png = file.read()
    kept, at = png[:8], 8
    while at < len(png):
        end = at + 12 + int.from_bytes(png[at:at + 4], "big")
        if png[at + 4:at + 8] != b"tEXt":
            kept += png[at:end]
        at = end
    with open(path, "wb") as file:
        file.write(kept)


def main(source, target):
    bpy.ops.wm.read_factory_settings(use_empty=True)
    bpy.ops.wm.obj_import(filepath=source, forward_axis="Y", up_axis="Z")
    mesh = bpy.data.objects[0].data
    mesh.materials.clear()
    mesh.materials.append(material("stone", (0.78, 0.46, 0.19), 0.40, (-0.02, 0, 0.04)))

    # No two quads share a vertex, so the edge that two triangles share is a quad's diagonal.
    uses = {}
    for polygon in mesh.polygons:
        for edge in polygon.edge_keys:
            uses[edge] = uses.get(edge, 0) + 1
    ends = {edge: [mesh.vertices[i].co for i in edge] for edge in uses}
    lines("outlines", [ends[e] for e in uses if uses[e] == 1], 0.020, (0.02, 0.02, 0.03))
    lines("diagonals", [ends[e] for e in uses if uses[e] == 2], 0.008, (0.10, 0.05, 0.02))

    corners = [v.co for v in mesh.vertices]
    low, high = Vector(map(min, zip(*corners))), Vector(map(max, zip(*corners)))
    middle, size = (low + high) / 2, (high - low).length
    bpy.ops.mesh.primitive_plane_add(size=30 * size, location=(middle.x, middle.y, low.z - 0.03))
    bpy.context.object.data.materials.append(material("floor", (0.95, 0.95, 0.96), 0.70))

    light = bpy.data.lights.new("sun", "SUN")
    light.energy, light.angle = 2.0, 0
    sun = bpy.data.objects.new("sun", light)
    sun.rotation_euler = Vector((0.42, 0.60, -1)).to_track_quat("-Z", "Y").to_euler()
    bpy.context.collection.objects.link(sun)

    # no surface lights another
    for thing in (thing for thing in bpy.data.objects if thing != sun):
        thing.visible_diffuse = thing.visible_glossy = False

    scene = bpy.context.scene
    scene.world = bpy.data.worlds.new("dark")
    scene.world.color = (0, 0, 0)
    scene.render.engine = "CYCLES"
    scene.cycles.device = "CPU"
    scene.cycles.samples = 32
    scene.cycles.use_denoising = False
    scene.cycles.max_bounces = 0
    scene.render.dither_intensity = 0
    scene.view_settings.view_transform = "Standard"
    scene.render.resolution_x, scene.render.resolution_y, scene.render.resolution_percentage = 800, 560, 100
    scene.render.image_settings.file_format = "PNG"
    scene.render.image_settings.color_mode = "RGB"
    scene.render.image_settings.compression = 100
    scene.render.filepath = target

    camera = bpy.data.objects.new("camera", bpy.data.cameras.new("camera"))
    bpy.context.collection.objects.link(camera)
    scene.camera = camera
    camera.data.lens = 70
    back = Vector((0.85, -1.35, 0.95)).normalized()
    camera.rotation_euler = (-back).to_track_quat("-Z", "Y").to_euler()
    bpy.context.view_layer.update()
    fit, _ = camera.camera_fit_coords(bpy.context.evaluated_depsgraph_get(), [k for c in corners for k in c])
    camera.location = fit + back * 0.12 * (fit - middle).length
    bpy.ops.render.render(write_still=True)
    leave_out_text(target)


words = sys.argv[sys.argv.index("--") + 1:]
main(*words)
