// Reads OBJ files by tinyobjloader, and writes what it then holds: tinyobjloader FILE.obj LISTING, as compare.py has
// listings. A file without a vertex gets no listing: what tinyobjloader makes of it is said in one line.
#include <cstdio>
#include <string>
#include <vector>

#include <tiny_obj_loader.h>

int main(int argc, char **argv)
{
    if (argc != 3) {
        std::fprintf(stderr, "usage: tinyobjloader FILE.obj LISTING\n");
        return 2;
    }
    tinyobj::attrib_t attributes;
    std::vector<tinyobj::shape_t> shapes;
    std::vector<tinyobj::material_t> materials;
    std::string warning, error;
    const bool triangulate = false; // the file's own triangles
    const bool taken =
        tinyobj::LoadObj(&attributes, &shapes, &materials, &warning, &error, argv[1], nullptr, triangulate);
    std::string said = warning + error;
    if (!taken || !said.empty()) {
        said.erase(said.find_last_not_of('\n') + 1);
        std::printf("%s it: \"%s\"\n", taken ? "warns of" : "refuses", said.c_str());
        return 1;
    }
    const std::vector<tinyobj::real_t> &numbers = attributes.vertices;
    if (numbers.empty()) {
        std::printf("takes it: vertices 0, shapes %zu\n", shapes.size());
        return 0;
    }
    std::FILE *out = std::fopen(argv[2], "w");
    if (out == nullptr) {
        std::fprintf(stderr, "tinyobjloader: %s can't be written\n", argv[2]);
        return 2;
    }
    for (std::size_t i = 0; i + 2 < numbers.size(); i += 3)
        std::fprintf(out, "v %.9g %.9g %.9g\n", numbers[i], numbers[i + 1], numbers[i + 2]);
    for (const tinyobj::shape_t &shape : shapes) {
        std::size_t at = 0;
        for (unsigned corners : shape.mesh.num_face_vertices) {
            std::fprintf(out, "t");
            for (unsigned k = 0; k < corners; k++)
                std::fprintf(out, " %d", shape.mesh.indices[at++].vertex_index);
            std::fprintf(out, "\n");
        }
    }
    return std::fclose(out) == 0 ? 0 : 2;
}
