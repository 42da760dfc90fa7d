/* The tables of Drillolive beside those of OpenSubdiv 3, on one mesh at depths 1 to 3. The weights of both are floats. From depth 2 on the two
   order the points of a level in other ways. So each row is compared with the row that is nearest to it. The result is the largest difference of a
   weight, in units in the last place.

   c++ -std=c++17 -O2 -Iinclude examples/cpp/opensubdiv.cpp build/lib/libdrillolive.a -losdCPU -o opensubdiv */
#if __has_include(<opensubdiv/far/stencilTableFactory.h>)

#include <opensubdiv/far/stencilTableFactory.h>
#include <opensubdiv/far/topologyDescriptor.h>

#include <cmath>
#include <cstdio>
#include <cstring>
#include <map>
#include <vector>

#include "drillolive.hpp"

namespace Far = OpenSubdiv::Far;
namespace Sdc = OpenSubdiv::Sdc;

using row = std::map<int, float>;

/* A cube with a crease of sharpness 1.5 and a sharp corner, and without a face. */
static const std::vector<double> points = {-1, -1, 1, 1, -1, 1, -1, 1, 1, 1, 1, 1, -1, 1, -1, 1, 1, -1, -1, -1, -1, 1, -1, -1};
static const std::vector<std::uint32_t> sizes(5, 4);
static const std::vector<std::uint32_t> corners = {0, 1, 3, 2, 2, 3, 5, 4, 4, 5, 7, 6, 6, 7, 1, 0, 1, 7, 5, 3};
static const std::vector<std::uint32_t> crease = {2, 3}, corner = {1};
static const std::vector<double> crease_sharpness = {1.5}, corner_sharpness = {10};

static std::vector<row> rows_of_drillolive(int depth) {
    auto mesh = drillolive::mesh::of_doubles(points, sizes, corners);
    mesh.value().set_creases(crease, crease_sharpness);
    mesh.value().set_corner_tags(corner, corner_sharpness);
    auto table = drillolive::table::of_floats(mesh.value(), static_cast<std::uint32_t>(depth));
    if (!table) std::printf("%s\n", table.line().c_str());
    std::vector<row> rows(table.value().counts().rows);
    for (std::size_t r = 0; r < rows.size(); r++) {
        for (auto e = table.value().starts()[r]; e < table.value().starts()[r + 1]; e++) {
            rows[r][static_cast<int>(table.value().indices()[e])] = table.value().floats()[e];
        }
    }
    return rows;
}

static Far::TopologyRefiner *refiner_of_cube() {
    static std::vector<int> counts(sizes.begin(), sizes.end()), indices(corners.begin(), corners.end());
    static std::vector<int> ends(crease.begin(), crease.end()), tagged(corner.begin(), corner.end());
    static std::vector<float> sharp(crease_sharpness.begin(), crease_sharpness.end()), at_corner(corner_sharpness.begin(), corner_sharpness.end());
    Far::TopologyDescriptor cube;
    cube.numVertices = 8;
    cube.numFaces = static_cast<int>(sizes.size());
    cube.numVertsPerFace = counts.data();
    cube.vertIndicesPerFace = indices.data();
    cube.numCreases = 1;
    cube.creaseVertexIndexPairs = ends.data();
    cube.creaseWeights = sharp.data();
    cube.numCorners = 1;
    cube.cornerVertexIndices = tagged.data();
    cube.cornerWeights = at_corner.data();
    Sdc::Options options;
    options.SetVtxBoundaryInterpolation(Sdc::Options::VTX_BOUNDARY_EDGE_ONLY);
    using Factory = Far::TopologyRefinerFactory<Far::TopologyDescriptor>;
    return Factory::Create(cube, Factory::Options(Sdc::SCHEME_CATMARK, options));
}

/* The rows of the level at this depth. */
static std::vector<row> rows_of_opensubdiv(int depth) {
    Far::TopologyRefiner *refiner = refiner_of_cube();
    refiner->RefineUniform(Far::TopologyRefiner::UniformOptions(depth));
    Far::StencilTableFactory::Options options;
    options.generateIntermediateLevels = false;
    options.generateOffsets = true;
    const Far::StencilTable *table = Far::StencilTableFactory::Create(*refiner, options);
    std::vector<row> rows(static_cast<std::size_t>(table->GetNumStencils()));
    for (int r = 0; r < table->GetNumStencils(); r++) {
        Far::Stencil stencil = table->GetStencil(r);
        for (int e = 0; e < stencil.GetSize(); e++) rows[static_cast<std::size_t>(r)][stencil.GetVertexIndices()[e]] += stencil.GetWeights()[e];
    }
    delete table;
    delete refiner;
    return rows;
}

static int ulps(float a, float b) {
    std::int32_t p, q;
    std::memcpy(&p, &a, sizeof p);
    std::memcpy(&q, &b, sizeof q);
    return std::abs(p - q);
}

/* The distance of two rows in units in the last place, or -1 where one has a control that the other has not. */
static int distance(const row &a, const row &b) {
    int most = 0;
    for (const auto &[control, weight] : a) {
        auto other = b.find(control);
        if (other == b.end() && std::fabs(weight) > 1e-6f) return -1;
        if (other != b.end()) most = std::max(most, ulps(weight, other->second));
    }
    return most;
}

/* The least distance of a row to one of the others. */
static int nearest(const row &wanted, const std::vector<row> &others) {
    int least = -1;
    for (const row &other : others) {
        int there = distance(wanted, other), back = distance(other, wanted);
        if (there >= 0 && back >= 0 && (least < 0 || std::max(there, back) < least)) least = std::max(there, back);
    }
    return least;
}

int main() {
    for (int depth = 1; depth <= 3; depth++) {
        std::vector<row> ours = rows_of_drillolive(depth), theirs = rows_of_opensubdiv(depth);
        int most = 0, alone = 0;
        for (const row &wanted : ours) {
            int least = nearest(wanted, theirs);
            if (least < 0) alone++;
            most = std::max(most, least);
        }
        std::printf("depth %d: %zu and %zu rows, %d without an equal, largest difference %d units in the last place\n", depth, ours.size(),
                    theirs.size(), alone, most);
        if (alone || ours.size() != theirs.size()) return 1;
    }
    return 0;
}

#else

#include <cstdio>

int main() {
    std::puts("OpenSubdiv is missing: skipped");
    return 0;
}

#endif
