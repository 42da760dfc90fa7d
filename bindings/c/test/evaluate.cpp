/* Times the evaluation of a table over three doubles a point: by one thread, by four over disjoint ranges, and by OpenSubdiv's tables where its
   headers are there. The mesh is a torus of 20,000 quads at depth 2. Each time is the least of many.

   c++ -std=c++17 -O2 -Iinclude bindings/c/test/evaluate.cpp build/lib/libdrillolive.a -losdCPU -pthread -o evaluate */
#include <chrono>
#include <cmath>
#include <cstdio>
#include <functional>
#include <thread>
#include <vector>

#if __has_include(<opensubdiv/far/stencilTableFactory.h>)
#define HAS_OPENSUBDIV 1
#include <opensubdiv/far/stencilTableFactory.h>
#include <opensubdiv/far/topologyDescriptor.h>
#include <opensubdiv/osd/cpuEvaluator.h>
#endif

#include "drillolive.hpp"

static const int around = 200, across = 100, quads = around * across, depth = 2, rounds = 60;

static std::vector<double> xyz(3 * quads);
static std::vector<std::uint32_t> sizes(quads, 4), corners(4 * quads);

static void make_torus() {
    const double turn = 2 * std::acos(-1.0);
    for (int i = 0; i < quads; i++) {
        int a = i / across, b = i % across, next_a = (a + 1) % around * across, next_b = (b + 1) % across;
        double out = 3 + std::cos(turn * b / across);
        double at[3] = {out * std::cos(turn * a / around), out * std::sin(turn * a / around), std::sin(turn * b / across)};
        for (int k = 0; k < 3; k++) xyz[3 * i + k] = std::round(at[k] * 0x1p20) * 0x1p-20;
        int face[4] = {i, next_a + b, next_a + next_b, a * across + next_b};
        for (int k = 0; k < 4; k++) corners[4 * i + k] = static_cast<std::uint32_t>(face[k]);
    }
}

/* The least number of milliseconds of many rounds. */
static double least(const std::function<void()> &work) {
    double best = 1e9;
    for (int round = 0; round < rounds; round++) {
        auto began = std::chrono::steady_clock::now();
        work();
        best = std::min(best, std::chrono::duration<double, std::milli>(std::chrono::steady_clock::now() - began).count());
    }
    return best;
}

static void apply_by_threads(const drillolive::table &table, std::size_t threads, std::vector<double> &out) {
    std::vector<std::thread> running;
    std::size_t rows = table.counts().rows;
    for (std::size_t t = 0; t < threads; t++) {
        std::size_t from = rows * t / threads, to = rows * (t + 1) / threads;
        running.emplace_back([&table, &out, from, to] { table.apply(xyz, 3, from, to, out.data() + 3 * from); });
    }
    for (auto &thread : running) thread.join();
}

#ifdef HAS_OPENSUBDIV
namespace Far = OpenSubdiv::Far;
namespace Osd = OpenSubdiv::Osd;

/* Three doubles, as a table of OpenSubdiv evaluates them. */
struct point {
    double at[3] = {0, 0, 0};
    void Clear() { at[0] = at[1] = at[2] = 0; }
    void AddWithWeight(const point &other, double weight) {
        for (int k = 0; k < 3; k++) at[k] += weight * other.at[k];
    }
};

static void time_opensubdiv(double ours) {
    std::vector<int> counts(sizes.begin(), sizes.end()), indices(corners.begin(), corners.end());
    Far::TopologyDescriptor torus;
    torus.numVertices = quads;
    torus.numFaces = quads;
    torus.numVertsPerFace = counts.data();
    torus.vertIndicesPerFace = indices.data();
    using Factory = Far::TopologyRefinerFactory<Far::TopologyDescriptor>;
    Far::TopologyRefiner *refiner = Factory::Create(torus, Factory::Options(OpenSubdiv::Sdc::SCHEME_CATMARK));
    refiner->RefineUniform(Far::TopologyRefiner::UniformOptions(depth));
    Far::StencilTableFactory::Options options;
    options.generateIntermediateLevels = false;
    const Far::StencilTable *floats = Far::StencilTableFactory::Create(*refiner, options);
    Far::StencilTableFactoryReal<double>::Options double_options;
    double_options.generateIntermediateLevels = false;
    const Far::StencilTableReal<double> *doubles = Far::StencilTableFactoryReal<double>::Create(*refiner, double_options);
    std::vector<float> from(xyz.begin(), xyz.end()), to(3 * static_cast<std::size_t>(floats->GetNumStencils()));
    std::vector<point> points(quads), refined(doubles->GetNumStencils());
    for (int i = 0; i < quads; i++) for (int k = 0; k < 3; k++) points[i].at[k] = xyz[3 * i + k];
    double by_floats = least([&] {
        Osd::BufferDescriptor three(0, 3, 3);
        Osd::CpuEvaluator::EvalStencils(from.data(), three, to.data(), three, floats->GetSizes().data(), floats->GetOffsets().data(),
                                        floats->GetControlIndices().data(), floats->GetWeights().data(), 0, floats->GetNumStencils());
    });
    double by_doubles = least([&] { doubles->UpdateValues(points, refined); });
    std::printf("OpenSubdiv: CpuEvaluator over floats %.2f ms, a table of doubles %.2f ms\n", by_floats, by_doubles);
    std::printf("Drillolive over doubles takes %.2f and %.2f of these\n", ours / by_floats, ours / by_doubles);
    delete floats;
    delete doubles;
    delete refiner;
}
#else
static void time_opensubdiv(double) { std::printf("OpenSubdiv's headers are not there: skipped\n"); }
#endif

int main() {
    make_torus();
    auto mesh = drillolive::mesh::of_doubles(xyz, sizes, corners);
    auto made = drillolive::table::of_doubles(mesh.value(), depth);
    if (!made) return std::printf("%s\n", made.line().c_str()), 1;
    const drillolive::table &table = made.value();
    std::vector<double> out(3 * table.counts().rows);
    double one = least([&] { table.apply(xyz, 3, 0, table.counts().rows, out.data()); });
    double four = least([&] { apply_by_threads(table, 4, out); });
    std::printf("%zu rows, %zu entries\n", table.counts().rows, table.counts().entries);
    std::printf("one thread %.2f ms, four %.2f ms, %.2f times as fast\n", one, four, one / four);
    time_opensubdiv(one);
    return 0;
}
