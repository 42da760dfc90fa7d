/* Tests the wrappers for C++. It is compiled with exceptions and without. The last line is `the C++ wrappers: N checks passed`. */
#include "drillolive.hpp"

#include <cmath>
#include <cstdio>

static int passed, failed;

static void check(bool holds, const char *what, int line) {
    if (holds) passed++;
    else failed++, std::printf("FAILED test.cpp:%d: %s\n", line, what);
}

#define CHECK(condition) check((condition), #condition, __LINE__)

static const std::vector<double> POINTS = {-1, -1, 1, 1, -1, 1, -1, 1, 1, 1, 1, 1, -1, 1, -1, 1, 1, -1, -1, -1, -1, 1, -1, -1};
static const std::vector<std::uint32_t> SIZES(6, 4);
static const std::vector<std::uint32_t> CORNERS = {0, 1, 3, 2, 2, 3, 5, 4, 4, 5, 7, 6, 6, 7, 1, 0, 1, 7, 5, 3, 6, 0, 2, 4};

static void test_table() {
    auto cube = drillolive::mesh::of_doubles(POINTS, SIZES, CORNERS);
    CHECK(bool(cube) && cube.value().counts().points == 8 && cube.value().corners()[2] == 3);
    auto made = drillolive::table::of_doubles(cube.value(), 1);
    CHECK(bool(made));
    drillolive::table table = std::move(made).value();
    CHECK(table.counts().entries == 152 && table.starts().size() == 27 && table.doubles()[0] == 15.0 / 36 && table.floats().empty());
    auto refined = drillolive::points::of_doubles(cube.value(), 1);
    auto applied = table.apply(POINTS, 3);
    CHECK(bool(refined) && bool(applied) && applied.value().size() == 78);
    bool near = true;
    for (std::size_t i = 0; i < 78; i++) near = near && std::fabs(applied.value()[i] - refined.value().doubles()[i]) < 1e-14;
    CHECK(near);
    std::vector<double> part(3);
    CHECK(bool(table.apply(POINTS, 3, 4, 5, part.data())) && part[0] == applied.value()[12]);
    CHECK(!table.apply(POINTS, 5));
    drillolive::table other;
    other = std::move(table);
    CHECK(other.counts().rows == 26 && table.get() == nullptr && table.counts().rows == 0);
    CHECK(drillolive::table::of_exact(cube.value(), 1).value().denominators().size() == 26);
}

static void test_mesh() {
    std::vector<float> floats(POINTS.begin(), POINTS.end());
    std::vector<std::int64_t> numerators(POINTS.begin(), POINTS.end());
    std::uint64_t changed = 1;
    auto mesh = drillolive::mesh::on_grid(floats, SIZES, CORNERS, 3, &changed);
    CHECK(bool(mesh) && changed == 0);
    CHECK(bool(drillolive::mesh::on_grid(POINTS, SIZES, CORNERS, 3)) && bool(drillolive::mesh::of_floats(floats, SIZES, CORNERS)));
    CHECK(bool(drillolive::mesh::of_exact(numerators, 7, SIZES, CORNERS)));
    CHECK(bool(mesh.value().set_creases(std::vector<std::uint32_t>{0, 1}, std::vector<double>{2.5})));
    CHECK(bool(mesh.value().set_corner_tags(std::vector<std::uint32_t>{0}, std::vector<double>{10})));
    CHECK(bool(mesh.value().set_holes(std::vector<std::uint32_t>{5})) && bool(mesh.value().set_boundary(DRILLOLIVE_BOUNDARY_NONE)));
    CHECK(bool(mesh.value().set_method(DRILLOLIVE_METHOD_CHAIKIN)) && bool(mesh.value().check()));
    auto level = drillolive::level::of(mesh.value(), 1);
    CHECK(bool(level) && level.value().counts().edges == 48 && level.value().holes()[23] == 1 && level.value().face_parent(23).value() == 5);
    CHECK(level.value().face_parent(24).fault().status == DRILLOLIVE_RANGE);
}

static void test_rows() {
    auto cube = drillolive::mesh::of_doubles(POINTS, SIZES, CORNERS);
    drillolive::mesh &mesh = cube.value();
    CHECK(drillolive::table::of_limit(mesh, 2).value().counts().rows == 98 && !drillolive::table::of_limit(mesh, 0));
    auto exact = drillolive::table::of_exact(mesh, 1);
    auto stored = drillolive::table::of_stored(exact.value().text().value());
    CHECK(bool(stored) && stored.value().counts().entries == 152 && stored.value().text().value() == exact.value().text().value());
    std::vector<drillolive::wide> ones(8, drillolive::wide{1, 0});
    auto sums = exact.value().apply(ones, 1);
    CHECK(bool(sums) && sums.value()[0].low == exact.value().denominators()[0].low);
    CHECK(drillolive::points::of_limit(mesh, 1).value().doubles().size() == 78);
    CHECK(drillolive::points::of_patch(mesh, 3, 5, 1).fault().status == DRILLOLIVE_DONE);
    CHECK(!drillolive::points::of_texture(mesh, 1, DRILLOLIVE_SEAMS_SMOOTH) && !drillolive::level::of_texture(mesh, 1, DRILLOLIVE_SEAMS_SMOOTH));
    auto origins = drillolive::origins::of(mesh, 1);
    CHECK(origins.value().kinds()[8] == DRILLOLIVE_ON_FACE && origins.value().numbers()[14] == 0 && origins.value().face_parents()[23] == 5);
    auto sparse = drillolive::sparse::of(mesh, 2);
    CHECK(bool(sparse) && sparse.value().counts().levels == 3 && sparse.value().level_faces()[0] == 6 && sparse.value().doubles()[0] == -1);
}

static void test_session() {
    auto cube = drillolive::mesh::of_doubles(POINTS, SIZES, CORNERS);
    auto made = drillolive::session::of(cube.value(), 1, 20);
    drillolive::session &session = made.value();
    CHECK(bool(session.move(std::vector<std::uint32_t>{0}, std::vector<double>{-1, -1, 1.5})) && session.denominator().low == 1 << 20);
    CHECK(session.take_changed().size() == 19 && session.take_changed().empty());
    CHECK(session.read().value().size() == 78 && session.read(std::vector<std::uint32_t>{0}).value()[2] == session.read().value()[2]);
    CHECK(!session.move(std::vector<std::uint32_t>{8}, std::vector<double>{0, 0, 0}));
}

static void test_faults() {
    const std::vector<std::uint32_t> small = {2, 4};
    auto broken = drillolive::mesh::of_doubles(POINTS, small, std::vector<std::uint32_t>{0, 1, 0, 1, 3, 1});
    CHECK(broken.value().faults().value().size() == 4 && broken.value().faults().value()[1].kind == 1);
    auto bad = drillolive::mesh::of_obj("v 0 0 0\nq\n");
    CHECK(!bad && bad.fault().status == DRILLOLIVE_OBJ && bad.fault().first == 2 && !bad.line().empty() && bad.advice()[0]);
#ifdef DRILLOLIVE_EXCEPTIONS
    bool thrown = false;
    try {
        bad.value();
    } catch (const drillolive::error &error) {
        thrown = error.fault.status == DRILLOLIVE_OBJ;
    }
    CHECK(thrown);
#endif
    auto made = drillolive::run({"levels", "depth=0"}, "v 0 0 0\nv 1 0 0\nv 0 1 0\nf 1 2 3\n");
    CHECK(bool(made) && made.value().status == 0 && made.value().text.find("level 0 points 3") == 0 && made.value().error.empty());
}

int main() {
    test_table();
    test_mesh();
    test_rows();
    test_session();
    test_faults();
    if (failed) return 1;
    std::printf("the C++ wrappers: %d checks passed\n", passed);
    return 0;
}
