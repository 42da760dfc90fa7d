/* Drillolive for C++17: owners of the handles of drillolive.h, which says what each call does, what is proved and what is only tested.

   An owner can be moved and not copied, and frees its handle. A call that may fail returns a `result`, which has a fault or a value. Where
   DRILLOLIVE_EXCEPTIONS is defined, `value` of a fault throws `drillolive::error`. Otherwise the caller must test the result first, as with
   std::optional. A `view` is a pointer and a length into memory that a handle or the caller owns, and ends with it. */
#ifndef DRILLOLIVE_HPP
#define DRILLOLIVE_HPP

#include <algorithm>
#include <cstddef>
#include <cstdint>
#include <memory>
#include <string>
#include <utility>
#include <vector>

#ifdef DRILLOLIVE_EXCEPTIONS
#include <stdexcept>
#endif

#include "drillolive.h"

namespace drillolive {

using wide = drillolive_wide;

inline std::string line_of(const drillolive_fault &fault) {
    std::string line(drillolive_fault_line(fault, nullptr, 0), ' ');
    drillolive_fault_line(fault, line.data(), line.size() + 1);
    return line;
}

#ifdef DRILLOLIVE_EXCEPTIONS
struct error : std::runtime_error {
    drillolive_fault fault;
    explicit error(const drillolive_fault &held) : std::runtime_error(line_of(held)), fault(held) {}
};
#endif

/* A fault, or none. */
class outcome {
public:
    explicit outcome(drillolive_fault fault) : held(fault) {}
    explicit operator bool() const { return held.status == DRILLOLIVE_DONE; }
    const drillolive_fault &fault() const { return held; }
    std::string line() const { return line_of(held); }
    const char *advice() const { return drillolive_fault_advice(held); }
    void check() const {
#ifdef DRILLOLIVE_EXCEPTIONS
        if (held.status != DRILLOLIVE_DONE) throw error(held);
#endif
    }

private:
    drillolive_fault held;
};

/* A fault, or a value. */
template <typename T> class result : public outcome {
public:
    result(drillolive_fault fault, T value) : outcome(fault), kept(std::move(value)) {}
    T &value() & { return check(), kept; }
    const T &value() const & { return check(), kept; }
    T value() && { return check(), std::move(kept); }

private:
    T kept;
};

/* Items that a handle or the caller owns. */
template <typename T> class view {
public:
    view() = default;
    view(const T *items, std::size_t count) : first(items), length(items ? count : 0) {}
    view(const std::vector<T> &items) : first(items.data()), length(items.size()) {}
    const T *data() const { return first; }
    std::size_t size() const { return length; }
    bool empty() const { return length == 0; }
    const T *begin() const { return first; }
    const T *end() const { return first + length; }
    const T &operator[](std::size_t place) const { return first[place]; }

private:
    const T *first = nullptr;
    std::size_t length = 0;
};

namespace detail {
template <typename Handle, void (*Free)(Handle *)> struct freeing {
    void operator()(Handle *handle) const { Free(handle); }
};
template <typename Handle, void (*Free)(Handle *)> using owner = std::unique_ptr<Handle, freeing<Handle, Free>>;

/* Calls what makes a handle, and gives the handle to its owner. */
template <typename Owner, typename Handle, typename... Arguments, typename... Given>
result<Owner> made(drillolive_fault (*call)(Arguments...), Given... given) {
    Handle *handle = nullptr;
    drillolive_fault fault = call(given..., &handle);
    return result<Owner>(fault, Owner(handle));
}
} // namespace detail

class mesh {
public:
    mesh() = default;
    explicit mesh(drillolive_mesh *handle) : held(handle) {}
    const drillolive_mesh *get() const { return held.get(); }
    drillolive_mesh *get() { return held.get(); }

    static result<mesh> of_doubles(view<double> xyz, view<std::uint32_t> face_sizes, view<std::uint32_t> corners) {
        return detail::made<mesh, drillolive_mesh>(drillolive_mesh_new_doubles, xyz.data(), xyz.size() / 3, faces(face_sizes, corners));
    }
    static result<mesh> of_floats(view<float> xyz, view<std::uint32_t> face_sizes, view<std::uint32_t> corners) {
        return detail::made<mesh, drillolive_mesh>(drillolive_mesh_new_floats, xyz.data(), xyz.size() / 3, faces(face_sizes, corners));
    }
    static result<mesh> of_exact(view<std::int64_t> numerators, std::uint64_t denominator, view<std::uint32_t> face_sizes, view<std::uint32_t> corners) {
        return detail::made<mesh, drillolive_mesh>(drillolive_mesh_new_exact, numerators.data(), denominator, numerators.size() / 3,
                                                   faces(face_sizes, corners));
    }
    static result<mesh> on_grid(view<double> xyz, view<std::uint32_t> face_sizes, view<std::uint32_t> corners, std::uint32_t grid_bits,
                                std::uint64_t *changed = nullptr) {
        return detail::made<mesh, drillolive_mesh>(drillolive_mesh_new_grid_doubles, xyz.data(), xyz.size() / 3, faces(face_sizes, corners),
                                                   grid_bits, changed);
    }
    static result<mesh> on_grid(view<float> xyz, view<std::uint32_t> face_sizes, view<std::uint32_t> corners, std::uint32_t grid_bits,
                                std::uint64_t *changed = nullptr) {
        return detail::made<mesh, drillolive_mesh>(drillolive_mesh_new_grid_floats, xyz.data(), xyz.size() / 3, faces(face_sizes, corners),
                                                   grid_bits, changed);
    }
    static result<mesh> of_obj(const std::string &text) {
        return detail::made<mesh, drillolive_mesh>(drillolive_mesh_new_obj, static_cast<const void *>(text.data()), text.size());
    }

    /* Two ends and a sharpness for each crease, and a point and a sharpness for each corner tag. The lesser number counts. */
    outcome set_creases(view<std::uint32_t> ends, view<double> sharpness) {
        return outcome(drillolive_mesh_set_creases(get(), ends.data(), sharpness.data(), std::min(ends.size() / 2, sharpness.size())));
    }
    outcome set_corner_tags(view<std::uint32_t> points, view<double> sharpness) {
        return outcome(drillolive_mesh_set_corner_tags(get(), points.data(), sharpness.data(), std::min(points.size(), sharpness.size())));
    }
    outcome set_holes(view<std::uint32_t> faces) { return outcome(drillolive_mesh_set_holes(get(), faces.data(), faces.size())); }
    outcome set_boundary(drillolive_boundary boundary) { return outcome(drillolive_mesh_set_boundary(get(), boundary)); }
    outcome set_method(drillolive_method method) { return outcome(drillolive_mesh_set_method(get(), method)); }
    outcome set_texture(view<double> uv, view<std::uint32_t> corners) {
        return outcome(drillolive_mesh_set_texture_doubles(get(), uv.data(), uv.size() / 2, corners.data(), corners.size()));
    }
    outcome set_texture(view<float> uv, view<std::uint32_t> corners) {
        return outcome(drillolive_mesh_set_texture_floats(get(), uv.data(), uv.size() / 2, corners.data(), corners.size()));
    }
    outcome check() const { return outcome(drillolive_mesh_check(get())); }

    /* All faults of a mesh that is no manifold. */
    result<std::vector<drillolive_fault>> faults() const {
        std::vector<drillolive_fault> list;
        std::size_t count = 0;
        drillolive_fault fault = drillolive_mesh_faults(get(), nullptr, 0, &count);
        if (fault.status == DRILLOLIVE_DONE && count) {
            list.resize(count);
            fault = drillolive_mesh_faults(get(), list.data(), count, &count);
        }
        return {fault, std::move(list)};
    }

    drillolive_mesh_counts counts() const {
        drillolive_mesh_counts counts = {};
        drillolive_mesh_count(get(), &counts);
        return counts;
    }
    view<std::uint32_t> face_sizes() const { return {drillolive_mesh_face_sizes(get()), counts().faces}; }
    view<std::uint32_t> corners() const { return {drillolive_mesh_corners(get()), counts().corners}; }
    view<std::uint32_t> texture_corners() const { return {drillolive_mesh_texture_corners(get()), counts().texture_corners}; }
    view<drillolive_crease> creases() const { return {drillolive_mesh_creases(get()), counts().creases}; }
    view<drillolive_corner_tag> corner_tags() const { return {drillolive_mesh_corner_tags(get()), counts().corner_tags}; }
    view<std::uint32_t> holes() const { return {drillolive_mesh_holes(get()), counts().holes}; }

private:
    static drillolive_faces faces(view<std::uint32_t> sizes, view<std::uint32_t> corners) {
        return {sizes.data(), sizes.size(), corners.data(), corners.size()};
    }
    detail::owner<drillolive_mesh, drillolive_mesh_free> held;
};

class table {
public:
    table() = default;
    explicit table(drillolive_table *handle) : held(handle) {}
    const drillolive_table *get() const { return held.get(); }

    static result<table> of_doubles(const mesh &cage, std::uint32_t depth) {
        return detail::made<table, drillolive_table>(drillolive_table_new_doubles, cage.get(), depth);
    }
    static result<table> of_floats(const mesh &cage, std::uint32_t depth) {
        return detail::made<table, drillolive_table>(drillolive_table_new_floats, cage.get(), depth);
    }
    static result<table> of_exact(const mesh &cage, std::uint32_t depth) {
        return detail::made<table, drillolive_table>(drillolive_table_new_exact, cage.get(), depth);
    }
    static result<table> of_limit(const mesh &cage, std::uint32_t depth, drillolive_form form = DRILLOLIVE_DOUBLES) {
        return detail::made<table, drillolive_table>(drillolive_table_new_limit, cage.get(), depth, form);
    }
    static result<table> of_patch(const mesh &cage, std::uint32_t depth, std::uint32_t face, std::uint32_t grid,
                                  drillolive_form form = DRILLOLIVE_DOUBLES) {
        return detail::made<table, drillolive_table>(drillolive_table_new_patch, cage.get(), depth, face, grid, form);
    }
    static result<table> of_texture(const mesh &cage, std::uint32_t depth, drillolive_seams seams, drillolive_form form = DRILLOLIVE_DOUBLES) {
        return detail::made<table, drillolive_table>(drillolive_table_new_texture, cage.get(), depth, seams, form);
    }
    /* The exact table of a stored text. Text behind the table is not read. */
    static result<table> of_stored(const std::string &text) {
        drillolive_table *handle = nullptr;
        std::size_t used = 0;
        drillolive_fault fault = drillolive_table_new_stored(text.data(), text.size(), &used, &handle);
        return result<table>(fault, table(handle));
    }
    result<std::string> text() const {
        drillolive_output *output = nullptr;
        drillolive_fault fault = drillolive_table_write(get(), &output);
        detail::owner<drillolive_output, drillolive_output_free> held_output(output);
        std::size_t length = 0;
        const char *bytes = drillolive_output_text(output, &length);
        return {fault, bytes ? std::string(bytes, length) : std::string()};
    }

    drillolive_table_counts counts() const {
        drillolive_table_counts counts = {};
        drillolive_table_count(get(), &counts);
        return counts;
    }
    view<std::uint32_t> starts() const { return {drillolive_table_starts(get()), counts().rows + 1}; }
    view<std::uint32_t> indices() const { return {drillolive_table_indices(get()), counts().entries}; }
    view<double> doubles() const { return {drillolive_table_doubles(get()), counts().entries}; }
    view<float> floats() const { return {drillolive_table_floats(get()), counts().entries}; }
    view<wide> numerators() const { return {drillolive_table_numerators(get()), counts().entries}; }
    view<wide> denominators() const { return {drillolive_table_denominators(get()), counts().rows}; }

    /* Evaluates all rows. */
    result<std::vector<double>> apply(view<double> controls, std::size_t components) const {
        std::vector<double> out(counts().rows * components);
        drillolive_fault fault = drillolive_table_apply_doubles(get(), controls.data(), count_of(controls.size(), components), components, 0,
                                                                counts().rows, out.data());
        return {fault, std::move(out)};
    }
    result<std::vector<float>> apply(view<float> controls, std::size_t components) const {
        std::vector<float> out(counts().rows * components);
        drillolive_fault fault = drillolive_table_apply_floats(get(), controls.data(), count_of(controls.size(), components), components, 0,
                                                               counts().rows, out.data());
        return {fault, std::move(out)};
    }
    /* Evaluates all rows of an exact table over numerators. */
    result<std::vector<wide>> apply(view<wide> controls, std::size_t components) const {
        std::vector<wide> out(counts().rows * components);
        drillolive_fault fault = drillolive_table_apply_exact(get(), controls.data(), count_of(controls.size(), components), components, 0,
                                                              counts().rows, out.data());
        return {fault, std::move(out)};
    }
    /* Evaluates a range of rows into the caller's array. */
    outcome apply(view<double> controls, std::size_t components, std::size_t from, std::size_t to, double *out) const {
        return outcome(drillolive_table_apply_doubles(get(), controls.data(), count_of(controls.size(), components), components, from, to, out));
    }
    outcome apply(view<float> controls, std::size_t components, std::size_t from, std::size_t to, float *out) const {
        return outcome(drillolive_table_apply_floats(get(), controls.data(), count_of(controls.size(), components), components, from, to, out));
    }

private:
    static std::size_t count_of(std::size_t numbers, std::size_t components) { return components ? numbers / components : 0; }
    detail::owner<drillolive_table, drillolive_table_free> held;
};

class points {
public:
    points() = default;
    explicit points(drillolive_points *handle) : held(handle) {}
    const drillolive_points *get() const { return held.get(); }

    static result<points> of_doubles(const mesh &cage, std::uint32_t depth) {
        return detail::made<points, drillolive_points>(drillolive_refine_doubles, cage.get(), depth);
    }
    static result<points> of_floats(const mesh &cage, std::uint32_t depth) {
        return detail::made<points, drillolive_points>(drillolive_refine_floats, cage.get(), depth);
    }
    static result<points> of_exact(const mesh &cage, std::uint32_t depth) {
        return detail::made<points, drillolive_points>(drillolive_refine_exact, cage.get(), depth);
    }
    static result<points> of_limit(const mesh &cage, std::uint32_t depth, drillolive_form form = DRILLOLIVE_DOUBLES) {
        return detail::made<points, drillolive_points>(drillolive_points_new_limit, cage.get(), depth, form);
    }
    static result<points> of_patch(const mesh &cage, std::uint32_t depth, std::uint32_t face, std::uint32_t grid,
                                   drillolive_form form = DRILLOLIVE_DOUBLES) {
        return detail::made<points, drillolive_points>(drillolive_points_new_patch, cage.get(), depth, face, grid, form);
    }
    static result<points> of_texture(const mesh &cage, std::uint32_t depth, drillolive_seams seams, drillolive_form form = DRILLOLIVE_DOUBLES) {
        return detail::made<points, drillolive_points>(drillolive_points_new_texture, cage.get(), depth, seams, form);
    }

    std::size_t count() const { return drillolive_points_count(get()); }
    std::size_t components() const { return drillolive_points_components(get()); }
    view<double> doubles() const { return {drillolive_points_doubles(get()), components() * count()}; }
    view<float> floats() const { return {drillolive_points_floats(get()), components() * count()}; }
    view<wide> numerators() const { return {drillolive_points_numerators(get()), components() * count()}; }
    view<wide> denominators() const { return {drillolive_points_denominators(get()), count()}; }

private:
    detail::owner<drillolive_points, drillolive_points_free> held;
};

class level {
public:
    level() = default;
    explicit level(drillolive_level *handle) : held(handle) {}
    const drillolive_level *get() const { return held.get(); }

    static result<level> of(const mesh &cage, std::uint32_t depth) {
        return detail::made<level, drillolive_level>(drillolive_level_new, cage.get(), depth);
    }
    static result<level> of_texture(const mesh &cage, std::uint32_t depth, drillolive_seams seams) {
        return detail::made<level, drillolive_level>(drillolive_level_new_texture, cage.get(), depth, seams);
    }

    drillolive_level_counts counts() const {
        drillolive_level_counts counts = {};
        drillolive_level_count(get(), &counts);
        return counts;
    }
    view<std::uint32_t> face_sizes() const { return {drillolive_level_face_sizes(get()), counts().faces}; }
    view<std::uint32_t> corners() const { return {drillolive_level_corners(get()), counts().corners}; }
    view<std::uint32_t> edges() const { return {drillolive_level_edges(get()), 2 * counts().edges}; }
    view<std::uint8_t> holes() const { return {drillolive_level_holes(get()), counts().faces}; }
    result<std::size_t> face_parent(std::size_t face) const {
        std::size_t parent = 0;
        drillolive_fault fault = drillolive_level_face_parent(get(), face, &parent);
        return {fault, parent};
    }

private:
    detail::owner<drillolive_level, drillolive_level_free> held;
};

/* Where the points and the faces of a level come from in the mesh. */
class origins {
public:
    origins() = default;
    explicit origins(drillolive_origins *handle) : held(handle) {}
    const drillolive_origins *get() const { return held.get(); }

    static result<origins> of(const mesh &cage, std::uint32_t depth) {
        return detail::made<origins, drillolive_origins>(drillolive_origins_new, cage.get(), depth);
    }

    view<std::uint8_t> kinds() const { return {drillolive_origins_kinds(get()), drillolive_origins_points(get())}; }
    view<std::uint32_t> numbers() const { return {drillolive_origins_numbers(get()), drillolive_origins_points(get())}; }
    view<std::uint32_t> face_parents() const { return {drillolive_origins_face_parents(get()), drillolive_origins_faces(get())}; }

private:
    detail::owner<drillolive_origins, drillolive_origins_free> held;
};

class sparse {
public:
    sparse() = default;
    explicit sparse(drillolive_sparse *handle) : held(handle) {}
    const drillolive_sparse *get() const { return held.get(); }

    static result<sparse> of(const mesh &cage, std::uint32_t depth, drillolive_select select = DRILLOLIVE_SELECT_FEATURES,
                             drillolive_form form = DRILLOLIVE_DOUBLES) {
        return detail::made<sparse, drillolive_sparse>(drillolive_sparse_new, cage.get(), depth, select, form);
    }

    drillolive_sparse_counts counts() const {
        drillolive_sparse_counts counts = {};
        drillolive_sparse_count(get(), &counts);
        return counts;
    }
    view<std::uint32_t> level_points() const { return {drillolive_sparse_level_points(get()), counts().levels}; }
    view<std::uint32_t> level_faces() const { return {drillolive_sparse_level_faces(get()), counts().levels}; }
    view<std::uint8_t> kinds() const { return {drillolive_sparse_kinds(get()), counts().faces}; }
    view<std::uint64_t> numbers() const { return {drillolive_sparse_numbers(get()), counts().faces}; }
    view<std::uint32_t> face_sizes() const { return {drillolive_sparse_face_sizes(get()), counts().faces}; }
    view<std::uint32_t> corners() const { return {drillolive_sparse_corners(get()), counts().corners}; }
    view<double> doubles() const { return {drillolive_sparse_doubles(get()), 3 * counts().points}; }
    view<float> floats() const { return {drillolive_sparse_floats(get()), 3 * counts().points}; }
    view<wide> numerators() const { return {drillolive_sparse_numerators(get()), 3 * counts().points}; }
    view<wide> denominators() const { return {drillolive_sparse_denominators(get()), counts().points}; }

private:
    detail::owner<drillolive_sparse, drillolive_sparse_free> held;
};

class session {
public:
    session() = default;
    explicit session(drillolive_session *handle) : held(handle) {}
    const drillolive_session *get() const { return held.get(); }

    static result<session> of(const mesh &cage, std::uint32_t depth, std::uint32_t finer_bits = 0) {
        return detail::made<session, drillolive_session>(drillolive_session_new, cage.get(), depth, finer_bits);
    }

    std::size_t controls() const { return drillolive_session_controls(get()); }
    std::size_t points() const { return drillolive_session_points(get()); }
    wide denominator() const { return drillolive_session_denominator(get()); }

    /* Three numbers for each control. The lesser number counts. */
    outcome move(view<std::uint32_t> controls, view<double> xyz, std::uint64_t *rounded = nullptr) {
        return outcome(drillolive_session_move_doubles(held.get(), controls.data(), xyz.data(), std::min(controls.size(), xyz.size() / 3), rounded));
    }
    outcome move(view<std::uint32_t> controls, view<wide> numerators) {
        return outcome(drillolive_session_move_exact(held.get(), controls.data(), numerators.data(), std::min(controls.size(), numerators.size() / 3)));
    }
    std::vector<std::uint32_t> take_changed() {
        std::size_t count = 0;
        const std::uint32_t *list = drillolive_session_take_changed(held.get(), &count);
        return list ? std::vector<std::uint32_t>(list, list + count) : std::vector<std::uint32_t>();
    }
    result<std::vector<double>> read(view<std::uint32_t> points) const {
        std::vector<double> out(3 * points.size());
        drillolive_fault fault = drillolive_session_read_doubles(get(), points.data(), points.size(), out.data());
        return {fault, std::move(out)};
    }
    result<std::vector<double>> read() const {
        std::vector<double> out(3 * points());
        drillolive_fault fault = drillolive_session_read_doubles(get(), nullptr, points(), out.data());
        return {fault, std::move(out)};
    }

private:
    detail::owner<drillolive_session, drillolive_session_free> held;
};

/* The answer of a run of the program. */
struct answer {
    std::uint32_t status = 0;
    std::string text, error;
};

inline result<answer> run(const std::vector<std::string> &words, const std::string &input) {
    std::vector<const char *> pointers;
    for (const std::string &word : words) pointers.push_back(word.c_str());
    drillolive_output *output = nullptr;
    drillolive_fault fault = drillolive_run(pointers.size(), pointers.data(), input.data(), input.size(), &output);
    detail::owner<drillolive_output, drillolive_output_free> held(output);
    answer made;
    if (!output) return {fault, std::move(made)};
    std::size_t length = 0, error_length = 0;
    const char *text = drillolive_output_text(output, &length), *error = drillolive_output_error(output, &error_length);
    made.status = drillolive_output_status(output);
    made.text.assign(text, length);
    made.error.assign(error, error_length);
    return {fault, std::move(made)};
}

} // namespace drillolive

#endif
