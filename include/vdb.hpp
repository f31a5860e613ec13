// SPDX-License-Identifier: Apache-2.0
// libvdb for C++17 and later: objects that own handles, exceptions instead of codes.
//
//     #include <vdb.hpp>
//
//     vdb::Scene scene = vdb::Scene::load_file("labels.vdbs");
//     vdb::Grid organ = scene.copy("organ");
//     organ.dilate(2);
//     std::cout << organ.count() << " active voxels\n";
//
// A call that fails throws: MemoryError if an allocation failed, std::system_error if a file can't be read or written,
// std::overflow_error if a count exceeds 2^64 - 1, otherwise Error with the code of vdb.h. Every cell, background, limit and
// metadata pair is then as it was, unless the call is write_many, write_box or a put with metadata pairs, which say what they leave.
// Tiles and leaves may have changed.
//
// Owners move and don't copy; copy() makes a second grid. A moved-from grid or scene is empty, and its calls throw VDB_EMPTY.
// A const call changes no cell, but it may change the owner's counts and caches. So make no call, const or not, on an owner that
// another thread uses. To read one grid in several threads, give each a View of it.
#ifndef VDB_HPP
#define VDB_HPP

#include "vdb.h"
#include "vdb_files.hpp"

#include <array>
#include <cstddef>
#include <exception>
#include <functional>
#include <iterator>
#include <map>
#include <new>
#include <optional>
#if __cplusplus >= 202002L
#include <ranges>
#endif
#include <stdexcept>
#include <string>
#include <string_view>
#include <type_traits>
#include <utility>
#include <vector>

inline bool operator==(const vdb_coord &a, const vdb_coord &b) { return a.x == b.x && a.y == b.y && a.z == b.z; }
inline bool operator!=(const vdb_coord &a, const vdb_coord &b) { return !(a == b); }
inline bool operator==(const vdb_box &a, const vdb_box &b) { return a.min == b.min && a.max == b.max; }
inline bool operator!=(const vdb_box &a, const vdb_box &b) { return !(a == b); }

// Hashes a coordinate: two odd factors spread its three numbers over all bits.
template <> struct std::hash<vdb_coord> {
    std::size_t operator()(const vdb_coord &at) const noexcept
    {
        const auto wide = [](int32_t number) { return static_cast<uint64_t>(static_cast<uint32_t>(number)); };
        uint64_t mixed = (wide(at.x) << 32 | wide(at.y)) * UINT64_C(0x9E3779B97F4A7C15);
        mixed = (mixed ^ mixed >> 32 ^ wide(at.z)) * UINT64_C(0xD6E8FEB86659FD93);
        return static_cast<std::size_t>(mixed ^ mixed >> 32);
    }
};

namespace vdb {

using Coord = vdb_coord;
using Box = vdb_box;
using Census = vdb_census;
using Strides = vdb_strides;
using Part = vdb_part;

// The elements of an array or a vector that something else owns, like std::span. It is the same type in C++17 and C++20, so their
// objects can be linked together.
template <typename T> class Span {
public:
    Span() = default;
    Span(T *data, std::size_t size) : data_(data), size_(size) {}
    template <typename Range, typename = std::enable_if_t<std::is_convertible_v<decltype(std::data(std::declval<Range &>())), T *>>>
    Span(Range &&range) : data_(std::data(range)), size_(std::size(range))
    {
    }
    T *data() const { return data_; }
    std::size_t size() const { return size_; }
    bool empty() const { return size_ == 0; }
    T *begin() const { return data_; }
    T *end() const { return data_ + size_; }
    T &operator[](std::size_t index) const { return data_[index]; }

private:
    T *data_ = nullptr;
    std::size_t size_ = 0;
};

// The box of all voxels.
inline constexpr Box everywhere = VDB_EVERYWHERE;

// The type of a grid's values.
enum class Kind : int32_t { boolean = VDB_BOOL, i32 = VDB_I32, i64 = VDB_I64 };

// A value and a state. The value of a boolean is 0 or 1.
struct Cell {
    int64_t value;
    bool active;

    friend bool operator==(const Cell &a, const Cell &b) { return a.value == b.value && a.active == b.active; }
    friend bool operator!=(const Cell &a, const Cell &b) { return !(a == b); }
};

// An active voxel.
struct Voxel {
    Coord at;
    int64_t value;

    friend bool operator==(const Voxel &a, const Voxel &b) { return a.at == b.at && a.value == b.value; }
    friend bool operator!=(const Voxel &a, const Voxel &b) { return !(a == b); }
};

// The error of a call. `what` is the text of the code, after the file's name if the call has one.
class Error : public std::runtime_error {
public:
    explicit Error(int32_t code, const std::string &file = "")
        : std::runtime_error(file.empty() ? vdb_message(code) : file + ": " + vdb_message(code)), code_(code) {}
    int32_t code() const noexcept { return code_; }

private:
    int32_t code_;
};

// The error of a failed allocation.
class MemoryError : public std::bad_alloc {
public:
    const char *what() const noexcept override { return vdb_message(VDB_MEMORY); }
};

// The strides of an array of a box without gaps: z fastest, then y, then x.
inline Strides strides_of(const Box &box)
{
    const auto side = [](int32_t first, int32_t last) { return static_cast<std::size_t>(int64_t(last) - first + 1); };
    const std::size_t row = side(box.min.z, box.max.z);
    return {row * side(box.min.y, box.max.y), row, 1};
}

// Throws the exception of a code other than VDB_OK.
inline void check(int32_t code, const std::string &file = "")
{
    if (code == VDB_MEMORY)
        throw MemoryError();
    if (code != VDB_OK)
        throw Error(code, file);
}

namespace detail {

// Returns the bytes of a text, never null, as vdb.h requires.
inline const char *bytes_of(std::string_view text) { return text.empty() ? "" : text.data(); }

template <typename T> T *data_of(Span<T> span)
{
    static std::remove_const_t<T> none{};
    return span.empty() ? &none : span.data();
}

// A type that no argument tells, so that an array or a vector converts to a span of it.
template <typename T> struct As {
    using type = T;
};
template <typename T> using SpanOf = Span<typename As<T>::type>;

// Reads a box by the call for the type of the elements.
template <typename T, typename Handle, typename Numbers, typename Truths, typename Narrow>
void read_box(Handle *handle, Numbers numbers, Truths truths, Narrow narrow, const Box &box, const Strides &strides, Span<T> values,
              Span<uint8_t> states)
{
    static_assert(std::is_same_v<T, bool> || std::is_same_v<T, int32_t> || std::is_same_v<T, int64_t>, "bool, int32_t or int64_t");
    static_assert(sizeof(bool) == 1, "a bool is a byte");
    const auto read = [&](auto call, auto *data) { check(call(handle, &box, &strides, data, values.size(), data_of(states), states.size())); };
    if constexpr (std::is_same_v<T, bool>)
        read(truths, reinterpret_cast<uint8_t *>(data_of(values)));
    else if constexpr (std::is_same_v<T, int32_t>)
        read(narrow, data_of(values));
    else
        read(numbers, data_of(values));
}

// Returns a count as one number. Throws std::overflow_error above 2^64 - 1.
inline uint64_t whole(const vdb_count &count)
{
    if (count.high != 0)
        throw std::overflow_error("more than 2^64 - 1 active voxels");
    return count.low;
}

// Owns what a handle holds, and counts the calls that may change it.
template <typename Handle, void (*free)(Handle *)> class Held {
public:
    Held() = default;
    Held(Held &&other) noexcept : handle_(std::exchange(*other.changed(), Handle())) {}
    Held &operator=(Held &&other) noexcept
    {
        if (this != &other) {
            free(changed());
            handle_ = std::exchange(*other.changed(), Handle());
        }
        return *this;
    }
    ~Held() { free(&handle_); }

    // Returns the handle for a call that changes no cell, for one that may, or for calls that this object doesn't see.
    Handle *handle() const { return &handle_; }
    Handle *changed()
    {
        changes_++;
        return &handle_;
    }
    Handle *lent()
    {
        lent_ = true;
        return &handle_;
    }

    // Returns a number that no earlier call has returned, if anything may have changed since.
    uint64_t changes() const { return lent_ ? ++changes_ : changes_; }

private:
    mutable Handle handle_ = {};
    mutable uint64_t changes_ = 0;
    bool lent_ = false;
};

// The result of `it++`: the element before the step.
template <typename T> class Before {
public:
    explicit Before(const T &value) : value_(value) {}
    const T &operator*() const { return value_; }

private:
    T value_;
};

} // namespace detail

class Accessor;
template <typename Owner> class ActiveVoxelsOf;
template <typename Owner> class LeavesOf;
template <typename Owner> class PartsOf;

// A grid. The comments of vdb.h describe each call.
class Grid {
public:
    explicit Grid(Kind kind, int64_t background = 0, uint32_t limit = VDB_LIMIT_DEFAULT)
    {
        check(vdb_grid_new(grid_.changed(), static_cast<int32_t>(kind), background, limit));
    }
    // Returns a grid with the values of an array: z fastest and without gaps, unless strides are given. Elements of type bool or int64_t make
    // a grid of that type, and uint8_t, int16_t, uint16_t and int32_t one of int32_t. A voxel of the box is active unless its value is the
    // background.
    template <typename T>
    static Grid from_box(const Box &box, Span<const T> values, T background = T(), uint32_t limit = VDB_LIMIT_DEFAULT)
    {
        return from_box(box, strides_of(box), values, background, limit);
    }
    template <typename T>
    static Grid from_box(const Box &box, const Strides &strides, Span<const T> values, T background = T(), uint32_t limit = VDB_LIMIT_DEFAULT)
    {
        static_assert(sizeof(bool) == 1, "a bool is a byte");
        Grid made;
        const T *data = detail::data_of(values);
        if constexpr (std::is_same_v<T, bool>)
            check(vdb_grid_from_box_bool(made.grid_.changed(), background, limit, &box, &strides, reinterpret_cast<const uint8_t *>(data), values.size()));
        else if constexpr (std::is_same_v<T, uint8_t>)
            check(vdb_grid_from_box_u8(made.grid_.changed(), background, limit, &box, &strides, data, values.size()));
        else if constexpr (std::is_same_v<T, int16_t>)
            check(vdb_grid_from_box_i16(made.grid_.changed(), background, limit, &box, &strides, data, values.size()));
        else if constexpr (std::is_same_v<T, uint16_t>)
            check(vdb_grid_from_box_u16(made.grid_.changed(), background, limit, &box, &strides, data, values.size()));
        else if constexpr (std::is_same_v<T, int32_t>)
            check(vdb_grid_from_box_i32(made.grid_.changed(), background, limit, &box, &strides, data, values.size()));
        else {
            static_assert(std::is_same_v<T, int64_t>, "bool, uint8_t, int16_t, uint16_t, int32_t or int64_t");
            check(vdb_grid_from_box_i64(made.grid_.changed(), background, limit, &box, &strides, data, values.size()));
        }
        return made;
    }

    Grid copy() const
    {
        Grid made;
        check(vdb_grid_copy(grid_.handle(), made.grid_.changed()));
        return made;
    }

    // Returns the handle, for calls of vdb.h. This object still owns it, and doesn't see what they change: from then on each step of a
    // loop over voxels() reads the grid anew.
    vdb_grid *handle() { return grid_.lent(); }

    Kind kind() const
    {
        int32_t kind = 0;
        check(vdb_grid_kind(grid_.handle(), &kind));
        return static_cast<Kind>(kind);
    }
    int64_t background() const
    {
        int64_t value = 0;
        check(vdb_grid_background(grid_.handle(), &value));
        return value;
    }
    uint32_t limit() const
    {
        uint32_t limit = 0;
        check(vdb_grid_limit(grid_.handle(), &limit));
        return limit;
    }

    Cell get(Coord at) const { return probe(VDB_NO_ACCESSOR, at); }
    void set(Coord at, int64_t value, bool active = true) { check(vdb_grid_set(grid_.changed(), VDB_NO_ACCESSOR, at.x, at.y, at.z, value, active)); }
    void set_value(Coord at, int64_t value) { check(vdb_grid_set_value(grid_.changed(), VDB_NO_ACCESSOR, at.x, at.y, at.z, value)); }
    void set_active(Coord at, bool active) { check(vdb_grid_set_active(grid_.changed(), VDB_NO_ACCESSOR, at.x, at.y, at.z, active)); }

    // Returns accessor 0 to 7 of this grid.
    Accessor accessor(int32_t index) &;

    void fill(const Box &box, int64_t value, bool active = true) { check(vdb_grid_fill(grid_.changed(), &box, value, active)); }
    void clip(const Box &box) { check(vdb_grid_clip(grid_.changed(), &box)); }
    void prune() { check(vdb_grid_prune(grid_.changed())); }
    void voxelise(const Box &box) { check(vdb_grid_voxelise(grid_.changed(), &box)); }
    void dilate(uint32_t iterations = 1) { check(vdb_grid_dilate(grid_.changed(), iterations)); }
    void erode(uint32_t iterations = 1) { check(vdb_grid_erode(grid_.changed(), iterations)); }

    // Dilates or erodes a copy, calls progress(done, iterations) after each iteration, and replaces the grid by the copy at the end.
    // If progress throws, the grid is unchanged.
    template <typename Progress> void dilate(uint32_t iterations, Progress &&progress) { iterate(vdb_grid_dilate, iterations, progress); }
    template <typename Progress> void erode(uint32_t iterations, Progress &&progress) { iterate(vdb_grid_erode, iterations, progress); }

    // Reads or sets many voxels: values[i] and states[i] are those of at[i]. An omitted array is neither read nor set. If a write
    // throws another error than VDB_RANGE, the first *written voxels are set.
    void get_many(Span<const Coord> at, Span<int64_t> values, Span<uint8_t> states = {}) const { get_by(VDB_NO_ACCESSOR, at, values, states); }
    void write_many(Span<const Coord> at, Span<const int64_t> values, Span<const uint8_t> states = {}, std::size_t *written = nullptr)
    {
        set_by(VDB_NO_ACCESSOR, at, values, states, written);
    }

    // Reads a box into arrays: z fastest and without gaps, unless strides are given. An omitted array isn't read. The values are int64_t, or
    // have the type of the grid, as in read_box<int32_t>; another type throws VDB_KINDS.
    template <typename T = int64_t> void read_box(const Box &box, detail::SpanOf<T> values, Span<uint8_t> states = {}) const
    {
        read_box<T>(box, strides_of(box), values, states);
    }
    template <typename T = int64_t>
    void read_box(const Box &box, const Strides &strides, detail::SpanOf<T> values, Span<uint8_t> states = {}) const
    {
        detail::read_box<T>(grid_.handle(), vdb_grid_read_box, vdb_grid_read_box_bool, vdb_grid_read_box_i32, box, strides, values, states);
    }

    // Sets each voxel of a box from arrays: z fastest and without gaps, unless strides are given. If an array is omitted, the voxels
    // keep that part. If a write throws another error than VDB_RANGE, the first *written voxels are set.
    void write_box(const Box &box, Span<const int64_t> values, Span<const uint8_t> states = {}, std::size_t *written = nullptr)
    {
        write_box(box, strides_of(box), values, states, written);
    }
    void write_box(const Box &box, const Strides &strides, Span<const int64_t> values, Span<const uint8_t> states = {},
                   std::size_t *written = nullptr)
    {
        std::size_t done = 0;
        const int32_t code = vdb_grid_write_box(grid_.changed(), VDB_NO_ACCESSOR, &box, &strides, detail::data_of(values), values.size(),
                                                detail::data_of(states), states.size(), &done);
        if (written)
            *written = done;
        check(code);
    }

    // The second grid may be this one: the call then uses a copy of it.
    void unite(const Grid &other) { combine(vdb_grid_unite, other); }
    void subtract(const Grid &other) { combine(vdb_grid_subtract, other); }
    void intersect(const Grid &other) { combine(vdb_grid_intersect, other); }
    void maximum(const Grid &other) { combine(vdb_grid_maximum, other); }
    void minimum(const Grid &other) { combine(vdb_grid_minimum, other); }
    void sum(const Grid &other) { combine(vdb_grid_sum, other); }
    void replace(const Grid &other) { combine(vdb_grid_replace, other); }

    // Returns the number of active voxels of a box. Throws std::overflow_error above 2^64 - 1.
    uint64_t count(const Box &box = everywhere) const
    {
        vdb_count count = {0, 0};
        check(vdb_grid_count_in(grid_.handle(), &box, &count));
        return detail::whole(count);
    }

    // Returns the bounding box of the active voxels, if any is active.
    std::optional<Box> bounds() const
    {
        Box box = everywhere;
        int32_t found = 0;
        check(vdb_grid_bounds(grid_.handle(), &box, &found));
        return found ? std::optional<Box>(box) : std::nullopt;
    }

    Census census() const
    {
        Census census = {0, 0, 0, 0};
        check(vdb_grid_census(grid_.handle(), &census));
        return census;
    }

    // Two grids are equal if they have the same type, background and cells. Their limits, tiles and leaves may differ.
    friend bool operator==(const Grid &a, const Grid &b)
    {
        int32_t equal = 1;
        if (&a != &b)
            check(vdb_grid_equal(a.grid_.handle(), b.grid_.handle(), &equal));
        return equal != 0;
    }
    friend bool operator!=(const Grid &a, const Grid &b) { return !(a == b); }

    // Returns the number of leaves of the tree. It depends on how the cells were written.
    uint64_t leaf_count() const
    {
        uint64_t count = 0;
        check(vdb_grid_leaf_count(grid_.handle(), &count));
        return count;
    }

    // Returns the leaves of the tree in block order, for a range-based for. Tiles aren't among them.
    LeavesOf<Grid> leaves() const &;
    LeavesOf<Grid> leaves() const && = delete;

    // Returns the leaves of the tree and its tiles other than those of the inactive background, in block order, for a range-based for. The
    // loop must not change the grid.
    PartsOf<Grid> parts() const &;
    PartsOf<Grid> parts() const && = delete;

    // Returns the active voxels of a box in block order, for a range-based for. The loop may change them: each step finds the first
    // active voxel after the last one. A loop that only reads is much faster, as it copies the cells of a leaf at a time.
    ActiveVoxelsOf<Grid> voxels(const Box &box = everywhere) const &;
    ActiveVoxelsOf<Grid> voxels(const Box &box = everywhere) const && = delete;

private:
    friend class Accessor;
    friend class ActiveVoxelsOf<Grid>;
    friend class LeavesOf<Grid>;
    friend class PartsOf<Grid>;
    friend class Scene;
    friend class View;

    static constexpr auto first_active = vdb_grid_first_active;
    static constexpr auto next_active = vdb_grid_next_active;
    static constexpr auto first_leaves = vdb_grid_first_leaves;
    static constexpr auto next_leaves = vdb_grid_next_leaves;
    static constexpr auto first_parts = vdb_grid_first_parts;
    static constexpr auto next_parts = vdb_grid_next_parts;

    Grid() = default;

    Cell probe(int32_t accessor, Coord at) const
    {
        int64_t value = 0;
        int32_t active = 0;
        check(vdb_grid_probe(grid_.handle(), accessor, at.x, at.y, at.z, &value, &active));
        return {value, active != 0};
    }

    void get_by(int32_t accessor, Span<const Coord> at, Span<int64_t> values, Span<uint8_t> states) const
    {
        check(vdb_grid_get_many(grid_.handle(), accessor, detail::data_of(at), at.size(), detail::data_of(values), values.size(), detail::data_of(states),
                                states.size()));
    }

    void set_by(int32_t accessor, Span<const Coord> at, Span<const int64_t> values, Span<const uint8_t> states, std::size_t *written)
    {
        std::size_t done = 0;
        const int32_t code = vdb_grid_write_many(grid_.changed(), accessor, detail::data_of(at), at.size(), detail::data_of(values), values.size(),
                                                 detail::data_of(states), states.size(), &done);
        if (written)
            *written = done;
        check(code);
    }

    template <typename Progress> void iterate(int32_t (*call)(vdb_grid *, uint32_t), uint32_t iterations, Progress &progress)
    {
        if (iterations < 1 || iterations > VDB_ITERATIONS_MOST)
            throw Error(VDB_RANGE);
        Grid made = copy();
        for (uint32_t done = 1; done <= iterations; done++) {
            check(call(made.grid_.changed(), 1));
            progress(done, iterations);
        }
        *this = std::move(made);
    }

    void combine(int32_t (*call)(vdb_grid *, vdb_grid *), const Grid &other)
    {
        if (&other != this)
            return check(call(grid_.changed(), other.grid_.handle()));
        Grid twin = copy();
        check(call(grid_.changed(), twin.grid_.handle()));
    }

    vdb_grid *shared() const { return grid_.handle(); }
    uint64_t changes() const { return grid_.changes(); }

    detail::Held<vdb_grid, vdb_grid_free> grid_;
};

// An accessor of a grid, which makes look-ups and writes near the last one faster. The grid must outlive it.
class Accessor {
public:
    Accessor(Grid &grid, int32_t index) : grid_(grid), index_(index)
    {
        if (index < 0 || index >= VDB_ACCESSORS)
            throw Error(VDB_RANGE);
    }

    Cell get(Coord at) { return grid_.probe(index_, at); }
    void set(Coord at, int64_t value, bool active = true) { check(vdb_grid_set(grid_.grid_.changed(), index_, at.x, at.y, at.z, value, active)); }
    void set_value(Coord at, int64_t value) { check(vdb_grid_set_value(grid_.grid_.changed(), index_, at.x, at.y, at.z, value)); }
    void set_active(Coord at, bool active) { check(vdb_grid_set_active(grid_.grid_.changed(), index_, at.x, at.y, at.z, active)); }
    void get_many(Span<const Coord> at, Span<int64_t> values, Span<uint8_t> states = {}) { grid_.get_by(index_, at, values, states); }
    void write_many(Span<const Coord> at, Span<const int64_t> values, Span<const uint8_t> states = {}, std::size_t *written = nullptr)
    {
        grid_.set_by(index_, at, values, states, written);
    }

private:
    Grid &grid_;
    int32_t index_;
};

inline Accessor Grid::accessor(int32_t index) & { return Accessor(*this, index); }

// A copy of a leaf, a cube of 8 x 8 x 8 voxels.
struct Leaf {
    // The least corner.
    Coord origin;
    // The values: z fastest, then y, then x.
    std::array<int64_t, 512> values;
    // The states: bit 8 y + z of word x.
    std::array<uint64_t, 8> states;

    // Returns the cell of a voxel, by its distance of 0 to 7 from the least corner along each axis.
    Cell at(int x, int y, int z) const { return {values.data()[64 * x + 8 * y + z], (states.data()[x] >> (8 * y + z) & 1) != 0}; }
};

// The active voxels of a box of a grid or a view, in block order. The owner must outlive it.
template <typename Owner> class ActiveVoxelsOf {
public:
    class Iterator {
    public:
        using iterator_category = std::input_iterator_tag;
        using value_type = Voxel;
        using difference_type = std::ptrdiff_t;
        using pointer = const Voxel *;
        using reference = const Voxel &;

        Iterator() = default;
        Iterator(const Owner &owner, const Box &box) : owner_(&owner), box_(box), changes_(owner.changes()) { search(Owner::first_active); }

        reference operator*() const { return voxel_; }
        pointer operator->() const { return &voxel_; }
        Iterator &operator++()
        {
            const uint64_t changes = owner_->changes();
            const bool changed = std::exchange(changes_, changes) != changes;
            if (changed)
                found_ = 0;
            if (found_ == MANY && take())
                return *this;
            const Coord origin = cube().min;
            const bool may_be_next = changed || (found_ > 0 && found_ < MANY);
            if (!may_be_next || !next())
                search(Owner::next_active);
            if (!owner_)
                return *this;
            found_ = cube().min == origin ? found_ + 1 : 0;
            if (found_ == MANY)
                owner_->read_box(cube(), Span<int64_t>(values_), Span<uint8_t>(states_));
            return *this;
        }
        detail::Before<Voxel> operator++(int)
        {
            detail::Before<Voxel> before(voxel_);
            ++*this;
            return before;
        }
        friend bool operator==(const Iterator &a, const Iterator &b) { return a.owner_ == b.owner_; }
        friend bool operator!=(const Iterator &a, const Iterator &b) { return a.owner_ != b.owner_; }

    private:
        // So many voxels of a leaf extent are looked up, one after another. Then its cells are copied.
        static constexpr int MANY = 4;

        // Returns the leaf extent around the voxel.
        Box cube() const
        {
            const Coord &at = voxel_.at;
            return {{at.x & ~7, at.y & ~7, at.z & ~7}, {at.x | 7, at.y | 7, at.z | 7}};
        }

        // Returns the number of the voxel in its leaf extent, and the coordinate of a number.
        std::size_t number() const { return static_cast<std::size_t>((voxel_.at.x & 7) << 6 | (voxel_.at.y & 7) << 3 | (voxel_.at.z & 7)); }
        Coord place(std::size_t number) const
        {
            const Coord &least = cube().min;
            return {least.x | int32_t(number >> 6), least.y | int32_t(number >> 3 & 7), least.z | int32_t(number & 7)};
        }
        bool is_inside(Coord at) const
        {
            return at.x >= box_.min.x && at.x <= box_.max.x && at.y >= box_.min.y && at.y <= box_.max.y && at.z >= box_.min.z && at.z <= box_.max.z;
        }

        // Goes to the next voxel by a search from the root.
        template <typename Call> void search(Call call)
        {
            int32_t found = 0;
            check(call(owner_->shared(), &box_, &voxel_.at, &voxel_.value, &found));
            if (!found)
                owner_ = nullptr;
        }

        // Goes to the voxel of the next number, if it is active and in the box.
        bool next()
        {
            const std::size_t after = number() + 1;
            if (after == 512 || !is_inside(place(after)))
                return false;
            const Cell cell = owner_->get(place(after));
            if (cell.active)
                voxel_ = {place(after), cell.value};
            return cell.active;
        }

        // Goes to the next voxel of the copied cells.
        bool take()
        {
            for (std::size_t after = number() + 1; after < 512; after++)
                if (states_[after] && is_inside(place(after))) {
                    voxel_ = {place(after), values_[after]};
                    return true;
                }
            return false;
        }

        const Owner *owner_ = nullptr;
        Box box_ = everywhere;
        Voxel voxel_ = {{0, 0, 0}, 0};
        uint64_t changes_ = 0;
        // The voxels found in the leaf extent since the owner changed, up to MANY. The arrays then have its cells.
        int found_ = 0;
        std::array<int64_t, 512> values_;
        std::array<uint8_t, 512> states_;
    };

    ActiveVoxelsOf(const Owner &owner, const Box &box) : owner_(&owner), box_(box) {}
    Iterator begin() const { return Iterator(*owner_, box_); }
    Iterator end() const { return Iterator(); }

private:
    const Owner *owner_;
    Box box_;
};

using ActiveVoxels = ActiveVoxelsOf<Grid>;

inline ActiveVoxels Grid::voxels(const Box &box) const & { return ActiveVoxels(*this, box); }

// The leaves of a grid or a view, in block order. The owner must outlive it.
template <typename Owner> class LeavesOf {
public:
    class Iterator {
    public:
        using iterator_category = std::input_iterator_tag;
        using value_type = Leaf;
        using difference_type = std::ptrdiff_t;
        using pointer = const Leaf *;
        using reference = const Leaf &;

        Iterator() = default;
        explicit Iterator(const Owner &owner) : owner_(&owner)
        {
            std::size_t count = 0;
            check(Owner::first_leaves(owner.shared(), &leaf_.origin, 1, leaf_.values.data(), leaf_.values.size(), leaf_.states.data(),
                                      leaf_.states.size(), &count));
            if (count == 0)
                owner_ = nullptr;
        }

        reference operator*() const { return leaf_; }
        pointer operator->() const { return &leaf_; }
        Iterator &operator++()
        {
            std::size_t count = 0;
            const Coord last = leaf_.origin;
            check(Owner::next_leaves(owner_->shared(), last.x, last.y, last.z, &leaf_.origin, 1, leaf_.values.data(), leaf_.values.size(),
                                     leaf_.states.data(), leaf_.states.size(), &count));
            if (count == 0)
                owner_ = nullptr;
            return *this;
        }
        detail::Before<Leaf> operator++(int)
        {
            detail::Before<Leaf> before(leaf_);
            ++*this;
            return before;
        }
        friend bool operator==(const Iterator &a, const Iterator &b) { return a.owner_ == b.owner_; }
        friend bool operator!=(const Iterator &a, const Iterator &b) { return a.owner_ != b.owner_; }

    private:
        const Owner *owner_ = nullptr;
        Leaf leaf_ = {};
    };

    explicit LeavesOf(const Owner &owner) : owner_(&owner) {}
    Iterator begin() const { return Iterator(*owner_); }
    Iterator end() const { return Iterator(); }

private:
    const Owner *owner_;
};

using Leaves = LeavesOf<Grid>;

inline Leaves Grid::leaves() const & { return Leaves(*this); }

// The parts of a grid, 64 of which cross at a time.
template <typename Owner> class PartsOf {
public:
    class Iterator {
    public:
        using iterator_category = std::input_iterator_tag;
        using value_type = Part;
        using difference_type = std::ptrdiff_t;
        using pointer = const Part *;
        using reference = const Part &;

        Iterator() = default;
        explicit Iterator(const Owner &owner) : owner_(&owner)
        {
            check(Owner::first_parts(owner.shared(), parts_.data(), parts_.size(), &count_));
            if (count_ == 0)
                owner_ = nullptr;
        }

        reference operator*() const { return parts_[index_]; }
        pointer operator->() const { return &parts_[index_]; }
        Iterator &operator++()
        {
            if (++index_ < count_)
                return *this;
            const Coord last = parts_[count_ - 1].box.max;
            check(Owner::next_parts(owner_->shared(), last.x, last.y, last.z, parts_.data(), parts_.size(), &count_));
            index_ = 0;
            if (count_ == 0)
                owner_ = nullptr;
            return *this;
        }
        detail::Before<Part> operator++(int)
        {
            detail::Before<Part> before(parts_[index_]);
            ++*this;
            return before;
        }
        friend bool operator==(const Iterator &a, const Iterator &b) { return a.owner_ == b.owner_; }
        friend bool operator!=(const Iterator &a, const Iterator &b) { return a.owner_ != b.owner_; }

    private:
        const Owner *owner_ = nullptr;
        std::array<Part, 64> parts_ = {};
        std::size_t index_ = 0, count_ = 0;
    };

    explicit PartsOf(const Owner &owner) : owner_(&owner) {}
    Iterator begin() const { return Iterator(*owner_); }
    Iterator end() const { return Iterator(); }

private:
    const Owner *owner_;
};

inline PartsOf<Grid> Grid::parts() const & { return PartsOf<Grid>(*this); }

// A set of voxels, like OpenVDB's MaskGrid: a grid of booleans that is 1 where it is active, and 0 everywhere else. It converts to
// that grid. A mask of any other grid is the set of its active voxels. put(name, std::move(mask).grid()) stores it in a scene.
class Mask {
public:
    explicit Mask(uint32_t limit = VDB_LIMIT_DEFAULT) : grid_(Kind::boolean, 0, limit) {}
    explicit Mask(const Grid &grid) : Mask(grid.limit())
    {
        Grid whole(Kind::boolean, 1, grid.limit());
        whole.unite(grid);
        grid_.replace(whole);
    }
    Mask copy() const { return Mask(grid_); }

    const Grid &grid() const & { return grid_; }
    Grid grid() && { return std::move(grid_); }
    operator const Grid &() const & { return grid_; }

    bool get(Coord at) const { return grid_.get(at).active; }
    void set(Coord at, bool within = true) { grid_.set(at, within, within); }
    void fill(const Box &box, bool within = true) { grid_.fill(box, within, within); }
    void clip(const Box &box) { grid_.clip(box); }
    void dilate(uint32_t iterations = 1) { change([&](Grid &made) { made.dilate(iterations); }); }
    void erode(uint32_t iterations = 1) { change([&](Grid &made) { made.erode(iterations); }); }
    void unite(const Grid &other) { change([&](Grid &made) { made.unite(other); }); }
    void subtract(const Grid &other) { change([&](Grid &made) { made.subtract(other); }); }
    void intersect(const Grid &other) { change([&](Grid &made) { made.intersect(other); }); }

    // Returns the number of the set's voxels in a box. Throws std::overflow_error above 2^64 - 1.
    uint64_t count(const Box &box = everywhere) const { return grid_.count(box); }
    std::optional<Box> bounds() const { return grid_.bounds(); }

private:
    // Changes states by a call on a copy, and replaces the mask by it.
    template <typename Call> void change(Call &&call)
    {
        Grid made = grid_.copy();
        call(made);
        *this = Mask(made);
    }

    Grid grid_;
};

// A grid that several threads read, each through a view of its own.
class View {
public:
    // Moves a grid into a view and leaves `grid` empty.
    explicit View(Grid &&grid) { check(vdb_view_new(grid.grid_.changed(), view_.changed())); }

    // Returns another view of the same grid, for another thread. The last view frees the grid.
    View share() const
    {
        View made;
        check(vdb_view_share(view_.handle(), made.view_.changed()));
        return made;
    }

    // Returns a copy of the grid, which may be changed.
    Grid copy() const
    {
        Grid made;
        check(vdb_view_copy(view_.handle(), made.grid_.changed()));
        return made;
    }

    // Returns the handle, for calls of vdb.h. This object still owns it.
    vdb_view *handle() { return view_.lent(); }

    Cell get(Coord at) const
    {
        int64_t value = 0;
        int32_t active = 0;
        check(vdb_view_get(view_.handle(), at.x, at.y, at.z, &value, &active));
        return {value, active != 0};
    }

    // Reads many voxels, or a box, as Grid does.
    void get_many(Span<const Coord> at, Span<int64_t> values, Span<uint8_t> states = {}) const
    {
        check(vdb_view_get_many(view_.handle(), detail::data_of(at), at.size(), detail::data_of(values), values.size(), detail::data_of(states),
                                states.size()));
    }
    template <typename T = int64_t> void read_box(const Box &box, detail::SpanOf<T> values, Span<uint8_t> states = {}) const
    {
        read_box<T>(box, strides_of(box), values, states);
    }
    template <typename T = int64_t>
    void read_box(const Box &box, const Strides &strides, detail::SpanOf<T> values, Span<uint8_t> states = {}) const
    {
        detail::read_box<T>(view_.handle(), vdb_view_read_box, vdb_view_read_box_bool, vdb_view_read_box_i32, box, strides, values, states);
    }

    // The reports and walks of Grid.
    Kind kind() const
    {
        int32_t kind = 0;
        check(vdb_view_kind(view_.handle(), &kind));
        return static_cast<Kind>(kind);
    }
    int64_t background() const
    {
        int64_t value = 0;
        check(vdb_view_background(view_.handle(), &value));
        return value;
    }
    uint32_t limit() const
    {
        uint32_t limit = 0;
        check(vdb_view_limit(view_.handle(), &limit));
        return limit;
    }
    uint64_t count(const Box &box = everywhere) const
    {
        vdb_count count = {0, 0};
        check(vdb_view_count_in(view_.handle(), &box, &count));
        return detail::whole(count);
    }
    std::optional<Box> bounds() const
    {
        Box box = everywhere;
        int32_t found = 0;
        check(vdb_view_bounds(view_.handle(), &box, &found));
        return found ? std::optional<Box>(box) : std::nullopt;
    }
    Census census() const
    {
        Census census = {0, 0, 0, 0};
        check(vdb_view_census(view_.handle(), &census));
        return census;
    }
    uint64_t leaf_count() const
    {
        uint64_t count = 0;
        check(vdb_view_leaf_count(view_.handle(), &count));
        return count;
    }
    LeavesOf<View> leaves() const & { return LeavesOf<View>(*this); }
    LeavesOf<View> leaves() const && = delete;
    PartsOf<View> parts() const & { return PartsOf<View>(*this); }
    PartsOf<View> parts() const && = delete;
    ActiveVoxelsOf<View> voxels(const Box &box = everywhere) const & { return ActiveVoxelsOf<View>(*this, box); }
    ActiveVoxelsOf<View> voxels(const Box &box = everywhere) const && = delete;

private:
    friend class ActiveVoxelsOf<View>;
    friend class LeavesOf<View>;
    friend class PartsOf<View>;

    static constexpr auto first_active = vdb_view_first_active;
    static constexpr auto next_active = vdb_view_next_active;
    static constexpr auto first_leaves = vdb_view_first_leaves;
    static constexpr auto next_leaves = vdb_view_next_leaves;
    static constexpr auto first_parts = vdb_view_first_parts;
    static constexpr auto next_parts = vdb_view_next_parts;

    View() = default;

    vdb_view *shared() const { return view_.handle(); }
    uint64_t changes() const { return view_.changes(); }

    detail::Held<vdb_view, vdb_view_free> view_;
};

// A scene. The comments of vdb.h describe each call.
class Scene {
public:
    Scene() { check(vdb_scene_new(scene_.changed())); }

    // Reads a scene file.
    static Scene load_file(const std::string &path) { return from_bytes(detail::read(path, VDB_FILE_MOST + 1), path); }

    // Reads the bytes of a scene file. `file` is its name in the text of an error.
    static Scene from_bytes(const std::vector<uint8_t> &bytes, const std::string &file = "")
    {
        static const uint8_t none = 0;
        Scene made;
        check(vdb_scene_load(made.scene_.changed(), bytes.empty() ? &none : bytes.data(), bytes.size()), file);
        return made;
    }

    // Writes the scene to a temporary file in the same folder, which then replaces `path`. It keeps permissions, follows links, and
    // writes pipes and devices in place.
    void save_file(const std::string &path) const { detail::replace(path, to_bytes(path)); }

    // Returns the bytes of the scene file. `file` is its name in the text of an error.
    std::vector<uint8_t> to_bytes(const std::string &file = "") const
    {
        uint64_t length = 0;
        check(vdb_scene_length(scene_.handle(), &length), file);
        if (length > VDB_FILE_MOST)
            throw Error(VDB_FILE_TOO_LONG, file);
        std::vector<uint8_t> bytes(length);
        check(vdb_scene_save(scene_.handle(), bytes.data(), bytes.size(), &length), file);
        return bytes;
    }

    // Returns the handle, for calls of vdb.h. This object still owns it.
    vdb_scene *handle() { return scene_.lent(); }

    // Returns the names of the grids, in order.
    std::vector<std::string> names() const
    {
        uint64_t count = 0, used = 0;
        check(vdb_scene_count(scene_.handle(), &count));
        std::vector<std::string> names;
        for (uint64_t index = 0; index < count; index++) {
            char name[VDB_NAME_MOST] = {};
            check(vdb_scene_name(scene_.handle(), index, name, sizeof name, &used));
            names.emplace_back(name, used);
        }
        return names;
    }

    // Returns whether the scene has a grid of this name.
    bool contains(std::string_view name) const
    {
        uint64_t count = 0;
        const int32_t code = vdb_scene_meta_count(scene_.handle(), detail::bytes_of(name), name.size(), &count);
        if (code != VDB_NO_GRID && code != VDB_NAME)
            check(code);
        return code == VDB_OK;
    }

    // Moves a grid into the scene and leaves `grid` empty.
    void put(std::string_view name, Grid &&grid) { check(vdb_scene_put(scene_.handle(), detail::bytes_of(name), name.size(), grid.grid_.changed())); }

    // Moves a grid with metadata pairs into the scene. If it throws, it moves the grid back to `grid`; if memory is too short for that,
    // the grid stays in the scene.
    void put(std::string_view name, Grid &&grid, const std::map<std::string, std::string> &pairs)
    {
        put(name, std::move(grid));
        try {
            for (const auto &[key, text] : pairs)
                set_metadata(name, key, text);
        } catch (...) {
            grid = take(name);
            throw;
        }
    }

    // Calls `use` with a grid of the scene, which it may change, and returns what `use` returns. No cell is copied, and the metadata pairs
    // stay. `use` must neither move the grid away nor use the scene, which has an empty grid of that name during the call.
    template <typename Use> decltype(auto) edit(std::string_view name, Use &&use)
    {
        Lent lent(scene_.handle(), name);
        return std::forward<Use>(use)(lent.grid);
    }

    // Calls `use` with a grid of the scene to read, otherwise as `edit` does.
    template <typename Use> decltype(auto) read(std::string_view name, Use &&use) const
    {
        const Lent lent(scene_.handle(), name);
        return std::forward<Use>(use)(lent.grid);
    }

    // Moves a grid out of the scene. No cell is copied; its metadata pairs are gone.
    Grid take(std::string_view name)
    {
        Grid grid;
        check(vdb_scene_take(scene_.handle(), detail::bytes_of(name), name.size(), grid.grid_.changed()));
        return grid;
    }

    // Returns a copy of a grid of the scene.
    Grid copy(std::string_view name) const
    {
        Grid grid;
        check(vdb_scene_copy(scene_.handle(), detail::bytes_of(name), name.size(), grid.grid_.changed()));
        return grid;
    }

    // Returns the metadata pairs of a grid.
    std::map<std::string, std::string> metadata(std::string_view name) const
    {
        uint64_t count = 0, used = 0;
        check(vdb_scene_meta_count(scene_.handle(), detail::bytes_of(name), name.size(), &count));
        std::map<std::string, std::string> pairs;
        for (uint64_t index = 0; index < count; index++) {
            char key[VDB_NAME_MOST] = {}, text[VDB_TEXT_MOST] = {};
            check(vdb_scene_meta_key(scene_.handle(), detail::bytes_of(name), name.size(), index, key, sizeof key, &used));
            const std::string found(key, used);
            check(vdb_scene_meta_text(scene_.handle(), detail::bytes_of(name), name.size(), index, text, sizeof text, &used));
            pairs.emplace(found, std::string(text, used));
        }
        return pairs;
    }

    void set_metadata(std::string_view name, std::string_view key, std::string_view text)
    {
        check(vdb_scene_meta_set(scene_.handle(), detail::bytes_of(name), name.size(), detail::bytes_of(key), key.size(), detail::bytes_of(text),
                                 text.size()));
    }
    void remove_metadata(std::string_view name, std::string_view key)
    {
        check(vdb_scene_meta_remove(scene_.handle(), detail::bytes_of(name), name.size(), detail::bytes_of(key), key.size()));
    }

private:
    // A grid taken out of a scene until this object ends. Putting it back allocates nothing.
    struct Lent {
        Lent(vdb_scene *scene, std::string_view name) : scene_(scene), name_(name) { check(swap()); }
        Lent(const Lent &) = delete;
        Lent &operator=(const Lent &) = delete;
        ~Lent()
        {
            if (swap() != VDB_OK)
                std::terminate(); // the grid was moved away, or the scene changed
        }
        int32_t swap() { return vdb_scene_swap(scene_, detail::bytes_of(name_), name_.size(), grid.grid_.changed()); }

        Grid grid = Grid(Kind::boolean, 0, 1);

    private:
        vdb_scene *const scene_;
        const std::string_view name_;
    };

    detail::Held<vdb_scene, vdb_scene_free> scene_;
};

} // namespace vdb

#if __cplusplus >= 202002L
template <typename T> inline constexpr bool std::ranges::enable_view<vdb::Span<T>> = true;
template <typename T> inline constexpr bool std::ranges::enable_borrowed_range<vdb::Span<T>> = true;
template <typename Owner> inline constexpr bool std::ranges::enable_view<vdb::ActiveVoxelsOf<Owner>> = true;
template <typename Owner> inline constexpr bool std::ranges::enable_borrowed_range<vdb::ActiveVoxelsOf<Owner>> = true;
template <typename Owner> inline constexpr bool std::ranges::enable_view<vdb::LeavesOf<Owner>> = true;
template <typename Owner> inline constexpr bool std::ranges::enable_borrowed_range<vdb::LeavesOf<Owner>> = true;
template <typename Owner> inline constexpr bool std::ranges::enable_view<vdb::PartsOf<Owner>> = true;
template <typename Owner> inline constexpr bool std::ranges::enable_borrowed_range<vdb::PartsOf<Owner>> = true;
#endif

#endif
