// SPDX-License-Identifier: Apache-2.0
// Calls of vdb.hpp with their results, worked out by hand. Each check that fails prints its line; the status is 1 then.
#include "vdb.hpp"

#include <algorithm>
#include <array>
#include <cstdio>
#include <memory>
#include <numeric>
#include <thread>
#include <unordered_set>
#include <vector>

#include <unistd.h>

// Of spans.cpp, which is compiled by another standard.
int64_t sum_of(vdb::Span<const int64_t> values);
int64_t active_of(const vdb::Leaf &leaf);
vdb::Span<const vdb::Coord> without_first(vdb::Span<const vdb::Coord> all);

// Of loops.cpp.
bool loops();

static int failed = 0;

static void check_at(int line, bool holds)
{
    if (!holds) {
        std::printf("checks.cpp:%d: failed\n", line);
        failed = 1;
    }
}
#define CHECK(holds) check_at(__LINE__, holds)

// Returns the code of the Error that a call throws, or VDB_OK if it throws none.
template <class Call> static int32_t code_of(Call call)
{
    try {
        call();
    } catch (const vdb::Error &error) {
        return error.code();
    }
    return VDB_OK;
}

// Returns the error of the system that a call throws, or 0 if it throws none.
template <class Call> static int error_of(Call call)
{
    try {
        call();
    } catch (const std::system_error &error) {
        return error.code().value();
    }
    return 0;
}

static vdb::Grid cube(int32_t from, int32_t to, int64_t value)
{
    vdb::Grid grid(vdb::Kind::i32);
    grid.fill({{from, from, from}, {to, to, to}}, value);
    return grid;
}

static void voxels()
{
    vdb::Grid grid(vdb::Kind::i64, -1, 7);
    CHECK(grid.kind() == vdb::Kind::i64 && grid.background() == -1 && grid.limit() == 7);
    CHECK(grid.get({1, 2, 3}).value == -1 && !grid.get({1, 2, 3}).active && !grid.bounds());
    grid.set({1, 2, 3}, INT64_MAX);
    grid.set({-9, 0, 0}, 4, false);
    grid.set_active({-9, 0, 1}, true);
    grid.set_value({1, 2, 3}, 6);
    CHECK(grid.get({1, 2, 3}).value == 6 && grid.get({1, 2, 3}).active);
    CHECK(grid.get({-9, 0, 0}).value == 4 && !grid.get({-9, 0, 0}).active);
    CHECK(grid.get({-9, 0, 1}).value == -1 && grid.get({-9, 0, 1}).active);
    vdb::Accessor accessor = grid.accessor(3);
    accessor.set({1, 2, 4}, 8);
    accessor.set_value({1, 2, 5}, 9);
    accessor.set_active({1, 2, 5}, true);
    CHECK(accessor.get({1, 2, 3}).value == 6 && accessor.get({1, 2, 4}).value == 8 && accessor.get({1, 2, 5}).active);
    CHECK(grid.count() == 4 && grid.count({{1, 2, 4}, {1, 2, 5}}) == 2);
    CHECK(grid.bounds()->min.x == -9 && grid.bounds()->max.z == 5);
    CHECK(code_of([&] { grid.accessor(8); }) == VDB_RANGE);
    CHECK(code_of([&] { cube(0, 0, 1).set({0, 0, 0}, INT64_C(1) << 31); }) == VDB_RANGE);
    CHECK(code_of([] { vdb::Grid(vdb::Kind::boolean, 2); }) == VDB_RANGE);
    CHECK(code_of([] { vdb::Grid(vdb::Kind::boolean, 0, 65537); }) == VDB_RANGE);
}

static void boxes()
{
    vdb::Grid grid = cube(0, 9, 5);
    CHECK(grid.count() == 1000 && grid.count({{0, 0, 5}, {3, 3, 20}}) == 80);
    grid.dilate();
    CHECK(grid.count() == 1600 && grid.get({-1, 3, 3}).active && grid.get({-1, 3, 3}).value == 0);
    grid.erode();
    CHECK(grid.count() == 1000);
    grid.voxelise({{0, 0, 0}, {9, 9, 9}});
    CHECK(grid.census().roots == 1 && grid.census().leaf == 7);
    grid.prune();
    grid.clip({{0, 0, 0}, {9, 9, 0}});
    CHECK(grid.count() == 100);
    CHECK(code_of([&] { grid.fill({{0, 0, 0}, {0, 0, -1}}, 5); }) == VDB_RANGE && code_of([&] { grid.dilate(17); }) == VDB_RANGE);
    CHECK(code_of([&] { grid.fill(vdb::everywhere, 5); }) == VDB_ROOT_LIMIT && grid.count() == 100);
}

// Iterations with a report of each, of which an exception undoes all.
static void progress()
{
    vdb::Grid grid = cube(0, 9, 5), whole = grid.copy();
    uint32_t sum = 0;
    grid.dilate(3, [&](uint32_t done, uint32_t all) { sum += 10 * done + all; });
    whole.dilate(3);
    CHECK(sum == 69 && grid.count() == whole.count() && grid.bounds()->max.x == 12);
    CHECK(code_of([&] { grid.erode(5, [](uint32_t done, uint32_t) { vdb::check(done == 2 ? VDB_TEXT : VDB_OK); }); }) == VDB_TEXT);
    CHECK(grid.count() == whole.count());
    grid.erode(3, [](uint32_t, uint32_t) {});
    CHECK(grid.count() == 1000 && code_of([&] { grid.dilate(17, [](uint32_t, uint32_t) {}); }) == VDB_RANGE);
}

static void pairs()
{
    vdb::Grid a = cube(0, 3, 5), b = cube(2, 5, 7);
    const uint64_t both = 8, each = 64;
    vdb::Grid c = a.copy();
    c.unite(b);
    CHECK(c.count() == 2 * each - both && a.count() == each && c.get({5, 5, 5}).value == 0);
    c.subtract(b);
    CHECK(c.count() == each - both);
    c.intersect(b);
    CHECK(c.count() == 0);
    c = a.copy();
    c.maximum(b);
    CHECK(c.get({2, 2, 2}).value == 7);
    c.minimum(b);
    CHECK(c.get({0, 0, 0}).value == 0 && c.get({2, 2, 2}).value == 7);
    c.replace(a);
    CHECK(c.get({2, 2, 2}).value == 5);
    c.sum(b);
    CHECK(c.get({2, 2, 2}).value == 12 && c.count() == 2 * each - both);
    vdb::Grid flags(vdb::Kind::boolean);
    CHECK(code_of([&] { c.sum(flags); }) == VDB_KINDS && code_of([&] { flags.sum(flags); }) == VDB_NO_SUM);
    vdb::Grid most = cube(0, 0, INT32_MAX);
    CHECK(code_of([&] { most.sum(most); }) == VDB_SUM_RANGE && most.get({0, 0, 0}).value == INT32_MAX);
}

// The number of voxels of a mask whose value is 1, as its file has them.
static std::size_t ones(const vdb::Mask &mask)
{
    std::size_t found = 0;
    for (const vdb::Voxel &voxel : mask.grid().voxels())
        found += voxel.value == 1;
    return found;
}

// A cube of 4 voxels, dilated twice: 64, 6 * 16 * 2 at its faces, and 12 * 4 at its edges. Its grid would keep 64 values of 1.
static void masks()
{
    vdb::Mask mask{cube(0, 3, 5)};
    CHECK(ones(mask) == 64 && mask.get({3, 3, 3}) && !mask.get({4, 3, 3}));
    mask.dilate(2);
    CHECK(ones(mask) == 304 && mask.count() == 304 && mask.bounds()->max.x == 5);
    CHECK(mask.grid().get({5, 3, 3}) == (vdb::Cell{1, true}) && mask.grid().get({5, 4, 4}) == (vdb::Cell{0, false}));
    mask.erode(2);
    CHECK(ones(mask) == 64 && mask.grid().get({5, 3, 3}).value == 0);
    vdb::Mask other = mask.copy();
    other.unite(cube(2, 5, 7));
    CHECK(ones(other) == 120 && ones(mask) == 64);
    other.subtract(mask);
    CHECK(ones(other) == 56 && other.grid().get({2, 2, 2}).value == 0);
    other.intersect(cube(4, 4, 1));
    CHECK(ones(other) == 1 && other.get({4, 4, 4}));
    other.subtract(other);
    other.set({9, 9, 9});
    other.fill({{20, 0, 0}, {29, 0, 0}});
    other.fill({{20, 0, 0}, {21, 0, 0}}, false);
    other.set({22, 0, 0}, false);
    CHECK(ones(other) == 8 && other.count({{20, 0, 0}, {29, 0, 0}}) == 7 && other.grid().get({20, 0, 0}).value == 0);
    other.clip({{20, 0, 0}, {25, 0, 0}});
    CHECK(ones(other) == 3 && code_of([&] { other.fill(vdb::everywhere); }) == VDB_ROOT_LIMIT && ones(other) == 3);
    CHECK(code_of([&] { other.dilate(17); }) == VDB_RANGE && vdb::Mask(1).grid().limit() == 1);
    vdb::Grid taken = std::move(other).grid();
    CHECK(taken.count() == 3 && taken.kind() == vdb::Kind::boolean);
}

// Equal cells in other leaves, with another limit; another value, state, background or type.
static void equal()
{
    vdb::Grid a = cube(0, 15, 5), b(vdb::Kind::i32, 0, 1);
    CHECK(a != b && a == a);
    b.fill({{0, 0, 0}, {15, 15, 15}}, 5);
    CHECK(a == b && b == a);
    b.voxelise({{0, 0, 0}, {15, 15, 15}});
    CHECK(a == b && b == a && a.leaf_count() != b.leaf_count());
    b.set({3, 9, 15}, 6);
    CHECK(a != b && b != a);
    b.set({3, 9, 15}, 5, false);
    CHECK(a != b && !(b == a));
    b.set({3, 9, 15}, 5);
    b.set({16, 0, 0}, 0, false);
    CHECK(a == b);
    CHECK(vdb::Grid(vdb::Kind::i32, 1) != vdb::Grid(vdb::Kind::i32) && vdb::Grid(vdb::Kind::i32) != vdb::Grid(vdb::Kind::i64));
    const vdb::Grid gone = std::move(b);
    CHECK(gone == a && code_of([&] { (void)(a == b); }) == VDB_EMPTY);
}

// Two leaves, a tile of 8, one of 128 and one of 4,096 voxels along each axis, more parts than cross at a time, and none.
static void tree_parts()
{
    vdb::Grid grid(vdb::Kind::i32);
    CHECK(grid.parts().begin() == grid.parts().end());
    grid.fill({{0, 0, 0}, {7, 7, 7}}, 5, false);
    grid.fill({{128, 0, 0}, {255, 127, 127}}, 6);
    grid.fill({{4096, 0, 0}, {8191, 4095, 4095}}, 7);
    grid.set({-1, 0, 0}, 1);
    grid.set({9, 0, 0}, 2, false);
    std::vector<vdb::Part> found;
    for (const vdb::Part &part : grid.parts())
        found.push_back(part);
    CHECK(found.size() == 5);
    CHECK(found[0].box == (vdb::Box{{-8, 0, 0}, {-1, 7, 7}}) && found[0].state == VDB_LEAF);
    CHECK(found[1].box == (vdb::Box{{0, 0, 0}, {7, 7, 7}}) && found[1].value == 5 && found[1].state == 0);
    CHECK(found[2].box == (vdb::Box{{8, 0, 0}, {15, 7, 7}}) && found[2].state == VDB_LEAF);
    CHECK(found[3].box == (vdb::Box{{128, 0, 0}, {255, 127, 127}}) && found[3].value == 6 && found[3].state == 1);
    CHECK(found[4].box == (vdb::Box{{4096, 0, 0}, {8191, 4095, 4095}}) && found[4].value == 7 && found[4].state == 1);
    std::size_t count = 0;
    vdb::Part part = {};
    CHECK(vdb_grid_next_parts(grid.handle(), 130, 1, 1, &part, 1, &count) == VDB_OK && count == 1 && part.value == 6);
    CHECK(vdb_grid_next_parts(grid.handle(), 255, 127, 127, &part, 1, &count) == VDB_OK && count == 1 && part.value == 7);
    CHECK(vdb_grid_next_parts(grid.handle(), 8191, 4095, 4095, &part, 1, &count) == VDB_OK && count == 0);
    vdb::Grid many(vdb::Kind::i64);
    for (int32_t x = 0; x < 200; x++)
        many.fill({{16 * x, 0, 0}, {16 * x + 7, 7, 7}}, x + 1);
    int64_t last = 0;
    for (const vdb::Part &it : many.parts())
        CHECK(it.value == ++last && it.box.min.x == 16 * (it.value - 1));
    CHECK(last == 200);
    const vdb::View view(std::move(many));
    for (const vdb::Part &it : view.parts())
        last -= it.state;
    CHECK(last == 0);
}

// A call on one grid twice.
static void same()
{
    vdb::Grid a = cube(0, 3, 5);
    a.unite(a);
    a.intersect(a);
    a.maximum(a);
    a.minimum(a);
    a.replace(a);
    CHECK(a.count() == 64 && a.get({1, 1, 1}).value == 5);
    a.sum(a);
    CHECK(a.count() == 64 && a.get({1, 1, 1}).value == 10);
    a.subtract(a);
    CHECK(a.count() == 0 && a.get({1, 1, 1}).value == 10);
}

// The second operand is any grid: one that doesn't change, or one that only the call has.
static void operands()
{
    vdb::Grid a = cube(0, 3, 5);
    const vdb::Grid b = cube(2, 5, 7);
    a.unite(b);
    CHECK(a.count() == 120 && b.count() == 64);
    a.subtract(cube(0, 3, 1));
    CHECK(a.count() == 56);
    a.sum(cube(5, 5, 1));
    CHECK(a.count() == 56 && a.get({5, 5, 5}) == (vdb::Cell{1, true}));
    a.intersect(cube(5, 5, 1));
    a.maximum(cube(5, 5, 9));
    CHECK(a.count() == 1 && a.get({5, 5, 5}) == (vdb::Cell{9, true}));
    a.minimum(cube(5, 5, 4));
    CHECK(a.get({5, 5, 5}) == (vdb::Cell{4, true}));
    a.replace(b);
    CHECK(a.count() == 64 && a.get({5, 5, 5}) != (vdb::Cell{4, true}));
}

// Reads of what is const.
static void constants()
{
    vdb::Grid made = cube(-1, 6, 5);
    made.set({7, 0, 0}, 8);
    const vdb::Grid grid = std::move(made);
    CHECK(grid.kind() == vdb::Kind::i32 && grid.background() == 0 && grid.limit() == VDB_LIMIT_DEFAULT);
    CHECK(grid.get({7, 0, 0}) == (vdb::Cell{8, true}) && grid.count() == 513 && grid.census().roots == 8);
    CHECK(grid.bounds() == (vdb::Box{{-1, -1, -1}, {7, 6, 6}}) && grid.bounds() != vdb::everywhere);
    CHECK(std::distance(grid.voxels().begin(), grid.voxels().end()) == 513);
    CHECK(uint64_t(std::distance(grid.leaves().begin(), grid.leaves().end())) == grid.leaf_count());
    std::vector<int64_t> values(2);
    grid.get_many(std::vector<vdb::Coord>{{7, 0, 0}, {8, 0, 0}}, values);
    CHECK(values == std::vector<int64_t>({8, 0}));
    grid.read_box({{6, 0, 0}, {7, 0, 0}}, values);
    CHECK(values == std::vector<int64_t>({5, 8}));
    const vdb::View view(grid.copy());
    CHECK(view.get({7, 0, 0}).value == 8 && view.share().copy().count() == 513);
    vdb::Scene filled;
    filled.put("a", grid.copy());
    filled.set_metadata("a", "unit", "mm");
    const vdb::Scene scene = std::move(filled);
    CHECK(scene.contains("a") && !scene.contains("b") && !scene.contains("") && !scene.contains("No name"));
    CHECK(scene.copy("a").count() == 513 && scene.names().size() == 1 && scene.metadata("a").at("unit") == "mm");
    CHECK(code_of([&] { (void)filled.contains("a"); }) == VDB_EMPTY);
}

// Coordinates as keys, and spans over a border of standards.
static void keys()
{
    CHECK((vdb::Coord{1, 2, 3} == vdb::Coord{1, 2, 3}) && (vdb::Coord{1, 2, 3} != vdb::Coord{1, 2, 4}) && (vdb::Coord{0, 2, 3} != vdb::Coord{1, 2, 3}));
    std::unordered_set<vdb::Coord> keys;
    std::vector<int> low(4096);
    for (int32_t x = -16; x < 16; x++)
        for (int32_t y = -16; y < 16; y++)
            for (int32_t z = -16; z < 16; z++) {
                keys.insert({x, y, z});
                low[std::hash<vdb::Coord>()({x, y, z}) % 4096]++;
            }
    CHECK(keys.size() == 32768 && keys.count({-16, 15, 0}) == 1 && keys.count({16, 0, 0}) == 0);
    // 8 keys each on average; among 4,096 Poisson counts one above 32 has a chance of one in 10^6.
    CHECK(*std::max_element(low.begin(), low.end()) <= 32);
    const std::vector<int64_t> values = {3, 4, 5};
    CHECK(sum_of(values) == 12 && sum_of({}) == 0 && sum_of({values.data() + 1, 2}) == 9);
    const std::array<vdb::Coord, 2> all = {{{1, 2, 3}, {4, 5, 6}}};
    const vdb::Span<const vdb::Coord> rest = without_first(all);
    CHECK(rest.size() == 1 && rest[0] == all[1] && rest.begin() + 1 == rest.end());
    const vdb::Grid grid = cube(1, 3, 5);
    CHECK(active_of(*grid.leaves().begin()) == 27);
}

static void moves()
{
    vdb::Grid a = cube(0, 3, 5), b = std::move(a);
    CHECK(b.count() == 64 && code_of([&] { a.count(); }) == VDB_EMPTY && code_of([&] { b.unite(a); }) == VDB_EMPTY);
    a = std::move(b);
    CHECK(a.count() == 64 && code_of([&] { b.kind(); }) == VDB_EMPTY);
    vdb::Grid &alias = a;
    a = std::move(alias);
    CHECK(a.count() == 64);
    vdb::Scene scene, filled;
    filled.put("a", a.copy());
    scene = std::move(filled);
    vdb::Scene &same = scene;
    scene = std::move(same);
    CHECK(scene.copy("a").count() == 64 && code_of([&] { filled.names(); }) == VDB_EMPTY);
    vdb::View view(std::move(a)), other(cube(0, 1, 5));
    other = std::move(view);
    vdb::View &again = other;
    other = std::move(again);
    CHECK(other.count() == 64 && code_of([&] { view.count(); }) == VDB_EMPTY);
    static_assert(!std::is_copy_constructible_v<vdb::Grid> && !std::is_copy_assignable_v<vdb::Grid>, "a grid moves");
    static_assert(!std::is_copy_constructible_v<vdb::Scene> && !std::is_copy_assignable_v<vdb::Scene>, "a scene moves");
}

static void walks()
{
    vdb::Grid grid(vdb::Kind::i32);
    for (int32_t z : {9, 0, -1, 7})
        grid.set({0, 0, z}, z + 100);
    std::vector<int64_t> values;
    for (const vdb::Voxel &voxel : grid.voxels())
        values.push_back(voxel.value);
    CHECK((values == std::vector<int64_t>{99, 100, 107, 109}));
    vdb::ActiveVoxels some = grid.voxels({{0, 0, 0}, {0, 0, 8}});
    CHECK(std::accumulate(some.begin(), some.end(), INT64_C(0), [](int64_t sum, const vdb::Voxel &it) { return sum + it.value; }) == 207);
    vdb::ActiveVoxels all = grid.voxels();
    vdb::ActiveVoxels::Iterator it = all.begin();
    const vdb::Voxel first = *it++, second = *it;
    CHECK((first == vdb::Voxel{{0, 0, -1}, 99}) && second.at.z == 0 && it != all.end());
    it = std::find_if(all.begin(), all.end(), [](const vdb::Voxel &voxel) { return voxel.value == 107; });
    CHECK(it->at.z == 7 && (it++, it->at.z == 9) && ++it == all.end());
    for (const vdb::Voxel &voxel : grid.voxels())
        grid.set_active(voxel.at, false);
    CHECK(grid.count() == 0);
}

#if __cplusplus >= 202002L
#include <ranges>
#include <span>

// Whether the walks over a grid or a view are ranges of C++20, for its algorithms and adaptors.
template <class Owner> constexpr bool are_ranges()
{
    using Voxels = vdb::ActiveVoxelsOf<Owner>;
    using Leaves = vdb::LeavesOf<Owner>;
    return std::input_iterator<typename Voxels::Iterator> && std::input_iterator<typename Leaves::Iterator> && std::ranges::view<Voxels> &&
           std::ranges::view<Leaves> && std::ranges::input_range<const Voxels> && std::ranges::input_range<const Leaves>;
}
static_assert(are_ranges<vdb::Grid>() && are_ranges<vdb::View>());
static_assert(std::ranges::contiguous_range<vdb::Span<int64_t>> && std::ranges::borrowed_range<vdb::Span<int64_t>>);

// What C++20 adds: adaptors, and std::span in place of vdb::Span.
static void ranges()
{
    vdb::Grid grid = cube(0, 9, 5);
    grid.set({20, 0, 0}, 7);
    auto sevens = grid.voxels() | std::views::filter([](const vdb::Voxel &it) { return it.value == 7; }) | std::views::transform(&vdb::Voxel::at);
    CHECK((*sevens.begin() == vdb::Coord{20, 0, 0}) && std::ranges::distance(sevens) == 1);
    CHECK(std::ranges::distance(grid.voxels() | std::views::take(30)) == 30);
    const vdb::View view(grid.copy());
    CHECK(std::ranges::distance(view.voxels() | std::views::drop(1000)) == 1 && std::ranges::distance(view.leaves() | std::views::take(2)) == 2);
    CHECK(std::ranges::find(grid.leaves(), vdb::Coord{16, 0, 0}, &vdb::Leaf::origin)->at(4, 0, 0).value == 7);
    const std::array<vdb::Coord, 2> at = {{{1, 1, 1}, {20, 0, 0}}};
    std::array<int64_t, 2> values = {};
    grid.get_many(std::span(at), std::span(values));
    CHECK(values[0] == 5 && values[1] == 7 && std::span<const vdb::Coord>(without_first(at)).size() == 1);
}
#else
static void ranges() {}
#endif

static void scenes()
{
    vdb::Scene scene;
    CHECK(scene.names().empty() && scene.to_bytes().size() == 8);
    vdb::Grid grid = cube(0, 3, 5);
    scene.put("b", std::move(grid));
    scene.put("a", cube(1, 1, 1));
    CHECK(code_of([&] { grid.kind(); }) == VDB_EMPTY && code_of([&] { scene.put("c", std::move(grid)); }) == VDB_EMPTY);
    CHECK((scene.names() == std::vector<std::string>{"a", "b"}));
    scene.set_metadata("a", "unit", "mm");
    scene.set_metadata("a", "by", "lab");
    scene.set_metadata("a", "unit", "cm");
    scene.remove_metadata("a", "no");
    CHECK((scene.metadata("a") == std::map<std::string, std::string>{{"by", "lab"}, {"unit", "cm"}}));
    CHECK(code_of([&] { scene.copy("c"); }) == VDB_NO_GRID && code_of([&] { scene.copy(""); }) == VDB_NAME);
    CHECK(code_of([&] { scene.put("a", cube(0, 0, 1)); }) == VDB_NAME_TAKEN);
    CHECK(code_of([&] { scene.set_metadata("a", "k", "a b"); }) == VDB_TEXT && code_of([&] { scene.set_metadata("a", "K", "t"); }) == VDB_NAME);
    CHECK(scene.copy("b").count() == 64);
    vdb::Scene again = vdb::Scene::from_bytes(scene.to_bytes());
    CHECK(again.to_bytes() == scene.to_bytes() && again.metadata("a").size() == 2);
    const vdb::Scene &only_read = again;
    CHECK(only_read.read("b", [](const vdb::Grid &found) { return found.count(); }) == 64);
    again.set_metadata("b", "k", "v");
    again.edit("b", [](vdb::Grid &found) { found.set({9, 9, 9}, 4); });
    CHECK(again.copy("b").count() == 65 && again.metadata("b").at("k") == "v" && again.names().size() == 2);
    CHECK(code_of([&] { again.edit("b", [](vdb::Grid &) -> void { throw vdb::Error(VDB_RANGE); }); }) == VDB_RANGE && again.copy("b").count() == 65);
    CHECK(code_of([&] { again.edit("c", [](vdb::Grid &) {}); }) == VDB_NO_GRID && code_of([&] { only_read.read("C", [](const vdb::Grid &) {}); }) == VDB_NAME);
    CHECK(again.take("b").count() == 65 && again.names().size() == 1);
    const std::map<std::string, std::string> pairs = again.metadata("a");
    vdb::Grid taken = again.take("a");
    taken.set({9, 9, 9}, 4);
    CHECK(code_of([&] { again.put("a", std::move(taken), {{"by", "lab"}, {"k", "a b"}}); }) == VDB_TEXT && taken.count() == 2 && !again.contains("a"));
    again.put("a", std::move(taken), pairs);
    CHECK(again.copy("a").count() == 2 && again.metadata("a") == pairs && code_of([&] { taken.count(); }) == VDB_EMPTY);
    CHECK(code_of([&] { again.put("a", cube(0, 0, 1), pairs); }) == VDB_NAME_TAKEN && again.metadata("a") == pairs);
    CHECK(code_of([] { vdb::Scene::from_bytes({}); }) == VDB_FILE_TRUNCATED);
    CHECK(code_of([] { vdb::Scene::from_bytes({'V', 'D', 'B', 'S', 0, 3, 0, 0}); }) == VDB_FILE_VERSION);
}

// Errors that no call here meets, and what differs in one part alone.
static void parts()
{
    try {
        vdb::check(VDB_MEMORY);
        CHECK(false);
    } catch (const std::bad_alloc &error) {
        CHECK(error.what() == std::string(vdb_message(VDB_MEMORY)));
    }
    try {
        vdb::detail::whole({0, 1});
        CHECK(false);
    } catch (const std::overflow_error &) {
    }
    CHECK((vdb::Cell{1, true} != vdb::Cell{1, false}) && (vdb::Coord{1, 2, 3} != vdb::Coord{1, 0, 3}));
    CHECK((vdb::Voxel{{0, 0, 0}, 1} != vdb::Voxel{{0, 0, 0}, 2}) && (vdb::Voxel{{0, 0, 0}, 1} != vdb::Voxel{{0, 0, 1}, 1}));
    CHECK((vdb::Box{{0, 0, 0}, {1, 1, 1}} != vdb::Box{{0, 0, 0}, {1, 1, 2}}));
    const vdb::View empty{vdb::Grid(vdb::Kind::i32)};
    CHECK(!empty.bounds() && empty.voxels().begin() == empty.voxels().end() && empty.leaves().begin() == empty.leaves().end());
}

// Files behind links, special ones, and those that can't be written.
static void places(const std::string &folder)
{
    const std::string file = folder + "/behind.vdbs", link = folder + "/link.vdbs", far = folder + "/far.vdbs", loop = folder + "/loop.vdbs";
    for (const std::string &old : {file, link, far, loop})
        ::unlink(old.c_str());
    CHECK(::symlink("behind.vdbs", link.c_str()) == 0 && ::symlink(link.c_str(), far.c_str()) == 0 && ::symlink("loop.vdbs", loop.c_str()) == 0);
    vdb::Scene scene;
    scene.save_file(far);
    scene.put("a", cube(0, 3, 5));
    scene.save_file(far);
    CHECK(vdb::Scene::load_file(file).copy("a").count() == 64);
    CHECK(error_of([&] { scene.save_file(loop); }) == ELOOP && error_of([&] { scene.save_file(file + "/below"); }) == ENOTDIR);
    CHECK(error_of([&] { scene.save_file(folder); }) == EISDIR && error_of([&] { scene.save_file("/dev/full"); }) == ENOSPC);
    scene.save_file("/dev/null");
    const std::string taken = folder + "/.vdb-" + std::to_string(::getpid()) + "-";
    for (int number = 0; number < 32; number++)
        std::fclose(std::fopen((taken + std::to_string(number) + ".tmp").c_str(), "wb"));
    CHECK(::chdir(folder.c_str()) == 0);
    scene.save_file("here.vdbs");
    CHECK(vdb::Scene::load_file("here.vdbs").copy("a").count() == 64);
    for (int number = 0; number < 32; number++)
        ::unlink((taken + std::to_string(number) + ".tmp").c_str());
}

static void files(const std::string &folder)
{
    vdb::Scene scene;
    scene.put("a", cube(0, 3, 5));
    scene.save_file(folder + "/scene.vdbs");
    scene.save_file(folder + "/scene.vdbs");
    CHECK(vdb::Scene::load_file(folder + "/scene.vdbs").copy("a").count() == 64);
    for (const char *name : {"/missing", "/"}) {
        try {
            vdb::Scene::load_file(folder + name);
            CHECK(false);
        } catch (const std::system_error &error) {
            CHECK(std::string(error.what()).find(folder + name) == 0);
        }
    }
    try {
        scene.save_file(folder + "/missing/scene.vdbs");
        CHECK(false);
    } catch (const std::system_error &error) {
        CHECK(error.code() == std::errc::no_such_file_or_directory);
    }
    std::fclose(std::fopen((folder + "/empty").c_str(), "wb"));
    try {
        vdb::Scene::load_file(folder + "/empty");
        CHECK(false);
    } catch (const vdb::Error &error) {
        CHECK(error.what() == folder + "/empty: truncated: the file ends before a field or inside it");
    }
}

static void arrays()
{
    vdb::Grid grid(vdb::Kind::i32, 9);
    const std::vector<vdb::Coord> at = {{0, 0, 0}, {7, 7, 7}, {-1, 5, 300}};
    const std::vector<int64_t> given = {1, 2, 3}, wide = {1, 2, INT64_C(1) << 31};
    const std::vector<uint8_t> on = {1, 0, 255};
    std::size_t written = 0;
    grid.write_many(at, given, on, &written);
    CHECK(written == 3 && grid.get({7, 7, 7}).value == 2 && !grid.get({7, 7, 7}).active && grid.count() == 2);
    std::vector<int64_t> values(3), few(2);
    std::vector<uint8_t> states(3, 7);
    grid.get_many(at, values, states);
    CHECK(values == given && states == std::vector<uint8_t>({1, 0, 1}));
    grid.accessor(2).write_many(at, {}, std::vector<uint8_t>{0, 1, 0});
    grid.accessor(2).get_many(at, {}, states);
    CHECK(states == std::vector<uint8_t>({0, 1, 0}) && grid.get({0, 0, 0}).value == 1);
    CHECK(code_of([&] { grid.write_many(at, wide); }) == VDB_RANGE && grid.get({7, 7, 7}).value == 2);
    CHECK(code_of([&] { grid.get_many(at, few); }) == VDB_RANGE);

    const vdb::Box box = {{6, 7, 6}, {7, 8, 8}};
    std::vector<vdb::Coord> inside;
    for (int32_t x = 6; x <= 7; x++)
        for (int32_t y = 7; y <= 8; y++)
            for (int32_t z = 6; z <= 8; z++)
                inside.push_back({x, y, z});
    std::vector<int64_t> dense(12), same(12);
    std::iota(dense.begin(), dense.end(), 100);
    grid.write_many(inside, dense);
    grid.read_box(box, same);
    CHECK(same == dense);
    std::vector<int64_t> spread(40, -1);
    std::vector<uint8_t> none;
    grid.read_box({{5, 7, 7}, {6, 8, 8}}, vdb::Strides{20, 8, 3}, spread, none);
    CHECK(spread[0] == 9 && spread[11] == 9 && spread[20] == 101 && spread[23] == 102 && spread[28] == 104 && spread[31] == 105 && spread[1] == -1);
    CHECK(code_of([&] { grid.read_box(box, vdb::Strides{6, 2, 1}, spread); }) == VDB_RANGE);
    CHECK(code_of([&] { grid.read_box(box, few); }) == VDB_RANGE);

    vdb::Grid boxed(vdb::Kind::i32, 9);
    boxed.write_box(box, dense, {}, &written);
    boxed.read_box(box, same);
    CHECK(written == 12 && same == dense && boxed.count() == 0);
    boxed.write_box(box, vdb::Strides{6, 3, 1}, {}, std::vector<uint8_t>(12, 1));
    CHECK(boxed.count() == 12 && boxed.get({7, 8, 8}).value == 111);
    CHECK(code_of([&] { boxed.write_box(box, few); }) == VDB_RANGE && code_of([&] { boxed.write_box(box, {}); }) == VDB_RANGE);
}

template <typename T> static void from_box_of(T low, T high)
{
    const vdb::Box box = {{-9, 6, 7}, {2, 8, 16}};
    std::unique_ptr<T[]> values(new T[400]);
    vdb::Grid written(std::is_same_v<T, bool> ? vdb::Kind::boolean : std::is_same_v<T, int64_t> ? vdb::Kind::i64 : vdb::Kind::i32, low, 9);
    std::fill(values.get(), values.get() + 400, low);
    std::size_t element = 0;
    for (int32_t x = -9; x <= 2; x++)
        for (int32_t y = 6; y <= 8; y++)
            for (int32_t z = 7; z <= 16; z++, element++)
                if (x == 2 || (x + y + z) % 3 == 0) {
                    values[element] = high;
                    written.set({x, y, z}, high);
                }
    written.prune();
    const vdb::Grid made = vdb::Grid::from_box<T>(box, {values.get(), 360}, low, 9);
    CHECK(made.kind() == written.kind() && made.background() == low && made.limit() == 9);
    CHECK(made.count() == written.count() && made.bounds() == written.bounds() && made.leaf_count() == written.leaf_count());
    for (int32_t x = -10; x <= 3; x++)
        for (int32_t y = 5; y <= 9; y++)
            for (int32_t z = 6; z <= 17; z++)
                CHECK(made.get({x, y, z}) == written.get({x, y, z}));
    const vdb::Grid spread = vdb::Grid::from_box<T>({{0, 0, 0}, {1, 1, 1}}, {200, 20, 3}, {values.get(), 400}, low);
    CHECK(spread.get({1, 1, 1}) == (vdb::Cell{values[223], values[223] != low}) && spread.get({1, 1, 2}) == (vdb::Cell{low, false}));
    CHECK(code_of([&] { vdb::Grid::from_box<T>(box, {values.get(), 359}, low); }) == VDB_RANGE);
    CHECK(code_of([&] { vdb::Grid::from_box<T>(box, {9, 3, 1}, {values.get(), 400}, low); }) == VDB_RANGE);
    CHECK(code_of([&] { vdb::Grid::from_box<T>(box, {values.get(), 360}, low, 0); }) == VDB_RANGE);
    CHECK(code_of([&] { vdb::Grid::from_box<T>({{-5, 0, 0}, {4, 0, 0}}, {values.get(), 10}, high, 1); }) == VDB_ROOT_LIMIT);
}

static void from_box()
{
    from_box_of<bool>(false, true);
    from_box_of<uint8_t>(0, UINT8_MAX);
    from_box_of<int16_t>(3, INT16_MIN);
    from_box_of<uint16_t>(UINT16_MAX, INT16_MAX);
    from_box_of<int32_t>(7, INT32_MIN);
    from_box_of<int64_t>(-1, INT64_MAX);
    vdb_grid grid = VDB_GRID_INIT;
    const vdb_box box = {{0, 0, 0}, {0, 0, 0}};
    const vdb_strides strides = {1, 1, 1};
    const int32_t value = 5;
    CHECK(vdb_grid_from_box_i32(&grid, INT64_C(1) << 31, 1, &box, &strides, &value, 1) == VDB_RANGE);
    CHECK(vdb_grid_from_box_i32(&grid, 0, 1, &box, &strides, &value, 0) == VDB_RANGE && grid.at == nullptr);
}

// Reads a box by a call in row order, in column order and in another one, and compares each element with its voxel.
template <class T, class Handle, class Read, class Get>
static void typed_box(Handle &handle, Read read, Get get)
{
    const vdb_box box = {{-1, 0, 0}, {2, 4, 9}};
    for (const vdb_strides &strides : {vdb_strides{50, 10, 1}, vdb_strides{1, 4, 20}, vdb_strides{11, 1, 60}}) {
        std::vector<T> values(578);
        std::vector<uint8_t> states(578, 7);
        CHECK(read(&handle, &box, &strides, values.data(), values.size(), states.data(), states.size()) == VDB_OK);
        for (int32_t x = -1; x <= 2; x++)
            for (int32_t y = 0; y <= 4; y++)
                for (int32_t z = 0; z <= 9; z++) {
                    const size_t at = (x + 1) * strides.x + y * strides.y + z * strides.z;
                    int64_t value = 0;
                    int32_t active = 0;
                    CHECK(get(&handle, x, y, z, &value, &active) == VDB_OK && values[at] == value && states[at] == active);
                }
    }
    T value = 7;
    const vdb_strides shared = {1, 3, 20};
    uint8_t state = 7;
    CHECK(read(&handle, &box, &shared, &value, 0, &state, 0) == VDB_RANGE);
}

// A grid of booleans or of numbers of 32 bits, and then its view, which calls for another type don't read.
template <class T, class Read, class ReadView, class Other, class OtherView, class U>
static void typed_grid(int32_t kind, int64_t value, Read read, ReadView read_view, Other other, OtherView other_view, U kept)
{
    vdb_grid grid = VDB_GRID_INIT;
    vdb_view view = VDB_VIEW_INIT;
    const vdb_box voxel = {{2, 3, 8}, {2, 3, 8}};
    const vdb_strides any = {0, 0, 0};
    uint8_t state = 7;
    CHECK(vdb_grid_new(&grid, kind, 0, 10) == VDB_OK);
    CHECK(vdb_grid_set(&grid, VDB_NO_ACCESSOR, 2, 3, 8, value, 1) == VDB_OK && vdb_grid_set(&grid, VDB_NO_ACCESSOR, -1, 4, 0, 1, 0) == VDB_OK);
    typed_box<T>(grid, read, vdb_grid_get);
    CHECK(other(&grid, &voxel, &any, &kept, 1, &state, 1) == VDB_KINDS);
    CHECK(vdb_view_new(&grid, &view) == VDB_OK);
    typed_box<T>(view, read_view, vdb_view_get);
    CHECK(other_view(&view, &voxel, &any, &kept, 1, &state, 1) == VDB_KINDS && kept == 7 && state == 7);
    CHECK(vdb_view_take(&view, &grid) == VDB_OK && view.at == nullptr && vdb_view_take(&view, &grid) == VDB_EMPTY);
    typed_box<T>(grid, read, vdb_grid_get);
    vdb_grid_free(&grid);
}

static void typed_boxes()
{
    typed_grid<uint8_t>(VDB_BOOL, 1, vdb_grid_read_box_bool, vdb_view_read_box_bool, vdb_grid_read_box_i32, vdb_view_read_box_i32, int32_t(7));
    typed_grid<int32_t>(VDB_I32, INT32_MIN, vdb_grid_read_box_i32, vdb_view_read_box_i32, vdb_grid_read_box_bool, vdb_view_read_box_bool, uint8_t(7));
}

static void leaves()
{
    vdb::Grid grid(vdb::Kind::i64, -1);
    CHECK(grid.leaf_count() == 0 && grid.leaves().begin() == grid.leaves().end());
    for (int32_t at = 0; at < 40; at++)
        grid.set({8 * at, 3, -9}, at, at % 2 == 0);
    grid.fill({{-8, -8, -8}, {-1, -1, -1}}, 5);
    CHECK(grid.leaf_count() == 40);
    int64_t met = 0;
    for (const vdb::Leaf &leaf : grid.leaves()) {
        CHECK(leaf.origin.x == 8 * met && leaf.origin.y == 0 && leaf.origin.z == -16);
        CHECK(leaf.at(0, 3, 7).value == met && leaf.at(0, 3, 7).active == (met % 2 == 0));
        CHECK(leaf.at(7, 3, 7).value == -1 && !leaf.at(7, 3, 7).active && leaf.values.size() == 512 && leaf.states.size() == 8);
        met++;
    }
    CHECK(met == 40);
    vdb::Leaves::Iterator it = grid.leaves().begin();
    const vdb::Leaf first = *it++;
    CHECK(first.origin.x == 0 && it->origin.x == 8 && first.at(0, 3, 7).active);
}

// What a view shows: voxels at 17 i, i, -5 i for i from 0 to 99, of which every second one is active.
static void shown(const vdb::View &view)
{
    CHECK(view.kind() == vdb::Kind::i64 && view.background() == 3 && view.limit() == VDB_LIMIT_DEFAULT);
    CHECK(view.count() == 50 && view.count({{0, 0, -5}, {34, 2, 0}}) == 1 && view.census().roots == 2);
    CHECK(view.bounds()->min.z == -490 && view.bounds()->max.x == 1666);
    int64_t sum = 0, states = 0;
    for (const vdb::Voxel &voxel : view.voxels())
        sum += voxel.value + voxel.at.y;
    for (const vdb::Leaf &leaf : view.leaves())
        states += active_of(leaf);
    CHECK(sum == 2 * 2450 && states == 50 && view.leaf_count() == 99); // voxel 3 is the background
    CHECK(code_of([&] { view.count({{0, 0, 0}, {0, 0, -1}}); }) == VDB_RANGE);
}

static void views()
{
    vdb::Grid grid(vdb::Kind::i64, 3);
    for (int32_t at = 0; at < 100; at++)
        grid.set({17 * at, at, -5 * at}, at, at % 2 == 0);
    vdb::View view(std::move(grid));
    CHECK(code_of([&] { grid.count(); }) == VDB_EMPTY);
    std::array<int, 4> wrong = {};
    std::vector<std::thread> threads;
    for (int &count : wrong)
        threads.emplace_back([&count, own = view.share()]() mutable {
            for (int32_t turn = 0; turn < 20; turn++)
                for (int32_t at = 0; at < 100; at++) {
                    const vdb::Cell cell = own.get({17 * at, at, -5 * at}), other = own.get({17 * at + 1, at, -5 * at});
                    count += cell.value != at || cell.active != (at % 2 == 0) || other.value != 3 || other.active;
                }
            shown(own);
        });
    for (std::thread &thread : threads)
        thread.join();
    CHECK(wrong == (std::array<int, 4>{}));
    vdb::View moved = std::move(view);
    std::vector<int64_t> values(2), dense(8);
    std::vector<uint8_t> states(2, 7);
    moved.get_many(std::vector<vdb::Coord>{{17, 1, -5}, {34, 2, -10}}, values, states);
    CHECK(values == std::vector<int64_t>({1, 2}) && states == std::vector<uint8_t>({0, 1}));
    moved.read_box({{16, 1, -6}, {17, 2, -5}}, dense);
    CHECK(dense == std::vector<int64_t>({3, 3, 3, 3, 3, 1, 3, 3}));
    CHECK(code_of([&] { moved.read_box({{16, 1, -6}, {17, 2, -4}}, dense); }) == VDB_RANGE);
    shown(moved);
    vdb::Grid copied = moved.copy();
    copied.set({17, 1, -5}, 8);
    CHECK(copied.get({17, 1, -5}).value == 8 && copied.count() == 51);
    CHECK(moved.get({17, 1, -5}).value == 1 && code_of([&] { view.get({0, 0, 0}); }) == VDB_EMPTY);
    CHECK(code_of([&] { vdb::View(std::move(grid)); }) == VDB_EMPTY);
}

int main(int, char **argv)
{
    voxels();
    arrays();
    from_box();
    typed_boxes();
    leaves();
    views();
    boxes();
    progress();
    pairs();
    masks();
    equal();
    tree_parts();
    same();
    operands();
    constants();
    keys();
    moves();
    walks();
    ranges();
    scenes();
    parts();
    files(argv[1]);
    places(argv[1]);
    CHECK(loops());
    return failed;
}
