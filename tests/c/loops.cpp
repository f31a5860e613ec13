// SPDX-License-Identifier: Apache-2.0
// Loops over the active voxels of vdb.hpp, beside a list that is kept without the library, and changes by each call during a loop.
#include "vdb.hpp"

#include <algorithm>
#include <array>
#include <cstdio>
#include <functional>
#include <map>
#include <random>
#include <tuple>
#include <vector>

using vdb::Box;
using vdb::Coord;
using vdb::Grid;
using vdb::Voxel;

static bool all_hold = true;

static void check_at(int line, bool holds)
{
    if (!holds) {
        std::printf("loops.cpp:%d: failed\n", line);
        all_hold = false;
    }
}
#define CHECK(holds) check_at(__LINE__, holds)

// Block order: by the cubes of 4,096 voxels, then by those of 128 and of 8, and by the voxels.
struct BlockOrder {
    bool operator()(const Coord &a, const Coord &b) const
    {
        for (const int shift : {12, 7, 3, 0})
            for (const auto axis : {&Coord::x, &Coord::y, &Coord::z})
                if (a.*axis >> shift != b.*axis >> shift)
                    return a.*axis < b.*axis;
        return false;
    }
};

// The cells that were written, in block order.
using Cells = std::map<Coord, vdb::Cell, BlockOrder>;

static bool contains(const Box &box, const Coord &at)
{
    return box.min.x <= at.x && at.x <= box.max.x && box.min.y <= at.y && at.y <= box.max.y && box.min.z <= at.z && at.z <= box.max.z;
}

// Returns the first active voxel of a box past another one, or the first of all.
static std::vector<Voxel> next(const Cells &cells, const Box &box, const Voxel *last)
{
    for (auto it = last ? cells.upper_bound(last->at) : cells.begin(); it != cells.end(); ++it)
        if (it->second.active && contains(box, it->first))
            return {{it->first, it->second.value}};
    return {};
}

// Loops over a box, calls `change` after each voxel, and compares each step with the list.
template <typename Owner, typename Change> static void compare(int line, const Owner &owner, const Cells &cells, const Box &box, Change change)
{
    std::vector<Voxel> wanted = next(cells, box, nullptr);
    for (const Voxel &voxel : owner.voxels(box)) {
        if (wanted.empty() || voxel != wanted[0])
            return check_at(line, false);
        change(voxel);
        wanted = next(cells, box, &wanted[0]);
    }
    check_at(line, wanted.empty());
}

// Draws grids within 24 voxels along each axis around a corner, their boxes, and the changes of a loop.
class Draws {
public:
    Draws(uint32_t seed, Coord corner) : draws_(seed), corner_(corner) {}

    uint32_t below(uint32_t count) { return static_cast<uint32_t>(draws_()) % count; }
    Coord at(uint32_t side = 24) { return {corner_.x + int32_t(below(side)), corner_.y + int32_t(below(side)), corner_.z + int32_t(below(side))}; }

    // A box with sides of at most `side` voxels, or a cube of 8 voxels, which is a tile if it is filled.
    Box box(uint32_t side)
    {
        const Coord a = at(20);
        if (below(3) == 0)
            return {{a.x & ~7, a.y & ~7, a.z & ~7}, {a.x | 7, a.y | 7, a.z | 7}};
        const auto far = [&](int32_t low) { return int32_t(std::min<int64_t>(INT32_MAX, int64_t(low) + below(side))); };
        return {a, {far(a.x), far(a.y), far(a.z)}};
    }

    // Writes a voxel or a box into the grid by one of its calls, and into the list.
    void write(Grid &grid, vdb_grid *handle, Cells &cells)
    {
        const int64_t value = int64_t(below(100));
        const bool active = below(2) == 0;
        const uint32_t call = below(20);
        const Coord p = at();
        if (call == 0) {
            const Box filled = box(8);
            grid.fill(filled, value, active);
            for (int64_t x = filled.min.x; x <= filled.max.x; x++)
                for (int64_t y = filled.min.y; y <= filled.max.y; y++)
                    for (int64_t z = filled.min.z; z <= filled.max.z; z++)
                        cells[{int32_t(x), int32_t(y), int32_t(z)}] = {value, active};
            return;
        }
        cells[p] = {value, active};
        if (call == 1)
            grid.accessor(5).set(p, value, active);
        else if (call == 2 && handle)
            vdb::check(vdb_grid_set(handle, VDB_NO_ACCESSOR, p.x, p.y, p.z, value, active));
        else
            grid.set(p, value, active);
    }

private:
    std::mt19937 draws_;
    Coord corner_;
};

// Reads of random grids of leaves and tiles, and then changes of them in the loop. Every second one has lent its handle.
static void random_grids()
{
    const int32_t low = INT32_MIN, high = INT32_MAX - 23;
    const std::array<Coord, 6> corners = {{{-20, -20, -20}, {4080, 100, -130}, {low, low, low}, {high, high, high}, {low, high, 0}, {0, 0, high}}};
    for (uint32_t seed = 0; seed < 12; seed++) {
        const Coord corner = corners[seed % 6];
        Draws draws(seed, corner);
        Grid grid(vdb::Kind::i64, 7);
        vdb_grid *const handle = seed % 2 ? grid.handle() : nullptr;
        Cells cells;
        for (uint32_t turn = 0; turn < 20u << seed / 2; turn++)
            draws.write(grid, handle, cells);
        const auto nothing = [](const Voxel &) {};
        const auto look = [&](const Voxel &voxel) { (void)grid.get({voxel.at.x ^ 1, voxel.at.y, voxel.at.z ^ 8}); };
        const vdb::View view(grid.copy());
        compare(__LINE__, grid, cells, vdb::everywhere, nothing);
        compare(__LINE__, view, cells, vdb::everywhere, nothing);
        for (int turn = 0; turn < 4; turn++) {
            const Box box = draws.box(20);
            compare(__LINE__, grid, cells, box, look);
            compare(__LINE__, view, cells, box, nothing);
        }
        const auto change = [&](const Voxel &voxel) {
            if (draws.below(4) == 0)
                draws.write(grid, handle, cells);
            if (draws.below(16) == 0) {
                grid.set_active(voxel.at, false);
                cells[voxel.at].active = false;
            }
        };
        compare(__LINE__, grid, cells, vdb::everywhere, change);
        compare(__LINE__, grid, cells, draws.box(20), change);
    }
}

// What a loop yields: z + 8 y + 64 x of each voxel, and its value.
using Yields = std::vector<std::pair<int32_t, int64_t>>;

static Grid three()
{
    Grid grid(vdb::Kind::i32);
    for (const int32_t z : {0, 3, 6})
        grid.set({0, 0, z}, 10 + z);
    return grid;
}

// Makes a change at one voxel of a loop, and returns what the loop yields.
static Yields yields(Grid &grid, std::size_t turn, const std::function<void()> &change)
{
    Yields found;
    for (const Voxel &voxel : grid.voxels({{0, 0, 0}, {63, 63, 63}})) {
        found.emplace_back(voxel.at.z + 8 * voxel.at.y + 64 * voxel.at.x, voxel.value);
        if (found.size() == turn)
            change();
    }
    return found;
}

// Each call that changes a grid, at the first voxel of a loop and at the second one. Each row has what the loop yields in the first case.
static void calls()
{
    const Yields same = {{0, 10}, {3, 13}, {6, 16}}, with_four = {{0, 10}, {3, 13}, {4, 0}, {6, 16}}, without_three = {{0, 10}, {6, 16}};
    const Yields grown = {{0, 10}, {1, 0}, {2, 0}, {3, 13}, {4, 0}, {5, 0}, {6, 16}, {7, 0}, {8, 0}, {11, 0}, {14, 0}, {64, 0}, {67, 0}, {70, 0}};
    Grid four(vdb::Kind::i32), at_three(vdb::Kind::i32);
    four.set({0, 0, 4}, 20);
    at_three.set({0, 0, 3}, 20);
    const auto nothing = [](uint32_t, uint32_t) {};
    const std::vector<Coord> at = {{0, 0, 4}, {0, 0, 3}};
    const std::vector<int64_t> values = {20, 21};
    using Change = std::function<void(Grid &)>;
    const std::vector<std::tuple<int, Yields, Change>> rows = {
        {__LINE__, {{0, 10}, {3, 13}, {4, 20}, {6, 16}}, [&](Grid &it) { it.set({0, 0, 4}, 20); }},
        {__LINE__, {{0, 10}, {3, 20}, {6, 16}}, [&](Grid &it) { it.set_value({0, 0, 3}, 20); }},
        {__LINE__, without_three, [&](Grid &it) { it.set_active({0, 0, 3}, false); }},
        {__LINE__, {{0, 10}, {3, 13}, {4, 20}, {6, 16}}, [&](Grid &it) { it.accessor(0).set({0, 0, 4}, 20); }},
        {__LINE__, {{0, 10}, {3, 20}, {6, 16}}, [&](Grid &it) { it.accessor(0).set_value({0, 0, 3}, 20); }},
        {__LINE__, without_three, [&](Grid &it) { it.accessor(0).set_active({0, 0, 3}, false); }},
        {__LINE__, {{0, 10}, {3, 21}, {6, 16}}, [&](Grid &it) { it.accessor(0).write_many(at, values); }},
        {__LINE__, {{0, 10}, {3, 21}, {4, 20}, {6, 16}}, [&](Grid &it) { it.write_many(at, values, std::vector<uint8_t>{1, 1}); }},
        {__LINE__, {{0, 10}, {3, 20}, {4, 21}, {6, 16}}, [&](Grid &it) { it.write_box({at[1], at[0]}, values, std::vector<uint8_t>{1, 1}); }},
        {__LINE__, {{0, 10}, {3, 20}, {4, 20}, {6, 16}}, [&](Grid &it) { it.fill({at[1], at[0]}, 20); }},
        {__LINE__, {{0, 10}, {3, 13}}, [&](Grid &it) { it.clip({{0, 0, 0}, {0, 0, 5}}); }},
        {__LINE__, same, [&](Grid &it) { it.prune(); }},
        {__LINE__, same, [&](Grid &it) { it.voxelise({{0, 0, 0}, {9, 9, 9}}); }},
        {__LINE__, grown, [&](Grid &it) { it.dilate(); }},
        {__LINE__, grown, [&](Grid &it) { it.dilate(1, nothing); }},
        {__LINE__, {{0, 10}}, [&](Grid &it) { it.erode(); }},
        {__LINE__, {{0, 10}}, [&](Grid &it) { it.erode(1, nothing); }},
        {__LINE__, with_four, [&](Grid &it) { it.unite(four); }},
        {__LINE__, same, [&](Grid &it) { it.unite(it); }},
        {__LINE__, without_three, [&](Grid &it) { it.subtract(at_three); }},
        {__LINE__, {{0, 10}, {3, 13}}, [&](Grid &it) { it.intersect(at_three); }},
        {__LINE__, {{0, 10}, {3, 20}, {6, 16}}, [&](Grid &it) { it.maximum(at_three); }},
        {__LINE__, {{0, 10}, {3, 13}, {6, 0}}, [&](Grid &it) { it.minimum(at_three); }},
        {__LINE__, {{0, 10}, {3, 33}, {6, 16}}, [&](Grid &it) { it.sum(at_three); }},
        {__LINE__, {{0, 10}, {3, 26}, {6, 32}}, [&](Grid &it) { it.sum(it); }},
        {__LINE__, {{0, 10}, {3, 20}, {6, 16}}, [&](Grid &it) { it.replace(at_three); }},
        {__LINE__, {{0, 10}, {4, 20}}, [&](Grid &it) { it = four.copy(); }},
        {__LINE__, with_four, [&](Grid &it) { vdb::check(vdb_grid_unite(it.handle(), four.handle())); }},
    };
    for (const auto &[line, wanted, change] : rows) {
        Yields later = {{0, 10}, {3, 13}};
        std::copy_if(wanted.begin(), wanted.end(), std::back_inserter(later), [](const auto &it) { return it.first > 3; });
        Grid first = three(), second = three();
        check_at(line, yields(first, 1, [&, &change = change] { change(first); }) == wanted);
        check_at(line, yields(second, 2, [&, &change = change] { change(second); }) == later);
    }
}

// A handle that was lent before the loop, sets of voxels, grids that are moved away, and views that are replaced.
static void owners()
{
    Grid lent = three();
    vdb_grid *const handle = lent.handle();
    Grid moved = three();
    CHECK((yields(lent, 1, [&] { vdb::check(vdb_grid_replace(handle, moved.handle())), vdb::check(vdb_grid_set_active(handle, 3, 0, 0, 3, 0)); }) == Yields{{0, 10}, {6, 16}}));
    vdb::Mask mask;
    mask.fill({{0, 0, 0}, {0, 0, 2}});
    std::vector<int32_t> found;
    for (const Voxel &voxel : mask.grid().voxels()) {
        found.push_back(voxel.at.z);
        if (voxel.at.z == 1)
            mask.set({0, 0, 2}, false), mask.set({0, 0, 5});
        if (voxel.at == Coord{0, 0, 5})
            mask.dilate(2);
    }
    CHECK((std::vector<int32_t>(found.begin(), found.begin() + 5) == std::vector<int32_t>{0, 1, 5, 6, 7}));
    const auto is_empty = [](auto &owner, auto take) {
        try {
            for (const Voxel &voxel : owner.voxels())
                if (voxel.at.z == 3)
                    take();
        } catch (const vdb::Error &error) {
            return error.code() == VDB_EMPTY;
        }
        return false;
    };
    vdb::Scene scene;
    Grid put = three(), viewed = three();
    CHECK(is_empty(put, [&] { scene.put("a", std::move(put)); }));
    CHECK(is_empty(viewed, [&] { vdb::View(std::move(viewed)); }));
    CHECK(is_empty(moved, [&] { Grid(std::move(moved)); }));
    vdb::View view{three()}, other{Grid(vdb::Kind::i32)};
    for (const Voxel &voxel : view.voxels())
        CHECK(voxel.at.z != 6 && (voxel.at.z != 3 || (view = other.share(), true)));
    Grid kept = three();
    vdb::ActiveVoxels::Iterator it = kept.voxels().begin(), later = ++vdb::ActiveVoxels::Iterator(it);
    kept.set({0, 0, 1}, 5);
    CHECK((*++it == Voxel{{0, 0, 1}, 5}) && later->at.z == 3 && (++later)->at.z == 6 && ++later == kept.voxels().end());
}

// Tiles of 128 voxels and the voxel before and after, and boxes that cut them.
static void tiles()
{
    Grid grid(vdb::Kind::boolean);
    grid.fill({{0, 0, 0}, {127, 127, 127}}, 1);
    grid.fill({{128, 0, 0}, {135, 7, 7}}, 1);
    grid.set({-1, -1, -1}, 0);
    int64_t count = 0, before = 0, sum = 0;
    for (const Voxel &voxel : grid.voxels({{-9, -9, -9}, {200, 3, 127}})) {
        count++, sum += voxel.at.x + 1000 * voxel.value;
        before += count == 1 + 4 * 64 && voxel.at == Coord{7, 3, 7};
    }
    CHECK(count == 1 + 128 * 4 * 128 + 8 * 4 * 8 && before == 1);
    CHECK(sum == -1 + 512 * (127 * 64) + 32 * (128 * 8 + 28) + 1000 * (count - 1));
    const Box cut = {{126, 126, 120}, {129, 127, 127}};
    CHECK(std::distance(grid.voxels(cut).begin(), grid.voxels(cut).end()) == 2 * 2 * 8);
    CHECK(grid.voxels({{0, 0, 200}, {9, 9, 209}}).begin() == grid.voxels().end());
}

bool loops()
{
    random_grids();
    calls();
    owners();
    tiles();
    return all_hold;
}
