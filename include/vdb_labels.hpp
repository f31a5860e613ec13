// SPDX-License-Identifier: Apache-2.0
// Labels of a grid, for C++17 and later: choices, measures, components, and masks opened, closed, filled or grown by millimetres.
//
//     #include <vdb_labels.hpp>
//
//     for (const vdb::labels::Measure &row : vdb::labels::measure(organs, {0.7, 0.7, 3}))
//         std::cout << row.value << ' ' << row.volume << ' ' << row.area << '\n';
//     vdb::Mask shell = vdb::labels::margin(vdb::labels::select(organs, {3}), 7.5, {0.7, 0.7, 3});
//     shell.subtract(organs);
//
// The calls and their results are those of vdb.labels and vdb.Grid in Python. None makes a dense array of the grid: a leaf is 512 voxels,
// and a tile is one item, however large. They throw what the calls of vdb.hpp throw, and std::invalid_argument for an argument that
// their comment excludes. A grid that is only read is unchanged then.
#ifndef VDB_LABELS_HPP
#define VDB_LABELS_HPP

#include "vdb.hpp"

#include <algorithm>
#include <cmath>
#include <cstdlib>
#include <numeric>
#include <unordered_map>

namespace vdb {
namespace labels {

// Three sizes of a voxel, in millimetres or any other unit.
using Spacing = std::array<double, 3>;

// Active voxels of a box, all of one value.
struct LabelBox {
    Box box;
    int64_t value;
};

// A label: how many active voxels have this value, and their bounding box.
struct Label {
    int64_t value;
    uint64_t voxels;
    Box bounds;
};

// What `measure` finds of a label: the mean of its coordinates in voxels, the sides of its bounding box, the area of the faces between it and
// all others, and that of its contact with each label that it touches.
struct Measure : Label {
    double volume;
    std::array<double, 3> centroid, extent;
    double area;
    std::map<int64_t, double> neighbours;
};

namespace detail {

using Step = std::array<int32_t, 3>;

inline void require(bool holds, const char *what)
{
    if (!holds)
        throw std::invalid_argument(what);
}

inline Step parts(const Coord &at) { return {at.x, at.y, at.z}; }
inline int64_t length(const Box &box, std::size_t axis) { return int64_t(parts(box.max)[axis]) - parts(box.min)[axis] + 1; }
inline int32_t side(const Part &tile) { return static_cast<int32_t>(length(tile.box, 0)); }
inline uint64_t size(const Box &box) { return uint64_t(length(box, 0)) * uint64_t(length(box, 1)) * uint64_t(length(box, 2)); }
inline bool is_active(const Leaf &leaf, std::size_t voxel) { return leaf.states[voxel >> 6] >> (voxel & 63) & 1; }

// Returns the voxel `by` steps away, if it has coordinates.
inline std::optional<Coord> moved(const Coord &at, const Step &step, int32_t by)
{
    std::array<int64_t, 3> to{};
    for (int axis = 0; axis < 3; axis++) {
        to[axis] = parts(at)[axis] + int64_t(step[axis]) * by;
        if (to[axis] < INT32_MIN || to[axis] > INT32_MAX)
            return std::nullopt;
    }
    return Coord{static_cast<int32_t>(to[0]), static_cast<int32_t>(to[1]), static_cast<int32_t>(to[2])};
}

inline Coord place(const Coord &leaf, std::size_t voxel)
{
    const auto part = static_cast<int32_t>(voxel);
    return {leaf.x + (part >> 6), leaf.y + (part >> 3 & 7), leaf.z + (part & 7)};
}

// Calls `of_leaf` with each leaf, then `of_tile` with each active tile. All that these calls know of a grid's tree comes from here.
template <typename OfLeaf, typename OfTile> void each_part(const Grid &grid, OfLeaf &&of_leaf, OfTile &&of_tile)
{
    for (const Leaf &leaf : grid.leaves())
        of_leaf(leaf);
    for (const Part &part : grid.parts())
        if (part.state == 1)
            of_tile(part);
}

} // namespace detail

// Returns the active voxels as boxes of one value each: tiles, and runs along z of leaves. Boxes don't overlap.
inline std::vector<LabelBox> boxes(const Grid &grid)
{
    std::vector<LabelBox> made;
    detail::each_part(
        grid,
        [&](const Leaf &leaf) {
            for (std::size_t voxel = 0; voxel < 512; voxel++) {
                if (!detail::is_active(leaf, voxel))
                    continue;
                const Coord at = detail::place(leaf.origin, voxel);
                if (voxel % 8 && detail::is_active(leaf, voxel - 1) && leaf.values[voxel - 1] == leaf.values[voxel])
                    made.back().box.max = at;
                else
                    made.push_back({{at, at}, leaf.values[voxel]});
            }
        },
        [&](const Part &tile) { made.push_back({tile.box, tile.value}); });
    return made;
}

namespace detail {

// The cells of a grid's leaves, voxel by voxel, and of its tiles: 0 if inactive, else the number of the value, from 1 on.
class Items {
public:
    explicit Items(const Grid &grid)
    {
        const auto number = [&](int64_t value) { return numbers.try_emplace(value, static_cast<uint32_t>(numbers.size() + 1)).first->second; };
        each_part(
            grid,
            [&](const Leaf &leaf) {
                places_[8].emplace(leaf.origin, cells.size());
                leaves.push_back(leaf.origin);
                for (std::size_t voxel = 0; voxel < 512; voxel++)
                    cells.push_back(is_active(leaf, voxel) ? number(leaf.values[voxel]) : 0);
            },
            [&](const Part &tile) {
                places_[side(tile)].emplace(tile.box.min, cells.size());
                tiles.push_back(tile);
                cells.push_back(number(tile.value));
            });
        require(cells.size() < UINT32_MAX, "the grid has too many leaves");
    }

    std::vector<Coord> leaves;
    std::vector<Part> tiles;
    std::vector<uint32_t> cells;
    std::unordered_map<int64_t, uint32_t> numbers;

    std::size_t voxels() const { return 512 * leaves.size(); }
    Coord first(std::size_t node) const
    {
        return node < voxels() ? place(leaves[node >> 9], node & 511) : tiles[node - voxels()].box.min;
    }

    // Calls use(index, index, step, faces) with each two cells that touch by a step that changes at most `order` coordinates.
    template <typename Use> void contacts(int order, Use &&use) const
    {
        const auto number = [](const Step &step) { return static_cast<std::size_t>(9 * step[0] + 3 * step[1] + step[2] + 13); };
        std::vector<Step> steps;
        for (const int32_t x : {-1, 0, 1})
            for (const int32_t y : {-1, 0, 1})
                for (const int32_t z : {-1, 0, 1})
                    if (const int sum = std::abs(x) + std::abs(y) + std::abs(z); sum > 0 && sum <= order)
                        steps.push_back({x, y, z});
        std::array<std::size_t, 27> around{}; // the first cell of a leaf, and of what is a step away from it
        for (std::size_t leaf = 0; leaf < leaves.size(); leaf++) {
            around[13] = 512 * leaf;
            for (const Step &step : steps)
                around[number(step)] = block_at(moved(leaves[leaf], step, 8), 8);
            for (const Step &step : steps)
                for (std::size_t voxel = 0; voxel < 512; voxel++) {
                    const Step to = {int32_t(voxel >> 6) + step[0], int32_t(voxel >> 3 & 7) + step[1], int32_t(voxel & 7) + step[2]};
                    const std::size_t block = around[number({to[0] >> 3, to[1] >> 3, to[2] >> 3})];
                    if (block < voxels() && step > Step{0, 0, 0})
                        use(512 * leaf + voxel, block + static_cast<std::size_t>((to[0] & 7) << 6 | (to[1] & 7) << 3 | (to[2] & 7)), step, 1);
                    else if (block >= voxels() && block != none)
                        use(512 * leaf + voxel, block, step, 1);
                }
        }
        for (std::size_t tile = 0; tile < tiles.size(); tile++)
            for (const Step &step : steps) {
                const int32_t length = side(tiles[tile]);
                const std::size_t other = block_at(moved(tiles[tile].box.min, step, length), length);
                if (other != none && other >= voxels() && (side(tiles[other - voxels()]) > length || step > Step{0, 0, 0}))
                    use(voxels() + tile, other, step, uint64_t(length) * uint64_t(length));
            }
    }

private:
    // Returns the first cell of the leaf or the tile of at least a side that has a voxel, or none.
    std::size_t block_at(const std::optional<Coord> &at, int32_t least) const
    {
        for (auto level = places_.lower_bound(least); at && level != places_.end(); ++level) {
            const auto &[length, blocks] = *level;
            const auto found = blocks.find({at->x & -length, at->y & -length, at->z & -length});
            if (found != blocks.end())
                return found->second;
        }
        return none;
    }

    static constexpr std::size_t none = SIZE_MAX;
    std::map<int32_t, std::unordered_map<Coord, std::size_t>> places_; // leaves and tiles by their sides, and then by their least corners
};

// Writes the active voxels of a grid whose value is a key to another grid, with the value of that key.
inline Grid mapped(const Grid &from, Grid made, const std::map<int64_t, int64_t> &pairs)
{
    for (const auto &[box, value] : boxes(from))
        if (const auto found = pairs.find(value); found != pairs.end())
            made.fill(box, found->second);
    made.prune();
    return made;
}

inline Mask changed(const Grid &grid, bool dilates, uint32_t iterations)
{
    require(iterations > 0, "the number of iterations is at least 1");
    Mask made(grid);
    for (const bool turn : {dilates, !dilates})
        for (uint32_t left = iterations; left > 0; left -= std::min(left, 16U))
            turn ? made.dilate(std::min(left, 16U)) : made.erode(std::min(left, 16U));
    return made;
}

} // namespace detail

// Returns the mask of the active voxels that have one of some values.
inline Mask select(const Grid &grid, const std::vector<int64_t> &values)
{
    std::map<int64_t, int64_t> pairs;
    for (const int64_t value : values)
        pairs[value] = 1;
    return Mask(detail::mapped(grid, Grid(Kind::boolean, 0, grid.limit()), pairs));
}

// Returns a copy in which each active voxel whose value is a key has the value of that key.
inline Grid relabel(const Grid &grid, const std::map<int64_t, int64_t> &pairs) { return detail::mapped(grid, grid.copy(), pairs); }

// Returns a grid with the active voxels that are active in the mask too. All others are the background, inactive.
inline Grid where(const Grid &grid, const Grid &mask)
{
    Grid made(grid.kind(), grid.background(), grid.limit()), chosen = grid.copy();
    chosen.intersect(mask);
    made.replace(chosen);
    return made;
}

// Grows a label into inactive voxels alone, in 1 to 16 iterations.
inline void dilate_label(Grid &grid, int64_t value, uint32_t iterations = 1)
{
    Grid region = select(grid, {value}).grid(), others = grid.copy(), grown(grid.kind(), value, grid.limit());
    others.subtract(region);
    detail::require(iterations >= 1 && iterations <= VDB_ITERATIONS_MOST, "the number of iterations is 1 to 16");
    for (uint32_t done = 0; done < iterations; done++) {
        region.dilate(1);
        region.subtract(others);
    }
    grown.unite(region);
    grid.replace(grown);
}

// Shrinks a label, in 1 to 16 iterations: voxels that it loses become the background, inactive.
inline void erode_label(Grid &grid, int64_t value, uint32_t iterations = 1)
{
    Mask lost = select(grid, {value}), core = lost.copy();
    core.erode(iterations);
    lost.subtract(core);
    Grid emptied(grid.kind(), grid.background(), grid.limit());
    emptied.unite(lost);
    grid.replace(emptied);
    grid.subtract(lost);
}

// Returns the measures of each label, by rising values. Sums of coordinates are exact below 2^64. Every spacing is above 0.
inline std::vector<Measure> measure(const Grid &grid, const Spacing &spacing = {1, 1, 1})
{
    for (const double size : spacing)
        detail::require(size > 0 && std::isfinite(size), "the spacing is three positive numbers");
    const detail::Items items(grid);
    const std::size_t count = items.numbers.size();
    const double total = spacing[0] * spacing[1] * spacing[2];
    std::vector<Measure> made(count);
    std::vector<std::array<uint64_t, 3>> inner(count + 1); // of each label the faces along each axis between two of its voxels
    std::vector<std::array<long double, 3>> sums(count); // twice the sums past the least corner, since the middle of a box may lie between voxels
    std::map<std::pair<uint32_t, uint32_t>, std::array<uint64_t, 3>> touching;
    const detail::Step origin = detail::parts(grid.bounds().value_or(Box{}).min);
    for (const auto &[box, value] : boxes(grid)) {
        const std::size_t label = items.numbers.at(value) - 1;
        Measure &it = made[label];
        const Box &old = it.voxels == 0 ? box : it.bounds;
        it.value = value;
        it.bounds = {{std::min(old.min.x, box.min.x), std::min(old.min.y, box.min.y), std::min(old.min.z, box.min.z)},
                     {std::max(old.max.x, box.max.x), std::max(old.max.y, box.max.y), std::max(old.max.z, box.max.z)}};
        it.voxels += detail::size(box);
        for (std::size_t axis = 0; axis < 3; axis++) {
            const int64_t middle = int64_t(detail::parts(box.min)[axis]) + detail::parts(box.max)[axis] - 2 * int64_t(origin[axis]);
            sums[label][axis] += static_cast<long double>(middle) * static_cast<long double>(detail::size(box));
        }
    }
    for (const Part &tile : items.tiles)
        for (uint64_t &faces : inner[items.numbers.at(tile.value)])
            faces += uint64_t(detail::side(tile) - 1) * uint64_t(detail::side(tile)) * uint64_t(detail::side(tile));
    items.contacts(1, [&](std::size_t one, std::size_t other, const detail::Step &step, uint64_t each) {
        const std::size_t axis = step[0] ? 0 : step[1] ? 1 : 2;
        const uint32_t first = items.cells[one], second = items.cells[other];
        if (first == second)
            inner[first][axis] += each;
        else if (first && second)
            touching[std::minmax(first, second)][axis] += each;
    });
    for (std::size_t label = 0; label < count; label++) {
        Measure &it = made[label];
        it.volume = static_cast<double>(it.voxels) * total;
        for (std::size_t axis = 0; axis < 3; axis++) {
            const long double middle = static_cast<long double>(origin[axis]) + sums[label][axis] / (2 * static_cast<long double>(it.voxels));
            it.centroid[axis] = static_cast<double>(middle);
            it.extent[axis] = static_cast<double>(detail::length(it.bounds, axis)) * spacing[axis];
            it.area += static_cast<double>(2 * (it.voxels - inner[label + 1][axis])) * (total / spacing[axis]);
        }
    }
    for (const auto &[pair, counts] : touching)
        for (std::size_t axis = 0; axis < 3; axis++) {
            const double area = static_cast<double>(counts[axis]) * (total / spacing[axis]);
            Measure &one = made[pair.first - 1], &other = made[pair.second - 1];
            one.neighbours[other.value] += area;
            other.neighbours[one.value] += area;
        }
    std::sort(made.begin(), made.end(), [](const Measure &one, const Measure &other) { return one.value < other.value; });
    return made;
}

// Returns the labels, by rising values.
inline std::vector<Label> labels(const Grid &grid)
{
    const std::vector<Measure> found = measure(grid);
    return {found.begin(), found.end()};
}

// Returns a grid of component numbers from 1 on, in the order of each component's first voxel by x, then y, then z. Active voxels of one value
// are in one component if a path of voxels of that value joins them, by steps over faces (6), also edges (18) or also corners (26). Those of
// all values together are the components of Mask(grid).
inline Grid components(const Grid &grid, int connectivity = 6)
{
    detail::require(connectivity == 6 || connectivity == 18 || connectivity == 26, "the connectivity is 6, 18 or 26");
    const detail::Items items(grid);
    std::vector<uint32_t> above(items.cells.size());
    std::iota(above.begin(), above.end(), 0U);
    const auto top = [&](std::size_t node) {
        while (above[node] != node)
            node = above[node] = above[above[node]];
        return static_cast<uint32_t>(node);
    };
    const auto before = [&](uint32_t one, uint32_t other) { return detail::parts(items.first(one)) < detail::parts(items.first(other)); };
    items.contacts(connectivity == 6 ? 1 : connectivity == 18 ? 2 : 3, [&](std::size_t one, std::size_t other, const detail::Step &, uint64_t) {
        if (items.cells[one] && items.cells[one] == items.cells[other]) {
            const auto [first, second] = std::minmax({top(one), top(other)}, before);
            above[second] = first;
        }
    });
    std::vector<uint32_t> tops;
    for (uint32_t node = 0; node < items.cells.size(); node++)
        if (items.cells[node] && above[node] == node)
            tops.push_back(node);
    std::sort(tops.begin(), tops.end(), before);
    std::unordered_map<uint32_t, int64_t> numbers;
    for (const uint32_t node : tops)
        numbers.emplace(node, int64_t(numbers.size()) + 1);
    Grid made(Kind::i32, 0, grid.limit());
    for (std::size_t node = 0; node < items.voxels(); node++)
        if (items.cells[node])
            made.accessor(0).set(items.first(node), numbers[top(node)]);
    for (std::size_t tile = 0; tile < items.tiles.size(); tile++)
        made.fill(items.tiles[tile].box, numbers[top(items.voxels() + tile)]);
    made.prune();
    return made;
}

// Returns the mask of the active voxels, opened: eroded, then dilated in as many iterations by faces. It loses what is thinner.
inline Mask open(const Grid &grid, uint32_t iterations = 1) { return detail::changed(grid, false, iterations); }

// Returns the mask of the active voxels, closed: dilated, then eroded in as many iterations by faces. Narrower gaps are filled.
inline Mask close(const Grid &grid, uint32_t iterations = 1) { return detail::changed(grid, true, iterations); }

// Returns the mask of the active voxels and of the holes in it: the voxels from which no path over faces leads out of its bounding box.
// Throws Error with VDB_ROOT_LIMIT if that has more root blocks than the limit of the grid.
inline Mask fill_holes(const Grid &grid)
{
    Mask made(grid);
    const std::optional<Box> bounds = made.bounds();
    if (!bounds)
        return made;
    const auto below = [](int32_t at) { return at == INT32_MIN ? at : (at - 1) & -128; };
    const auto above = [](int32_t at) { return at == INT32_MAX ? at : (at + 1) | 127; };
    const auto &[min, max] = *bounds;
    const Box box = {{below(min.x), below(min.y), below(min.z)}, {above(max.x), above(max.y), above(max.z)}};
    Mask around(grid.limit());
    around.fill(box);
    around.subtract(made);
    const Grid numbers = components(around);
    std::vector<int64_t> holes;
    for (const Label &label : labels(numbers)) {
        const auto &[low, high] = label.bounds;
        if (low.x > box.min.x && low.y > box.min.y && low.z > box.min.z && high.x < box.max.x && high.y < box.max.y && high.z < box.max.z)
            holes.push_back(label.value);
    }
    made.unite(select(numbers, holes));
    return made;
}

// Returns the mask of all voxels whose middle is at most a distance from the middle of an active voxel, these too. The distance is 0 to 256
// voxels. Throws Error with VDB_RANGE if it goes past 32 bits.
inline Mask margin(const Grid &grid, double distance, const Spacing &spacing = {1, 1, 1})
{
    const double least = std::min({spacing[0], spacing[1], spacing[2]});
    detail::require(least > 0 && distance >= 0 && distance <= 256 * least, "the spacing is above 0, and the distance 0 to 256 voxels");
    Mask made(grid);
    // returns the greatest step along z of the ball with these along x and y, or -1
    const auto reach = [&](int32_t x, int32_t y) {
        const auto square = [&](std::size_t axis, int32_t by) { return by * spacing[axis] * (by * spacing[axis]); };
        int32_t z = -1;
        while (std::sqrt(square(0, x) + square(1, y) + square(2, z + 1)) <= distance)
            z++;
        return z;
    };
    std::vector<detail::Step> ball; // its steps, without those that another one goes past
    for (int32_t x = 0; reach(x, 0) >= 0; x++)
        for (int32_t y = 0; reach(x, y) >= 0; y++)
            if (const int32_t z = reach(x, y); z > reach(x + 1, y) && z > reach(x, y + 1))
                ball.push_back({x, y, z});
    for (const LabelBox &it : boxes(made)) {
        const std::optional<Coord> low = detail::moved(it.box.min, {-1, -1, -1}, 1), high = detail::moved(it.box.max, {1, 1, 1}, 1);
        if (low && high && grid.count({*low, *high}) == detail::size({*low, *high}))
            continue; // it lies inside
        for (const detail::Step &by : ball) {
            const std::optional<Coord> first = detail::moved(it.box.min, {-by[0], -by[1], -by[2]}, 1), last = detail::moved(it.box.max, by, 1);
            if (!first || !last)
                throw Error(VDB_RANGE);
            made.fill({*first, *last});
        }
    }
    return made;
}

} // namespace labels
} // namespace vdb

#endif
