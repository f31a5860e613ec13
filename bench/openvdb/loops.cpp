// SPDX-License-Identifier: Apache-2.0
// Loops over OpenVDB's library beside the benchmarks of ../library over the crates: the same rows, over the same voxels in the same order.
#include "shared.h"

#include <openvdb/openvdb.h>
#include <openvdb/tools/Composite.h>
#include <openvdb/tools/Count.h>
#include <openvdb/tools/Prune.h>

#include <algorithm>
#include <chrono>
#include <cstdint>
#include <cstdio>
#include <cstring>

namespace tools = openvdb::tools;
using openvdb::Coord, openvdb::CoordBBox;
using Tree = openvdb::Int32Tree;
using Accessor = openvdb::tree::ValueAccessor<Tree>;
using Sum = long long;

// How many voxels there are along each axis and in all, how many leaves they fill, and how often an operation is done.
constexpr std::uint32_t SIDE = 128, VOXELS = SIDE * SIDE * SIDE, LEAVES = 4096, TIMES = 20;

// How many boxes are filled in one tree.
constexpr std::uint32_t BOXES = 4000;

// Whether operations may use several threads.
bool is_threaded = false;

// Does something, and prints how many picoseconds it took by the voxel, the leaf or whatever else it went over.
template <typename Work>
void report(const char* row, const char* unit, std::uint64_t count, Work work) {
    const auto begun = std::chrono::steady_clock::now();
    work();
    const std::chrono::nanoseconds taken = std::chrono::steady_clock::now() - begun;
    std::printf("%s: %lld ps a %s\n", row, Sum(taken.count()) * 1000 / Sum(count), unit);
}

// Does something as often as an operation on two trees is done.
template <typename Work>
void repeat(Work work) {
    for (std::uint32_t time = 0; time < TIMES; ++time) work();
}

// The voxel with this number, counted along z first.
Coord voxel(std::uint32_t number) {
    return Coord(int(number / SIDE / SIDE), int(number / SIDE % SIDE), int(number % SIDE));
}

// The voxels of a random walk by faces, within the first 128 along each axis.
class Walk {
public:
    const Coord& next() {
        state = state * 6364136223846793005u + 1442695040888963407u;
        const int step = (state >> 62 & 1) == 0 ? 1 : 127;
        int& part = at[(state >> 33) % 3];
        part = (part + step) & 127;
        return at;
    }

private:
    std::uint64_t state = 1;
    Coord at = Coord(0, 0, 0);
};

// Reads and writes through an accessor.
void accessors() {
    Tree tree(0);
    Accessor accessor(tree);
    Sum written = 0, again = 0, probed = 0, read = 0, walked = 0, ways = 0;
    report("accessor, writes in order, new leaves", "voxel", VOXELS, [&] {
        for (std::uint32_t number = 0; number < VOXELS; ++number, ++written) accessor.setValue(voxel(number), 7);
    });
    report("accessor, writes in order", "voxel", VOXELS, [&] {
        for (std::uint32_t number = 0; number < VOXELS; ++number, ++again) accessor.setValue(voxel(number), 7);
    });
    report("accessor, reads in order", "voxel", VOXELS, [&] {
        for (std::uint32_t number = 0; number < VOXELS; ++number) probed += accessor.getValue(voxel(number));
    });
    report("grid, reads in order from the root", "voxel", VOXELS, [&] {
        for (std::uint32_t number = 0; number < VOXELS; ++number) read += tree.getValue(voxel(number));
    });
    report("accessor, reads along a random walk", "voxel", VOXELS, [&] {
        Walk walk;
        for (std::uint32_t turn = 0; turn < VOXELS; ++turn) walked += accessor.getValue(walk.next());
    });
    report("accessor, writes along a random walk", "voxel", VOXELS, [&] {
        Walk walk;
        for (std::uint32_t turn = 0; turn < VOXELS; ++turn, ++ways) accessor.setValue(walk.next(), 3);
    });
    std::printf("sums %lld %lld %lld %lld %lld %lld\n", written, again, probed, read, walked, ways);
}

// Reads and writes from the root, and passes over the leaves.
void tree() {
    Tree tree(0);
    Sum written = 0, again = 0, active = 0, counted = 0;
    report("tree, writes, new leaves", "voxel", VOXELS, [&] {
        for (std::uint32_t number = 0; number < VOXELS; ++number, ++written) tree.setValue(voxel(number), 7);
    });
    report("tree, writes", "voxel", VOXELS, [&] {
        for (std::uint32_t number = 0; number < VOXELS; ++number, ++again) tree.setValue(voxel(number), 7);
    });
    report("tree, reads", "voxel", VOXELS, [&] {
        int value;
        for (std::uint32_t number = 0; number < VOXELS; ++number) active += tree.probeValue(voxel(number), value);
    });
    report("tree, pass over the leaves", "leaf", LEAVES, [&] {
        for (auto leaf = tree.cbeginLeaf(); leaf; ++leaf) counted += leaf->onVoxelCount();
    });
    report("prune, constant leaves", "leaf", LEAVES, [&] { tools::prune(tree, 0, is_threaded); });
    std::printf("sums %lld %lld %lld %lld %u\n", written, again, active, counted, tree.leafCount());
}

// Counts, bounding boxes, censuses and a list.
void walks() {
    Tree tree(0);
    Accessor accessor(tree);
    for (std::uint32_t number = 0; number < VOXELS; ++number) accessor.setValue(voxel(number), number % 2 == 0 ? 7 : 8);
    Sum active = 0, corners = 0, leaves = 0, listed = 0, values = 0;
    const std::uint64_t all = std::uint64_t(LEAVES) * TIMES;
    report("count", "leaf", all, [&] { repeat([&] { active += tools::countActiveVoxels(tree, is_threaded); }); });
    report("bounding box", "leaf", all, [&] {
        repeat([&] {
            CoordBBox around;
            tree.evalActiveVoxelBoundingBox(around);
            corners += around.max().x();
        });
    });
    report("census", "leaf", all, [&] {
        repeat([&] {
            Tree pruned(tree);
            tools::prune(pruned, 0, is_threaded);
            leaves += pruned.nodeCount()[0];
        });
    });
    report("list", "voxel", VOXELS, [&] {
        for (auto on = tree.cbeginValueOn(); on; ++on, ++listed) values += on.getCoord().z() + *on;
    });
    std::fprintf(stderr, "values listed: %lld\n", values);
    std::printf("sums %lld %lld %lld %lld\n", active, corners, leaves, listed);
}

// A cube of active voxels of the value 7, whose least x is `first`.
Tree cube(int first) {
    Tree tree(0);
    Accessor accessor(tree);
    for (std::uint32_t number = 0; number < VOXELS; ++number) accessor.setValue(voxel(number).offsetBy(first, 0, 0), 7);
    return tree;
}

// An operation that empties its second tree, on a copy of it each time.
template <typename Operation>
void composite(const char* row, Tree& tree, const Tree& other, Operation operation) {
    report(row, "leaf", std::uint64_t(LEAVES) * TIMES, [&] {
        repeat([&] {
            Tree copy(other);
            operation(tree, copy);
        });
    });
}

// Operations that combine two trees.
void pairs() {
    Tree tree = cube(0), same = cube(0), half = cube(64), nothing(0);
    const std::uint64_t all = std::uint64_t(LEAVES) * TIMES;
    report("union, same leaves", "leaf", all, [&] { repeat([&] { tree.topologyUnion(same); }); });
    report("intersection, same leaves", "leaf", all, [&] { repeat([&] { tree.topologyIntersection(same); }); });
    report("difference, same leaves", "leaf", all, [&] { repeat([&] { tree.topologyDifference(same); }); });
    composite("sum, same leaves", tree, same, [](Tree& a, Tree& b) { tools::compSum(a, b); });
    composite("maximum, same leaves", tree, same, [](Tree& a, Tree& b) { tools::compMax(a, b); });
    report("replacement, same leaves", "leaf", all, [&] { repeat([&] { tools::compReplace(tree, same); }); });
    report("union, half of the leaves the same", "leaf", LEAVES, [&] { tree.topologyUnion(half); });
    report("union with an empty tree", "leaf", all, [&] { repeat([&] { tree.topologyUnion(nothing); }); });
    composite("sum with an empty tree", tree, nothing, [](Tree& a, Tree& b) { tools::compSum(a, b); });
    std::printf("sums %lld\n", Sum(tools::countActiveVoxels(tree, is_threaded)));
}

// Boxes and values drawn by Knuth's linear congruential generator of 64 bits.
class Draws {
public:
    std::uint32_t below(std::uint32_t bound) {
        state = state * 6364136223846793005u + 1442695040888963407u;
        return std::uint32_t((state >> 33) % bound);
    }

    // A box within 400 voxels along each axis, with sides of at most so many.
    CoordBBox box(std::uint32_t side) {
        Coord min, max;
        for (int axis = 0; axis < 3; ++axis) {
            min[axis] = int(below(400));
            max[axis] = std::min(min[axis] + int(below(side)), 399);
        }
        return CoordBBox(min, max);
    }

private:
    std::uint64_t state = 88172645463325252u;
};

// Fills boxes with sides of at most `side` voxels, or of any power of two up to 512 if it is 0, and clips what they left. Counts the active
// voxels before and after the clip.
void fill_and_clip(const char* filling, const char* clipping, std::uint32_t side, Sum& filled, Sum& clipped) {
    Tree tree(0);
    report(filling, "box", BOXES, [&] {
        Draws draws;
        for (std::uint32_t number = 0; number < BOXES; ++number) {
            const std::uint32_t longest = side == 0 ? std::min(1u << draws.below(10), 400u) : side;
            const CoordBBox box = draws.box(longest);
            const int value = int(draws.below(4));
            tree.fill(box, value, value != 0);
        }
    });
    filled = Sum(tools::countActiveVoxels(tree, is_threaded));
    report(clipping, "clip", 1, [&] { tree.clip(CoordBBox(Coord(50), Coord(250))); });
    clipped = Sum(tools::countActiveVoxels(tree, is_threaded));
}

// Boxes filled and clipped.
void boxes() {
    Tree wide(0);
    const CoordBBox all(Coord(0), Coord(65535));
    Sum sums[9];
    report("fill, 65,536 voxels along each axis", "box", 1, [&] { wide.fill(all, 1, true); });
    sums[0] = Sum(tools::countActiveVoxels(wide, is_threaded));
    report("fill of the same with the background", "box", 1, [&] { wide.fill(all, 0, false); });
    fill_and_clip("fill, sides up to 8", "clip, sides up to 8", 8, sums[1], sums[2]);
    fill_and_clip("fill, sides up to 64", "clip, sides up to 64", 64, sums[3], sums[4]);
    fill_and_clip("fill, sides up to 400", "clip, sides up to 400", 400, sums[5], sums[6]);
    fill_and_clip("fill, sides of all powers of two", "clip, sides of all powers of two", 0, sums[7], sums[8]);
    std::printf("sums");
    for (Sum sum : sums) std::printf(" %lld", sum);
    std::printf("\n");
}

int main(int count, char** words) {
    const struct { const char* name; void (*run)(); } benchmarks[] = {
        {"accessors", accessors}, {"boxes", boxes}, {"pairs", pairs}, {"tree", tree}, {"walks", walks},
    };
    if (count == 2 && !std::strcmp(words[1], "--version")) {
        std::printf("%s\n", openvdb::getLibraryVersionString());
        return 0;
    }
    try {
        for (const auto& benchmark : benchmarks) {
            if (count != 3 || std::strcmp(words[1], benchmark.name)) continue;
            const std::size_t threads = threads_of(words[2]);
            tbb::global_control limit(tbb::global_control::max_allowed_parallelism, threads);
            is_threaded = threads > 1;
            openvdb::initialize();
            benchmark.run();
            std::printf("threads %zu\n", threads);
            return 0;
        }
    } catch (const std::invalid_argument& error) {
        std::fprintf(stderr, "loops: %s\n", error.what());
        return 2;
    }
    std::fprintf(stderr, "usage: loops accessors|boxes|pairs|tree|walks THREADS, a number or all, as in loops pairs 1; or loops --version\n");
    return 2;
}
