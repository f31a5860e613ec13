// SPDX-License-Identifier: Apache-2.0
// Calls of the C library and vdb.hpp, or OpenVDB's, over the same voxels in the same order.
#include "shared.h"
#include "vdb.hpp"

#include <openvdb/openvdb.h>
#include <openvdb/tools/Count.h>
#include <openvdb/tools/Dense.h>
#include <openvdb/tools/Morphology.h>

#include <malloc.h>
#include <unistd.h>

#include <chrono>
#include <cstdint>
#include <cstdio>
#include <cstdlib>
#include <cstring>
#include <optional>
#include <random>
#include <vector>

using Sum = long long;

// How many voxels there are along each axis and in all, and how many leaves they fill.
constexpr std::uint32_t SIDE = 128, VOXELS = SIDE * SIDE * SIDE, LEAVES = 4096;

// How many boxes are filled, and how often they are counted.
constexpr std::uint32_t BOXES = 4000, TIMES = 20;

// Does something, and prints how many picoseconds it took by the voxel or the leaf.
template <typename Work>
void report(const char* row, const char* unit, std::uint64_t count, Work work) {
    const auto begun = std::chrono::steady_clock::now();
    work();
    const std::chrono::nanoseconds taken = std::chrono::steady_clock::now() - begun;
    std::printf("%s: %lld ps a %s\n", row, Sum(taken.count()) * 1000 / Sum(count), unit);
}

// A grid of 64-bit integers behind the C library.
class Library {
public:
    void set(const vdb_coord& at, std::int64_t value) { check(vdb_grid_set(grid.handle(), 0, at.x, at.y, at.z, value, 1)); }

    Sum near(const vdb_coord& at) {
        std::int64_t value;
        std::int32_t active;
        check(vdb_grid_probe(grid.handle(), 0, at.x, at.y, at.z, &value, &active));
        return value + active;
    }

    Sum get(const vdb_coord& at) {
        std::int64_t value;
        std::int32_t active;
        check(vdb_grid_get(grid.handle(), at.x, at.y, at.z, &value, &active));
        return value + active;
    }

    void set_many(const std::vector<vdb_coord>& at, const std::vector<std::int64_t>& values, const std::vector<std::uint8_t>& states) {
        std::size_t written;
        check(vdb_grid_write_many(grid.handle(), 0, at.data(), at.size(), values.data(), values.size(), states.data(), states.size(), &written));
    }

    void get_many(const std::vector<vdb_coord>& at, std::vector<std::int64_t>& values, std::vector<std::uint8_t>& states) {
        check(vdb_grid_get_many(grid.handle(), 0, at.data(), at.size(), values.data(), values.size(), states.data(), states.size()));
    }

    void read_box(std::vector<std::int64_t>& values) {
        const vdb_box box = {{0, 0, 0}, {SIDE - 1, SIDE - 1, SIDE - 1}};
        const vdb_strides strides = {SIDE * SIDE, SIDE, 1};
        check(vdb_grid_read_box(grid.handle(), &box, &strides, values.data(), values.size(), &none, 0));
    }

    void write_box(const std::vector<std::int64_t>& values, const std::vector<std::uint8_t>& states) {
        const vdb_box box = {{0, 0, 0}, {SIDE - 1, SIDE - 1, SIDE - 1}};
        const vdb_strides strides = {SIDE * SIDE, SIDE, 1};
        std::size_t written;
        check(vdb_grid_write_box(grid.handle(), 0, &box, &strides, values.data(), values.size(), states.data(), states.size(), &written));
    }

    void from_box(const std::vector<std::int64_t>& values) {
        const vdb_box box = {{0, 0, 0}, {SIDE - 1, SIDE - 1, SIDE - 1}};
        const vdb_strides strides = {SIDE * SIDE, SIDE, 1};
        check(vdb_grid_from_box_i64(grid.handle(), 0, VDB_LIMIT_DEFAULT, &box, &strides, values.data(), values.size()));
    }

    void fill(const vdb_box& box, std::int64_t value) { check(vdb_grid_fill(grid.handle(), &box, value, 1)); }

    Sum count() {
        vdb_count found;
        check(vdb_grid_count(grid.handle(), &found));
        return Sum(found.low);
    }

    void dilate() { check(vdb_grid_dilate(grid.handle(), 2)); }

    Sum loop() {
        Sum sum = 0;
        own = std::move(grid); // a loop over a grid that has lent its handle reads it anew at each step
        for (const vdb::Voxel& voxel : own->voxels()) sum += voxel.value + voxel.at.z;
        return sum;
    }

    Sum leaves() {
        constexpr std::size_t MOST = 4; // their values fit the first cache
        vdb_coord at[MOST];
        static std::int64_t values[MOST * 512];
        std::uint64_t states[MOST * 8];
        std::size_t copied;
        Sum sum = 0;
        check(vdb_grid_first_leaves(grid.handle(), at, MOST, values, MOST * 512, states, MOST * 8, &copied));
        while (copied) {
            for (std::size_t k = 0; k < copied * 512; ++k) sum += values[k];
            for (std::size_t k = 0; k < copied * 8; ++k) sum += __builtin_popcountll(states[k]);
            const vdb_coord last = at[copied - 1];
            check(vdb_grid_next_leaves(grid.handle(), last.x, last.y, last.z, at, MOST, values, MOST * 512, states, MOST * 8, &copied));
        }
        return sum;
    }

private:
    vdb::Grid grid{vdb::Kind::i64};
    std::optional<vdb::Grid> own;
    std::uint8_t none = 0;

    static void check(std::int32_t code) {
        if (!code) return;
        std::fprintf(stderr, "calls: %s\n", vdb_message(code));
        std::exit(1);
    }
};

// A tree of 64-bit integers of OpenVDB.
class OpenVDB {
public:
    void set(const vdb_coord& at, std::int64_t value) { accessor.setValue(coord(at), value); }

    Sum near(const vdb_coord& at) {
        std::int64_t value;
        const bool active = accessor.probeValue(coord(at), value);
        return value + active;
    }

    Sum get(const vdb_coord& at) {
        std::int64_t value;
        const bool active = tree.probeValue(coord(at), value);
        return value + active;
    }

    void set_many(const std::vector<vdb_coord>& at, const std::vector<std::int64_t>& values, const std::vector<std::uint8_t>& states) {
        for (std::size_t k = 0; k < at.size(); ++k) {
            if (states[k])
                accessor.setValueOn(coord(at[k]), values[k]);
            else
                accessor.setValueOff(coord(at[k]), values[k]);
        }
    }

    void get_many(const std::vector<vdb_coord>& at, std::vector<std::int64_t>& values, std::vector<std::uint8_t>& states) {
        for (std::size_t k = 0; k < at.size(); ++k) states[k] = accessor.probeValue(coord(at[k]), values[k]);
    }

    void read_box(std::vector<std::int64_t>& values) {
        openvdb::tools::Dense<std::int64_t> dense(openvdb::CoordBBox(0, 0, 0, SIDE - 1, SIDE - 1, SIDE - 1), values.data());
        openvdb::tools::copyToDense(tree, dense, true);
    }

    void write_box(const std::vector<std::int64_t>& values, const std::vector<std::uint8_t>&) {
        const openvdb::CoordBBox box(0, 0, 0, SIDE - 1, SIDE - 1, SIDE - 1);
        const openvdb::tools::Dense<std::int64_t> dense(box, const_cast<std::int64_t*>(values.data()));
        openvdb::tools::copyFromDense(dense, tree, std::int64_t(0), true);
    }

    void from_box(const std::vector<std::int64_t>& values) { write_box(values, {}); }

    void fill(const vdb_box& box, std::int64_t value) { tree.fill({coord(box.min), coord(box.max)}, value, true); }

    Sum count() { return Sum(openvdb::tools::countActiveVoxels(tree, false)); }

    void dilate() { openvdb::tools::dilateActiveValues(tree, 2, openvdb::tools::NN_FACE, openvdb::tools::EXPAND_TILES, false); }

    Sum loop() {
        Sum sum = 0;
        tree.voxelizeActiveTiles(false);
        for (auto on = tree.cbeginValueOn(); on; ++on) sum += *on + on.getCoord().z();
        return sum;
    }

    Sum leaves() {
        Sum sum = 0;
        for (auto leaf = tree.cbeginLeaf(); leaf; ++leaf) {
            const std::int64_t* values = leaf->buffer().data();
            for (std::size_t k = 0; k < 512; ++k) sum += values[k];
            sum += leaf->onVoxelCount();
        }
        return sum;
    }

private:
    openvdb::Int64Tree tree{0};
    openvdb::tree::ValueAccessor<openvdb::Int64Tree> accessor{tree};

    static openvdb::Coord coord(const vdb_coord& at) { return openvdb::Coord(at.x, at.y, at.z); }
};

// The voxels of a cube, counted along z first.
std::vector<vdb_coord> in_order() {
    std::vector<vdb_coord> all;
    all.reserve(VOXELS);
    for (std::int32_t x = 0; x < std::int32_t(SIDE); ++x)
        for (std::int32_t y = 0; y < std::int32_t(SIDE); ++y)
            for (std::int32_t z = 0; z < std::int32_t(SIDE); ++z) all.push_back({x, y, z});
    return all;
}

// The voxels of a random walk by faces in the same cube.
std::vector<vdb_coord> along_a_walk() {
    std::vector<vdb_coord> all;
    all.reserve(VOXELS);
    std::int32_t at[3] = {0, 0, 0};
    std::uint64_t state = 1;
    for (std::uint32_t turn = 0; turn < VOXELS; ++turn) {
        state = state * 6364136223846793005u + 1442695040888963407u;
        std::int32_t& part = at[(state >> 33) % 3];
        part = (part + ((state >> 62 & 1) == 0 ? 1 : 127)) & 127;
        all.push_back({at[0], at[1], at[2]});
    }
    return all;
}

// Boxes with sides of up to 64 voxels.
std::vector<vdb_box> boxes() {
    std::vector<vdb_box> all(BOXES);
    std::mt19937 draws(1);
    for (vdb_box& box : all)
        for (auto side : {&vdb_coord::x, &vdb_coord::y, &vdb_coord::z}) {
            box.min.*side = std::int32_t(draws() % 400);
            box.max.*side = box.min.*side + std::int32_t(draws() % 64);
        }
    return all;
}

template <typename Grid>
void run() {
    const std::vector<vdb_coord> ordered = in_order(), walk = along_a_walk();
    std::vector<std::int64_t> values(VOXELS), read(VOXELS);
    std::vector<std::uint8_t> states(VOXELS, 1), seen(VOXELS);
    for (std::uint32_t number = 0; number < VOXELS; ++number) values[number] = number % 1000 + 1;
    Sum probed = 0, rooted = 0, walked = 0, many = 0, boxed = 0, leaves = 0, counted = 0, looped = 0;
    {
        Grid grid;
        report("C, sets by an accessor in order, new leaves", "voxel", VOXELS, [&] {
            for (std::uint32_t number = 0; number < VOXELS; ++number) grid.set(ordered[number], values[number]);
        });
        report("C, sets by an accessor in order", "voxel", VOXELS, [&] {
            for (std::uint32_t number = 0; number < VOXELS; ++number) grid.set(ordered[number], values[number]);
        });
        report("C, gets by an accessor in order", "voxel", VOXELS, [&] {
            for (const vdb_coord& at : ordered) probed += grid.near(at);
        });
        report("C, gets without an accessor in order", "voxel", VOXELS, [&] {
            for (const vdb_coord& at : ordered) rooted += grid.get(at);
        });
        report("C, gets by an accessor along a random walk", "voxel", VOXELS, [&] {
            for (const vdb_coord& at : walk) walked += grid.near(at);
        });
        report("C, gets of many voxels in order", "voxel", VOXELS, [&] { grid.get_many(ordered, read, seen); });
        for (std::uint32_t number = 0; number < VOXELS; ++number) many += read[number] + seen[number];
        report("C, gets of many voxels along a random walk", "voxel", VOXELS, [&] { grid.get_many(walk, read, seen); });
        for (std::uint32_t number = 0; number < VOXELS; ++number) many += read[number] + seen[number];
        report("C, a box to an array", "voxel", VOXELS, [&] { grid.read_box(read); });
        for (std::int64_t value : read) boxed += value;
        report("C, leaves with their values summed", "leaf", LEAVES, [&] { leaves += grid.leaves(); });
    }
    {
        Grid grid;
        report("C, an array to a box, new leaves", "voxel", VOXELS, [&] { grid.write_box(values, states); });
        report("C, an array to a box", "voxel", VOXELS, [&] { grid.write_box(values, states); });
        leaves += grid.leaves();
    }
    {
        Grid grid;
        report("C, sets of many voxels in order, new leaves", "voxel", VOXELS, [&] { grid.set_many(ordered, values, states); });
        report("C, sets of many voxels in order", "voxel", VOXELS, [&] { grid.set_many(ordered, values, states); });
        report("C, sets of many voxels along a random walk", "voxel", VOXELS, [&] { grid.set_many(walk, values, states); });
    }
    {
        Grid grid;
        report("C, an array to a new grid", "voxel", VOXELS, [&] { grid.from_box(values); });
        report("C++, a loop over active voxels", "voxel", VOXELS, [&] { looped = grid.loop(); });
    }
    {
        Grid grid;
        for (std::uint32_t number = 0; number < LEAVES; ++number) grid.set({ordered[number].y * 8, ordered[number].z * 8, 0}, values[number]);
        report("C++, a loop over scattered active voxels", "voxel", LEAVES, [&] { looped += grid.loop(); });
    }
    {
        Grid grid;
        const std::vector<vdb_box> filled = boxes();
        report("C, fills of boxes", "box", BOXES, [&] {
            for (std::uint32_t number = 0; number < BOXES; ++number) grid.fill(filled[number], number % 4 + 1);
        });
        report("C, count of boxes", "count", TIMES, [&] {
            for (std::uint32_t time = 0; time < TIMES; ++time) counted += grid.count();
        });
        report("C, dilation of boxes", "dilation", 1, [&] { grid.dilate(); });
        counted += grid.count();
    }
    std::printf("sums %lld %lld %lld %lld %lld %lld %lld %lld\n", probed, rooted, walked, many, boxed, leaves, counted, looped);
}

// How many grids of one voxel are made.
constexpr int GRIDS = 400;

// The bytes of this process that are resident, and those that it has allocated.
struct Memory {
    long long resident, allocated;

    static Memory now() {
        long long pages = 0, resident = 0;
        std::FILE* file = std::fopen("/proc/self/statm", "r");
        if (!file || std::fscanf(file, "%lld %lld", &pages, &resident) != 2) std::exit(1);
        std::fclose(file);
        const struct mallinfo2 info = mallinfo2();
        return {resident * sysconf(_SC_PAGESIZE), (long long)(info.uordblks + info.hblkhd)};
    }
};

// Makes grids with one random voxel each by `make`, which keeps them, and prints the memory of one.
template <typename Make>
void one_voxel(const char* kind, Make make) {
    std::mt19937 draws(1);
    const auto draw = [&] { return std::int32_t(draws()); };
    const Memory before = Memory::now();
    for (int number = 0; number < GRIDS; ++number) {
        const std::int32_t x = draw(), y = draw(), z = draw();
        make(number, x, y, z);
    }
    const Memory after = Memory::now();
    std::printf("%s: %lld resident, %lld allocated\n", kind, (after.resident - before.resident) / GRIDS, (after.allocated - before.allocated) / GRIDS);
}

void one_voxel_of_ours(const char* name, std::int32_t kind) {
    static std::vector<vdb_grid> grids;
    grids.assign(GRIDS, VDB_GRID_INIT);
    one_voxel(name, [&](int number, std::int32_t x, std::int32_t y, std::int32_t z) {
        vdb_grid* grid = &grids[std::size_t(number)];
        const bool made = !vdb_grid_new(grid, kind, 0, VDB_LIMIT_DEFAULT) && !vdb_grid_set(grid, 0, x, y, z, 1, 1);
        if (!made) std::exit(1);
    });
    for (vdb_grid& grid : grids) vdb_grid_free(&grid);
}

template <typename Tree>
void one_voxel_of_theirs(const char* name) {
    std::vector<std::unique_ptr<Tree>> trees(GRIDS);
    one_voxel(name, [&](int number, std::int32_t x, std::int32_t y, std::int32_t z) {
        auto& tree = trees[std::size_t(number)];
        tree = std::make_unique<Tree>(typename Tree::ValueType(0));
        tree->setValue(openvdb::Coord(x, y, z), typename Tree::ValueType(1));
    });
}

void one_voxel_of(bool ours) {
    if (ours) {
        one_voxel_of_ours("bool", VDB_BOOL);
        one_voxel_of_ours("i32", VDB_I32);
        one_voxel_of_ours("i64", VDB_I64);
    } else {
        one_voxel_of_theirs<openvdb::BoolTree>("bool");
        one_voxel_of_theirs<openvdb::Int32Tree>("i32");
        one_voxel_of_theirs<openvdb::Int64Tree>("i64");
    }
}

int main(int count, char** words) {
    const bool ours = count > 1 && !std::strcmp(words[1], "vdb"), theirs = count > 1 && !std::strcmp(words[1], "openvdb");
    const bool small = count == 3 && !std::strcmp(words[2], "one-voxel");
    if ((!ours && !theirs) || (count != 2 && !small)) {
        std::fprintf(stderr, "usage: calls vdb|openvdb [one-voxel]\n");
        return 2;
    }
    tbb::global_control limit(tbb::global_control::max_allowed_parallelism, 1);
    openvdb::initialize();
    small ? one_voxel_of(ours) : ours ? run<Library>() : run<OpenVDB>();
}
