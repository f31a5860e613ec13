// SPDX-License-Identifier: Apache-2.0
// Makes a margin, the voxels up to two from an organ without the organ and a vessel: labels INPUT OUTPUT
//
// INPUT is a scene file with the grids `organ` and `vessel`, OUTPUT the same with a third grid `margin`.
#include <cstdio>
#include <exception>
#include <utility>

#include "vdb.hpp"

// Prints the number of active voxels, their bounding box and their centre.
static void report(const vdb::Grid &grid)
{
    const vdb::Box box = grid.bounds().value();
    const double count = static_cast<double>(grid.count());
    double x = 0, y = 0, z = 0;
    for (const vdb::Voxel &voxel : grid.voxels(box)) {
        x += voxel.at.x;
        y += voxel.at.y;
        z += voxel.at.z;
    }
    std::printf("%.0f voxels from %d %d %d to %d %d %d", count, box.min.x, box.min.y, box.min.z, box.max.x, box.max.y, box.max.z);
    std::printf(", centre %.2f %.2f %.2f\n", x / count, y / count, z / count);
}

int main(int argc, char **argv)
{
    if (argc != 3) {
        std::fprintf(stderr, "usage: labels INPUT OUTPUT\n");
        return 2;
    }
    try {
        vdb::Scene scene = vdb::Scene::load_file(argv[1]);
        vdb::Grid organ = scene.copy("organ"), vessel = scene.copy("vessel");
        vdb::Grid margin = organ.copy();
        margin.dilate(2);
        margin.subtract(organ);
        margin.subtract(vessel);
        report(margin);
        scene.put("margin", std::move(margin));
        scene.save_file(argv[2]);
    } catch (const std::exception &error) {
        std::fprintf(stderr, "labels: %s\n", error.what());
        return 1;
    }
    return 0;
}
