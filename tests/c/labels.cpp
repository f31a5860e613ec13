// SPDX-License-Identifier: Apache-2.0
// Makes each call of vdb_labels.hpp on the grid `a` of a scene file: labels SCENE OUT LABEL DISTANCE SX SY SZ. It prints measures, and writes
// a scene of the grids that the calls make. tests/python/test_labels_measured.py compares them with scipy's.
#include "vdb_labels.hpp"

#include <cinttypes>
#include <cstdio>

using namespace vdb;

static bool rejects(const Grid &grid)
{
    try {
        labels::margin(grid, 1e-300, {0, 1, 1});
    } catch (const std::invalid_argument &) {
        return true;
    }
    return false;
}

int main(int, char **words)
{
    const Grid grid = Scene::load_file(words[1]).copy("a");
    const int64_t label = std::atoll(words[3]);
    const labels::Spacing spacing = {std::atof(words[5]), std::atof(words[6]), std::atof(words[7])};
    for (const labels::Measure &it : labels::measure(grid, spacing)) {
        const Box &box = it.bounds;
        std::printf("%" PRId64 " %" PRIu64 " %.17g %.17g", it.value, it.voxels, it.volume, it.area);
        std::printf(" %.17g %.17g %.17g %d %d %d %d %d %d", it.centroid[0], it.centroid[1], it.centroid[2], box.min.x, box.min.y, box.min.z, box.max.x, box.max.y, box.max.z);
        for (const auto &[other, area] : it.neighbours)
            std::printf(" %" PRId64 " %.17g", other, area);
        std::printf("\n");
    }
    uint64_t count = 0;
    for (const labels::LabelBox &it : labels::boxes(grid))
        count += grid.count(it.box);
    if (count != grid.count() || labels::labels(grid).size() != labels::measure(grid).size() || !rejects(grid))
        return 1;
    Scene made;
    Grid dilated = grid.copy(), eroded = grid.copy();
    labels::dilate_label(dilated, label, 2);
    labels::erode_label(eroded, label, 2);
    made.put("dilated", std::move(dilated));
    made.put("eroded", std::move(eroded));
    made.put("six", labels::components(grid));
    made.put("eighteen", labels::components(grid, 18));
    made.put("more", labels::components(grid, 26));
    made.put("opened", labels::open(grid, 2).grid());
    made.put("closed", labels::close(grid, 18).grid());
    made.put("filled", labels::fill_holes(grid).grid());
    made.put("margin", labels::margin(grid, std::atof(words[4]), spacing).grid());
    made.put("chosen", labels::select(grid, {label, label + 1}).grid());
    made.put("changed", labels::relabel(grid, {{label, label + 1}, {label + 1, 77}}));
    made.put("where", labels::where(grid, labels::select(grid, {label})));
    made.save_file(words[2]);
    return 0;
}
