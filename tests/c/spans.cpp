// SPDX-License-Identifier: Apache-2.0
// Calls with types of vdb.hpp. checks.cpp is compiled by another standard of C++ and makes them, so the types must be the same in both.
#include "vdb.hpp"

int64_t sum_of(vdb::Span<const int64_t> values)
{
    int64_t sum = 0;
    for (const int64_t value : values)
        sum += value;
    return sum;
}

int64_t active_of(const vdb::Leaf &leaf)
{
    int64_t count = 0;
    for (int voxel = 0; voxel < 512; voxel++)
        count += leaf.at(voxel / 64, voxel / 8 % 8, voxel % 8).active;
    return count;
}

vdb::Span<const vdb::Coord> without_first(vdb::Span<const vdb::Coord> all) { return {all.data() + 1, all.size() - 1}; }
