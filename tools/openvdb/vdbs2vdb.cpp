// SPDX-License-Identifier: Apache-2.0
// Converts a scene file to a file of OpenVDB.

#include "decode.h"
#include "metadata.h"
#include "output_file.h"
#include "vdb_file.h"

#include <algorithm>

namespace {

constexpr const char* help =
    R"(Converts a scene file of vdb to a file of OpenVDB.

    vdbs2vdb IN.vdbs OUT.vdb [--grid NAME..] [--compress zip|blosc|none] [--strict]

--grid NAME..   converts these grids alone; --grid=NAME is one of them
--compress HOW  zip (without the option), blosc or none
--strict        anything that a file of OpenVDB can't hold is an error; it holds all of a scene
--help          prints this

The exit status is 0, 1 if the file can't be converted, or 2 for a wrong command line.

Example: makes a scene of one grid, and converts it:

    printf 'grid a i32 0\nset a - 1 2 3 5\n' | vdb --save voxel.vdbs
    vdbs2vdb voxel.vdbs voxel.vdb --compress blosc
)";

template <class Grid>
openvdb::GridBase::Ptr read_typed(scene::FieldReader& reader, const scene::Header& header, const Notices& notices) {
    using Tree = typename Grid::TreeType;
    auto grid = Grid::create(typename Tree::ValueType(header.background));
    Decoder<Tree>(reader, grid->tree()).read_blocks(header.limit);
    grid->setName(header.name);
    store_metadata(*grid, header);
    set_transform(*grid, header.pairs);
    notices.progress(header.name, grid->activeVoxelCount(), grid->tree().leafCount());
    return grid;
}

openvdb::GridBase::Ptr read_grid(scene::FieldReader& reader, const scene::Header& header, const Notices& notices) {
    switch (header.kind) {
    case scene::Kind::boolean: return read_typed<openvdb::BoolGrid>(reader, header, notices);
    case scene::Kind::i32: return read_typed<openvdb::Int32Grid>(reader, header, notices);
    case scene::Kind::i64: break;
    }
    return read_typed<openvdb::Int64Grid>(reader, header, notices);
}

/// Reads a whole scene file, and keeps the grids that are asked for.
openvdb::GridCPtrVec read_scene(const CommandLine& line, const Notices& notices) {
    scene::FieldReader reader(line.input);
    const scene::Head head = scene::read_head(reader);
    openvdb::GridCPtrVec grids;
    std::vector<std::string> missing = line.grids;
    std::string before;
    for (int grid = 0; grid < head.grids; ++grid) {
        const scene::Header header = scene::read_header(reader, head.version, before);
        const auto made = read_grid(reader, header, notices);
        before = header.name;
        if (line.grids.empty() || std::count(line.grids.begin(), line.grids.end(), header.name) > 0) grids.push_back(made);
        missing.erase(std::remove(missing.begin(), missing.end(), header.name), missing.end());
    }
    reader.need_end();
    if (!missing.empty()) throw Error("no grid " + in_quotes(missing.front()));
    return grids;
}

void convert(const CommandLine& line, const Notices& notices) {
    openvdb::initialize();
    const openvdb::GridCPtrVec grids = read_scene(line, notices);
    OutputFile file(line.output);
    write_vdb(file, grids, line.compression);
    file.commit();
}

}  // namespace

int main(int count, char** words) { return run({"vdbs2vdb", help, false, true, convert}, count, words); }
