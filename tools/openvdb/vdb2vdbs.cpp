// SPDX-License-Identifier: Apache-2.0
// Converts a file of OpenVDB to a scene file.

#include "encode.h"
#include "metadata.h"
#include "vdb_file.h"

#include <algorithm>

using openvdb::GridBase;
using openvdb::io::GridDescriptor;

namespace {

constexpr const char* help =
    R"(Converts a file of OpenVDB to a scene file of vdb.

    vdb2vdbs IN.vdb OUT.vdbs [--grid NAME..] [--strict] [--limit N]

--grid NAME..   converts these grids alone; --grid=NAME is one of them
--strict        anything that a scene file can't hold is an error
--limit N       the root limit of each grid, 1 to 65536; without it that is 4096, or as much more as the grid needs
--help          prints this

It converts bool, int32, int64 and mask grids. It reports what a scene file can't hold on
standard error, a line each.
The exit status is 0, 1 if the file can't be converted, or 2 for a wrong command line.

Example: converts the grids labels and organs of scan.vdb, and counts the active voxels of one:

    vdb2vdbs scan.vdb scan.vdbs --grid labels organs
    echo 'count labels all' | vdb --load scan.vdbs
)";

/// A grid that is converted: where it is in the file, and its name in the scene.
struct Chosen {
    const GridDescriptor* descriptor;
    std::string name;
};

std::string shown(const GridDescriptor& descriptor) { return GridDescriptor::nameAsString(descriptor.uniqueName()); }

bool is_asked(const GridDescriptor& descriptor, const std::vector<std::string>& asked) {
    const auto names_it = [&](const std::string& name) { return name == descriptor.gridName() || name == shown(descriptor); };
    return asked.empty() || std::any_of(asked.begin(), asked.end(), names_it);
}

void check_asked(const VdbReader& reader, const std::vector<std::string>& asked) {
    for (const std::string& name : asked) {
        const auto has_name = [&](const GridDescriptor& descriptor) { return is_asked(descriptor, {name}); };
        if (std::none_of(reader.grids().begin(), reader.grids().end(), has_name)) throw Error("no grid " + in_quotes(name));
    }
}

bool has_scene_type(const GridDescriptor& descriptor) {
    const std::string& type = descriptor.gridType();
    return type == openvdb::BoolGrid::gridType() || type == openvdb::Int32Grid::gridType() || type == openvdb::Int64Grid::gridType() ||
           type == openvdb::MaskGrid::gridType();
}

/// The grids to convert, by rising names in the scene. Reports those that it leaves out or renames.
std::vector<Chosen> choose(const VdbReader& reader, const CommandLine& line, const Notices& notices) {
    std::vector<Chosen> chosen;
    std::vector<std::string> names;
    for (const GridDescriptor& descriptor : reader.grids()) {
        if (!is_asked(descriptor, line.grids)) continue;
        const std::string grid = "grid " + in_quotes(shown(descriptor));
        if (!has_scene_type(descriptor)) notices.report(grid + " is left out: its type is " + descriptor.gridType());
        else if (chosen.size() == scene::most_grids) notices.report(grid + " is left out: a scene has at most 64 grids");
        else chosen.push_back({&descriptor, ""}), names.push_back(descriptor.gridName());
    }
    const std::vector<std::string> made = names_in_scene(names);
    for (size_t grid = 0; grid < chosen.size(); ++grid) {
        chosen[grid].name = made[grid];
        if (made[grid] != names[grid]) notices.report("grid " + in_quotes(shown(*chosen[grid].descriptor)) + " is called " + made[grid]);
    }
    std::sort(chosen.begin(), chosen.end(), [](const Chosen& one, const Chosen& other) { return one.name < other.name; });
    return chosen;
}

template <class Grid>
void write_tree(const Grid& grid, scene::Header header, const std::string& name, bool raise, SceneWriter& writer, const Notices& notices) {
    using Tree = typename Grid::TreeType;
    const Tree& tree = grid.tree();
    const auto background = Cells<Tree>::background(tree);
    if (background.value != Cells<Tree>::sound(tree.background())) notices.report("grid " + in_quotes(name) + ": its background true is false in the scene");
    header.kind = Cells<Tree>::kind;
    header.background = background.value;
    const uint32_t limit = header.limit;
    try {
        writer.write(header, tree, raise);
    } catch (const Error& error) {
        throw Error("grid " + in_quotes(name) + ": " + error.what());
    }
    if (header.limit > limit)
        notices.note("grid " + in_quotes(name) + " has the root limit " + std::to_string(header.limit) + ", more than " + std::to_string(limit));
    notices.progress(name, tree.activeVoxelCount(), tree.leafCount());
}

void write_grid(const GridBase& grid, const Chosen& chosen, const CommandLine& line, SceneWriter& writer, const Notices& notices) {
    const std::string name = shown(*chosen.descriptor);
    report_class(grid, name, notices);
    scene::Header header;
    header.name = chosen.name;
    header.limit = line.limit.value_or(limit_of(grid).value_or(scene::usual_limit));
    header.pairs = pairs_of(grid, name, notices);
    keep_transform(grid, name, header.pairs, notices);
    using Types = openvdb::TypeList<openvdb::BoolGrid, openvdb::Int32Grid, openvdb::Int64Grid, openvdb::MaskGrid>;
    grid.apply<Types>([&](const auto& typed) { write_tree(typed, header, name, !line.limit, writer, notices); });
}

void convert(const CommandLine& line, const Notices& notices) {
    openvdb::initialize();
    VdbReader reader(line.input);
    check_asked(reader, line.grids);
    report_file_metadata(reader.metadata(), notices);
    const std::vector<Chosen> chosen = choose(reader, line, notices);
    OutputFile file(line.output);
    SceneWriter writer(file, uint16_t(chosen.size()));
    for (const Chosen& grid : chosen) write_grid(*reader.read(*grid.descriptor), grid, line, writer, notices);
    file.commit();
}

}  // namespace

int main(int count, char** words) { return run({"vdb2vdbs", help, true, false, convert}, count, words); }
