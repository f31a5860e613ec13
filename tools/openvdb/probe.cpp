// SPDX-License-Identifier: Apache-2.0
// Makes files of OpenVDB and looks into them, for the tests of the converters. It uses nothing of theirs.
//
//     probe make OUT.vdb   makes grids by lines of standard input, which `Maker` lists
//     probe get IN.vdb     answers each line `NAME X Y Z` as `get` of vdb does
//     probe info IN.vdb    prints a line for each grid: name, type, background, active voxels; the place of voxel 1 2 3;
//                          and a line for each text of its metadata

#include <openvdb/io/Stream.h>
#include <openvdb/openvdb.h>

#include <fstream>
#include <functional>
#include <iostream>
#include <map>
#include <sstream>

using openvdb::Coord, openvdb::GridBase;

namespace {

using Types = openvdb::TypeList<openvdb::BoolGrid, openvdb::Int32Grid, openvdb::Int64Grid, openvdb::MaskGrid>;

/// A word with `%` and two hexadecimal digits for any byte.
std::string decoded(const std::string& word) {
    std::string made;
    for (size_t at = 0; at < word.size(); ++at) {
        made += word[at] == '%' ? char(std::stoi(word.substr(at + 1, 2), nullptr, 16)) : word[at];
        if (word[at] == '%') at += 2;
    }
    return made;
}

Coord read_coord(std::istream& words) {
    Coord at;
    words >> at.x() >> at.y() >> at.z();
    return at;
}

template <class Value>
Value read_value(std::istream& words) {
    std::string text;
    words >> text;
    if constexpr (std::is_same_v<Value, bool>) return text == "true";
    else return Value(std::stoll(text));
}

bool read_state(std::istream& words) {
    std::string text;
    words >> text;
    return text == "on";
}

template <class Value>
std::string shown(Value value) {
    if constexpr (std::is_same_v<Value, bool>) return value ? "true" : "false";
    else return std::to_string(value);
}

/// Makes the grids of a file. A word is encoded as `decoded` says.
class Maker {
public:
    explicit Maker(std::string path) : path(std::move(path)) {
        lines["grid"] = [this](auto& words) { make_grid(words); };                // TYPE NAME BACKGROUND
        lines["share"] = [this](auto& words) { share(words); };                   // NAME: a further grid with the same tree
        lines["tile"] = [this](auto& words) { tile(words); };                     // LEVEL X Y Z VALUE STATE
        lines["voxel"] = [this](auto& words) { voxel(words); };                   // X Y Z VALUE STATE
        lines["leaf"] = [this](auto& words) { leaf(words); };                     // X Y Z: a leaf in the place of a tile
        lines["noise"] = [this](auto& words) { noise(words); };                   // COUNT: leaves in which each second voxel is active
        lines["roots"] = [this](auto& words) { roots(words); };                   // COUNT VALUE: active tiles of the root
        lines["meta"] = [this](auto& words) { meta(words); };                     // TYPE KEY VALUE
        lines["class"] = [this](auto& words) { grid().setGridClass(GridBase::stringToGridClass(word(words))); };
        lines["affine"] = [this](auto& words) { affine(words); };                 // 12 numbers: the images of x, y, z and 0 0 0
        lines["frustum"] = [this](auto&) { frustum(); };                          // a transform that isn't linear
        lines["write"] = [this](auto& words) { write(words); };                   // zip, blosc, none, or stream for no offsets
        lines["file"] = [this](auto& words) { file_meta(words); };                // KEY TEXT
    }

    void line(const std::string& text) {
        std::istringstream words(text);
        lines.at(word(words))(words);
    }

private:
    static std::string word(std::istream& words) {
        std::string text;
        words >> text;
        return decoded(text);
    }

    GridBase& grid() { return *grids.back(); }

    template <class Act>
    void with(Act act) {
        if (!grid().apply<Types>(act)) throw std::runtime_error("no such grid");
    }

    void make_grid(std::istream& words) {
        const std::string type = word(words), name = word(words);
        if (type == "bool") grids.push_back(openvdb::BoolGrid::create(read_value<bool>(words)));
        else if (type == "mask") grids.push_back(openvdb::MaskGrid::create(read_value<bool>(words)));
        else if (type == "i32") grids.push_back(openvdb::Int32Grid::create(read_value<int32_t>(words)));
        else if (type == "i64") grids.push_back(openvdb::Int64Grid::create(read_value<int64_t>(words)));
        else grids.push_back(GridBase::createGrid(type));
        grid().setName(name);
    }

    void share(std::istream& words) {
        const GridBase::Ptr made = grid().copyGrid();
        made->setName(word(words));
        grids.push_back(made);
    }

    void tile(std::istream& words) {
        openvdb::Index level = 0;
        words >> level;
        const Coord at = read_coord(words);
        with([&](auto& grid) {
            const auto value = read_value<typename std::decay_t<decltype(grid)>::ValueType>(words);
            grid.tree().addTile(level, at, value, read_state(words));
        });
    }

    void voxel(std::istream& words) {
        const Coord at = read_coord(words);
        with([&](auto& grid) {
            const auto value = read_value<typename std::decay_t<decltype(grid)>::ValueType>(words);
            if (read_state(words)) grid.tree().setValueOn(at, value);
            else grid.tree().setValueOff(at, value);
        });
    }

    void leaf(std::istream& words) {
        const Coord at = read_coord(words);
        with([&](auto& grid) { grid.tree().touchLeaf(at); });
    }

    void noise(std::istream& words) {
        int count = 0;
        words >> count;
        with([&](auto& grid) {
            using Value = typename std::decay_t<decltype(grid)>::ValueType;
            for (int made = 0; made < count; ++made) {
                auto* leaf = grid.tree().touchLeaf(Coord(made / 4096 * 8, made / 64 % 64 * 8, made % 64 * 8));
                for (openvdb::Index index = 0; index < 512; ++index)
                    if (index % 2 == 0) leaf->setValueOn(index, Value(made * 512 + index + 1));
                    else leaf->setValueOff(index, Value(1));
            }
        });
    }

    void roots(std::istream& words) {
        int count = 0;
        words >> count;
        with([&](auto& grid) {
            const auto value = read_value<typename std::decay_t<decltype(grid)>::ValueType>(words);
            for (int made = 0; made < count; ++made)
                grid.tree().root().addTile(Coord(made / 1024 * 4096, made % 1024 * 4096 - 2097152, -4096), value, true);
        });
    }

    void meta(std::istream& words) {
        const std::string type = word(words), key = word(words), text = word(words);
        if (type == "string") grid().insertMeta(key, openvdb::StringMetadata(text));
        else if (type == "int32") grid().insertMeta(key, openvdb::Int32Metadata(std::stoi(text)));
        else grid().insertMeta(key, openvdb::FloatMetadata(std::stof(text)));
    }

    void affine(std::istream& words) {
        openvdb::math::Mat4d matrix = openvdb::math::Mat4d::identity();
        for (int row = 0; row < 4; ++row)
            for (int column = 0; column < 3; ++column) matrix(row, column) = std::stod(word(words));
        grid().setTransform(openvdb::math::Transform::createLinearTransform(matrix));
    }

    void frustum() {
        const openvdb::BBoxd box(openvdb::Vec3d(0, 0, 0), openvdb::Vec3d(9, 9, 9));
        grid().setTransform(openvdb::math::Transform::createFrustumTransform(box, 0.5, 10));
    }

    void file_meta(std::istream& words) {
        const std::string key = word(words);
        of_file.insertMeta(key, openvdb::StringMetadata(word(words)));
    }

    void write(std::istream& words) {
        const std::string how = word(words);
        if (how == "stream") {
            std::ofstream stream(path, std::ios::binary);
            openvdb::io::Stream(stream).write(grids, of_file);
            return;
        }
        openvdb::io::File file(path);
        uint32_t flags = openvdb::io::COMPRESS_NONE;
        if (how == "zip") flags = openvdb::io::COMPRESS_ZIP | openvdb::io::COMPRESS_ACTIVE_MASK;
        if (how == "blosc") flags = openvdb::io::COMPRESS_BLOSC | openvdb::io::COMPRESS_ACTIVE_MASK;
        file.setCompression(flags);
        file.write(grids, of_file);
    }

    std::string path;
    openvdb::GridPtrVec grids;
    openvdb::MetaMap of_file;
    std::map<std::string, std::function<void(std::istream&)>> lines;
};

/// Answers look-ups by an accessor for each grid.
void answer(const openvdb::GridPtrVec& grids) {
    std::map<std::string, GridBase::Ptr> by_name;
    for (const auto& grid : grids) by_name[grid->getName()] = grid;
    for (std::string line; std::getline(std::cin, line);) {
        std::istringstream words(line);
        std::string name;
        words >> name;
        const Coord at = read_coord(words);
        by_name.at(decoded(name))->apply<Types>([&](const auto& grid) {
            auto accessor = grid.getConstAccessor();
            const auto value = accessor.getValue(at);
            std::cout << "value " << shown(value) << (accessor.isValueOn(at) ? " on\n" : " off\n");
        });
    }
}

void inform(const openvdb::GridPtrVec& grids) {
    for (const auto& grid : grids) {
        std::string background = "-";
        grid->apply<Types>([&](const auto& typed) { background = shown(typed.background()); });
        std::cout << "grid " << grid->getName() << " " << grid->type() << " " << background << " " << grid->activeVoxelCount() << "\n";
        std::cout << "voxel " << grid->transform().indexToWorld(openvdb::Vec3d(1, 2, 3)) << "\n";
        for (auto entry = grid->beginMeta(); entry != grid->endMeta(); ++entry)
            std::cout << "meta " << entry->first << " " << entry->second->typeName() << " " << entry->second->str() << "\n";
    }
}

void play(const std::string& command, const std::string& path) {
    if (command == "make") {
        Maker maker(path);
        for (std::string line; std::getline(std::cin, line);) maker.line(line);
        return;
    }
    openvdb::io::File file(path);
    file.open();
    (command == "get" ? answer : inform)(*file.getGrids());
}

}  // namespace

int main(int count, char** words) {
    if (count != 3) return 2;
    openvdb::initialize();
    try {
        play(words[1], words[2]);
    } catch (const std::exception& error) {
        std::cerr << "probe: " << error.what() << "\n";
        return 1;
    }
}
