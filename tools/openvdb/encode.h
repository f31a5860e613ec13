// SPDX-License-Identifier: Apache-2.0
// Trees of OpenVDB made into the bodies of docs/FORMAT.md.
#pragma once

#include "output_file.h"
#include "scene_file.h"

#include <openvdb/openvdb.h>

#include <cstring>

/// What a scene holds of a tree: the type of its values, and its cells. A mask is a boolean, true where it is active.
template <class Tree>
struct Cells {
    using Value = typename Tree::ValueType;
    using Cell = scene::Cell<Value>;
    static constexpr bool is_mask = std::is_same_v<typename Tree::BuildType, openvdb::ValueMask>;
    static constexpr scene::Kind kind = std::is_same_v<Value, bool>      ? scene::Kind::boolean
                                        : std::is_same_v<Value, int32_t> ? scene::Kind::i32
                                                                         : scene::Kind::i64;

    /// The value as it is. A boolean from a file may have any byte: all but 0 are true.
    static Value sound(const Value& value) {
        if constexpr (std::is_same_v<Value, bool>) {
            uint8_t byte = 0;
            std::memcpy(&byte, &value, sizeof byte);
            return byte != 0;
        } else return value;
    }
    static Cell cell(const Value& value, bool active) {
        if constexpr (is_mask) return {active, active};
        else return {sound(value), active};
    }
    static Cell background(const Tree& tree) { return cell(tree.background(), false); }
};

/// Appends bodies of blocks to bytes. A node is looked at once; its number of entries is set behind its last one.
template <class Tree>
class Encoder {
public:
    using Cell = typename Cells<Tree>::Cell;
    using Leaf = typename Tree::LeafNodeType;

    /// `bytes` may grow to `most` while nodes are appended.
    Encoder(std::string& bytes, const Cell& background, uint64_t most) : bytes(bytes), background(background), most(most) {}

    /// Appends the body of a node. If all its cells are equal, appends nothing and returns the cell.
    template <class Node>
    std::optional<Cell> append(const Node& node) {
        if constexpr (std::is_same_v<Node, Leaf>)
            if (const auto cell = constant(node)) return cell;
        const size_t start = bytes.size();
        bytes.append("\3\0\0", 3);
        const auto [count, cell] = append_entries(node);
        if (cell) {
            bytes.resize(start);
            return cell;
        }
        bytes[start + 1] = char(count >> 8);
        bytes[start + 2] = char(count);
        if (bytes.size() > most) throw Error("the encoding of its grids is longer than 268,435,456 bytes");
        return {};
    }

    /// Appends the body of a block of one cell.
    void append_cell(const Cell& cell) {
        scene::append_number(bytes, uint8_t(cell.active ? 2 : 1));
        scene::append_number(bytes, cell.value);
    }

private:
    /// The one cell of a leaf, if it has only one.
    static std::optional<Cell> constant(const Leaf& leaf) {
        const Cell first = entry(leaf, 0);
        for (openvdb::Index index = 1; index < Leaf::NUM_VALUES; ++index)
            if (entry(leaf, index) != first) return {};
        return first;
    }

    static Cell entry(const Leaf& leaf, openvdb::Index index) { return Cells<Tree>::cell(leaf.getValue(index), leaf.isValueOn(index)); }

    /// The cell of a tile or a voxel, or none if a node is there.
    template <class Node>
    std::optional<Cell> append_child(const Node& node, openvdb::Index index) {
        if constexpr (std::is_same_v<Node, Leaf>) return entry(node, index);
        else if (node.isChildMaskOn(index)) return append(*node.getTable()[index].getChild());
        else return Cells<Tree>::cell(node.getTable()[index].getValue(), node.getValueMask().isOn(index));
    }

    /// Appends the entries of a node that aren't the background. Returns how many, and the cell of all if they are equal.
    template <class Node>
    std::pair<uint32_t, std::optional<Cell>> append_entries(const Node& node) {
        uint32_t count = 0;
        std::optional<Cell> first;
        bool equal = true;
        for (openvdb::Index index = 0; index < Node::NUM_VALUES; ++index) {
            const size_t start = bytes.size();
            scene::append_number(bytes, uint16_t(index));
            const auto cell = append_child(node, index);
            if (index == 0) first = cell;
            equal = equal && cell && *cell == *first;
            if (cell && *cell == background) {
                bytes.resize(start);
                continue;
            }
            if (cell) append_cell(*cell);
            ++count;
        }
        return {count, equal ? first : std::nullopt};
    }

    std::string& bytes;
    const Cell background;
    const uint64_t most;
};

/// Writes the grids of a scene to a file, a root block at a time.
class SceneWriter {
public:
    SceneWriter(OutputFile& file, uint16_t grids) : file(file) {
        bytes = "VDBS";
        scene::append_number(bytes, uint16_t(2));
        scene::append_number(bytes, grids);
        flush();
    }

    /// Writes a grid. Returns the number of its root blocks, to which the limit is raised if `raise`.
    template <class Tree>
    uint32_t write(scene::Header& header, const Tree& tree, bool raise) {
        scene::append_header(bytes, header);
        const uint64_t blocks_at = file.size() + bytes.size();
        const uint64_t limit_at = blocks_at - scene::bytes_of_pairs(header.pairs) - sizeof header.limit;
        scene::append_number(bytes, uint32_t(0));
        flush();
        const uint32_t most = raise ? scene::most_roots : header.limit;
        const uint32_t blocks = write_blocks(tree, most);
        header.limit = std::max(header.limit, blocks);
        patch(limit_at, header.limit);
        patch(blocks_at, blocks);
        return blocks;
    }

private:
    /// Writes the root blocks of a tree, at most `most`. Returns how many.
    template <class Tree>
    uint32_t write_blocks(const Tree& tree, uint32_t most) {
        uint32_t blocks = 0;
        for (auto entry = tree.root().cbeginChildAll(); entry; ++entry) {
            if (!append_block<Tree>(entry, Cells<Tree>::background(tree))) continue;
            if (++blocks > most) throw Error("it has more than " + std::to_string(most) + " root blocks");
            flush();
        }
        return blocks;
    }

    /// Appends the root block of an entry with its key. Appends nothing if it is the background.
    template <class Tree, class Entry>
    bool append_block(const Entry& entry, const typename Cells<Tree>::Cell& background) {
        for (int axis = 0; axis < 3; ++axis) scene::append_number(bytes, int32_t(entry.getCoord()[axis] / scene::root_extent));
        Encoder<Tree> encoder(bytes, background, scene::most_bytes - std::min(file.size(), scene::most_bytes));
        typename Tree::ValueType value{};
        const auto* node = entry.probeChild(value);
        const auto cell = node != nullptr ? encoder.append(*node) : Cells<Tree>::cell(value, entry.isValueOn());
        if (cell && *cell == background) {
            bytes.clear();
            return false;
        }
        if (cell) encoder.append_cell(*cell);
        return true;
    }

    void patch(uint64_t offset, uint32_t number) {
        std::string digits;
        scene::append_number(digits, number);
        file.write_at(offset, digits);
    }

    void flush() {
        if (file.size() + bytes.size() > scene::most_bytes) throw Error("the encoding of its grids is longer than 268,435,456 bytes");
        file.write(bytes);
        bytes.clear();
    }

    OutputFile& file;
    std::string bytes;
};
