// SPDX-License-Identifier: Apache-2.0
// Bodies of docs/FORMAT.md made into trees of OpenVDB.
#pragma once

#include "scene_file.h"

#include <openvdb/openvdb.h>

/// Reads the root blocks of a grid into a tree that has its background.
template <class Tree>
class Decoder {
public:
    using Value = typename Tree::ValueType;
    using Cell = scene::Cell<Value>;
    using Root = typename Tree::RootNodeType;
    using Leaf = typename Tree::LeafNodeType;

    Decoder(scene::FieldReader& reader, Tree& tree) : reader(reader), tree(tree), background(tree.background()) {}

    /// Reads the number of root blocks and each of these with its key.
    void read_blocks(uint32_t limit) {
        const auto count = reader.number<uint32_t>();
        reader.need(count <= limit, "root-limit", "the grid has more root blocks than its limit");
        std::optional<openvdb::Coord> before;
        for (uint32_t block = 0; block < count; ++block) {
            const openvdb::Coord key = read_key(before);
            read_block(openvdb::Coord(key.x() * scene::root_extent, key.y() * scene::root_extent, key.z() * scene::root_extent));
            before = key;
        }
    }

private:
    openvdb::Coord read_key(const std::optional<openvdb::Coord>& before) {
        const std::string_view field = reader.bytes(12);
        openvdb::Coord key;
        for (int axis = 0; axis < 3; ++axis) {
            uint32_t part = 0;
            for (char byte : field.substr(4 * axis, 4)) part = part << 8 | uint8_t(byte);
            key[axis] = int32_t(part);
            const bool in_range = key[axis] >= scene::least_key && key[axis] <= scene::greatest_key;
            reader.need(in_range, "key", "a part of a key is -524,288 to 524,287");
        }
        reader.need(!before || *before < key, "key", "keys must rise");
        return key;
    }

    void read_block(const openvdb::Coord& origin) {
        const uint8_t tag = read_tag(3);
        if (tag < 3) {
            const Cell cell = read_cell(tag);
            tree.root().addTile(origin, cell.value, cell.active);
            return;
        }
        auto node = std::make_unique<typename Root::ChildNodeType>(origin, background, false);
        read_entries(*node);
        tree.root().addChild(node.release());
    }

    uint8_t read_tag(uint8_t most) {
        const auto tag = reader.number<uint8_t>();
        reader.need(tag >= 1 && tag <= most, "tag", most == 3 ? "a body begins with 1, 2 or 3" : "a voxel begins with 1 or 2");
        return tag;
    }

    Cell read_cell(uint8_t tag) {
        const Cell cell{scene::read_value<Value>(reader), tag == 2};
        reader.need(cell.active || cell.value != background, "background", "the background must be left out");
        return cell;
    }

    /// Reads the entries of a node whose tag was read.
    template <class Node>
    void read_entries(Node& node) {
        const uint64_t node_at = reader.field();
        const auto count = reader.number<uint16_t>();
        reader.need(count >= 1 && count <= Node::NUM_VALUES, "index", "the number of entries is out of range");
        std::optional<Cell> first;
        bool equal = count == Node::NUM_VALUES;
        int before = -1;
        for (uint32_t entry = 0; entry < count; ++entry) {
            const int index = reader.number<uint16_t>();
            reader.need(index > before && index < int(Node::NUM_VALUES), "index", "an entry's number is too great, or doesn't rise");
            const std::optional<Cell> cell = read_entry(node, openvdb::Index(index));
            if (entry == 0) first = cell;
            equal = equal && cell && *cell == *first;
            before = index;
        }
        if (equal) throw scene::Fault(node_at, "constant-node", "a block is given by its entries, though all its cells are equal");
    }

    /// Reads an entry of a node. Returns its cell, if it has only one.
    template <class Node>
    std::optional<Cell> read_entry(Node& node, openvdb::Index index) {
        constexpr bool is_leaf = std::is_same_v<Node, Leaf>;
        const uint8_t tag = read_tag(is_leaf ? 2 : 3);
        if constexpr (is_leaf) {
            const Cell cell = read_cell(tag);
            if (cell.active) node.setValueOn(index, cell.value);
            else node.setValueOff(index, cell.value);
            return cell;
        } else {
            if (tag < 3) {
                const Cell cell = read_cell(tag);
                node.addTile(index, cell.value, cell.active);
                return cell;
            }
            auto child = std::make_unique<typename Node::ChildNodeType>(node.offsetToGlobalCoord(index), background, false);
            read_entries(*child);
            node.addChild(child.release());
            return {};
        }
    }

    scene::FieldReader& reader;
    Tree& tree;
    const Value background;
};
