// SPDX-License-Identifier: Apache-2.0
// Metadata and transforms of OpenVDB's grids made into the pairs and the limit of a scene's grid, and back; names of grids made into a
// scene's.
#pragma once

#include "program.h"
#include "scene_file.h"

#include <openvdb/Grid.h>

#include <string>
#include <vector>

/// The pairs that a grid's metadata holds. Reports what can't be one.
scene::Pairs pairs_of(const openvdb::GridBase& grid, const std::string& name, const Notices& notices);

/// The root limit that a grid's metadata holds, if it does.
std::optional<uint32_t> limit_of(const openvdb::MetaMap& metadata);

/// Report what a scene doesn't hold of the metadata of the file as a whole, and of a grid's class.
void report_file_metadata(const openvdb::MetaMap& metadata, const Notices& notices);
void report_class(const openvdb::GridBase& grid, const std::string& name, const Notices& notices);

/// Stores a header's pairs, and its limit unless that is the usual one.
void store_metadata(openvdb::MetaMap& metadata, const scene::Header& header);

/// The scene's name for each of these names: itself, if it can be one and none before it is the same. Another is in small letters, has
/// `_` for any other byte and `g_` in front if it doesn't begin with a letter, is cut to 16 bytes, and ends in a number if it would be
/// there twice. An empty one is `grid`.
std::vector<std::string> names_in_scene(const std::vector<std::string>& names);

/// Keeps a grid's transform as the pairs affine_x, affine_y and affine_z, which replace those of another one. An identity is kept
/// by no pairs. Reports a transform that isn't linear or finite, and one for which the pairs leave no room.
void keep_transform(const openvdb::GridBase& grid, const std::string& name, scene::Pairs& pairs, const Notices& notices);

/// Sets the transform of pairs, unless they have none, or one that OpenVDB takes for singular.
void set_transform(openvdb::GridBase& grid, const scene::Pairs& pairs);
