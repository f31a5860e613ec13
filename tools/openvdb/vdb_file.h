// SPDX-License-Identifier: Apache-2.0
// Files of OpenVDB: their grids read one at a time, and written.
#pragma once

#include "output_file.h"

#include <openvdb/Grid.h>
#include <openvdb/io/Archive.h>
#include <openvdb/io/GridDescriptor.h>
#include <openvdb/io/io.h>

#include <fstream>
#include <string>
#include <vector>

/// Reads a file of OpenVDB. Unlike `openvdb::io::File` it looks at each read, so that a file that was cut short is an error.
class VdbReader : private openvdb::io::Archive {
public:
    explicit VdbReader(const std::string& path);

    /// The grids of the file in its order, without their trees.
    const std::vector<openvdb::io::GridDescriptor>& grids() const { return descriptors; }

    /// The metadata of the file as a whole.
    const openvdb::MetaMap& metadata() const { return file_metadata; }

    /// Reads a grid with its metadata, its transform and its whole tree.
    openvdb::GridBase::Ptr read(const openvdb::io::GridDescriptor& descriptor);

private:
    void read_file();
    [[noreturn]] void fail() const;
    void read_descriptor();
    void check_offsets(const openvdb::io::GridDescriptor& descriptor);
    openvdb::GridBase::Ptr read_tree(const openvdb::io::GridDescriptor& descriptor);
    const openvdb::io::GridDescriptor& parent(const openvdb::io::GridDescriptor& instance) const;

    std::ifstream stream;
    openvdb::io::StreamMetadata::Ptr stream_metadata;  // the stream points to it
    uint64_t size = 0;
    openvdb::MetaMap file_metadata;
    std::vector<openvdb::io::GridDescriptor> descriptors;
    // the grids of a file that has no offsets, which can't be read one at a time
    std::vector<openvdb::GridBase::Ptr> held;
};

/// Writes grids to a file, by `zip`, `blosc` or no compression.
void write_vdb(OutputFile& file, const openvdb::GridCPtrVec& grids, const std::string& compression);
