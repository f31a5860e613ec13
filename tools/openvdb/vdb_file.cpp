// SPDX-License-Identifier: Apache-2.0
#include "vdb_file.h"

#include <openvdb/io/Compression.h>

#include <algorithm>
#include <cerrno>
#include <cstring>
#include <filesystem>
#include <streambuf>

using openvdb::GridBase;
using openvdb::io::GridDescriptor;

namespace {

/// Opens the archive's writing to whoever has a stream.
struct VdbWriter : openvdb::io::Archive {
    void write_all(std::ostream& stream, const openvdb::GridCPtrVec& grids) const {
        Archive::write(stream, grids, /*seekable=*/true);
    }
};

/// Writes what OpenVDB writes into an output file. It keeps its position itself: to OpenVDB a seek that failed is a position.
class OutputBuffer : public std::streambuf {
public:
    explicit OutputBuffer(OutputFile& file) : file(file), buffer(1 << 16) { setp(buffer.data(), buffer.data() + buffer.size()); }

protected:
    int sync() override {
        file.write_at(position, {pbase(), size_t(pptr() - pbase())});
        position += uint64_t(pptr() - pbase());
        setp(buffer.data(), buffer.data() + buffer.size());
        return 0;
    }

    int_type overflow(int_type byte) override {
        sync();
        return traits_type::eq_int_type(byte, traits_type::eof()) ? 0 : sputc(traits_type::to_char_type(byte));
    }

    pos_type seekoff(off_type offset, std::ios_base::seekdir from, std::ios_base::openmode) override {
        sync();
        const uint64_t begin = from == std::ios_base::cur ? position : from == std::ios_base::end ? file.size() : 0;
        position = begin + uint64_t(offset);
        return pos_type(off_type(position));
    }

    pos_type seekpos(pos_type place, std::ios_base::openmode mode) override { return seekoff(place, std::ios_base::beg, mode); }

private:
    OutputFile& file;
    std::vector<char> buffer;
    uint64_t position = 0;
};

uint32_t compression_flags(const std::string& compression) {
    if (compression == "none") return openvdb::io::COMPRESS_NONE;
    if (compression == "zip") return openvdb::io::COMPRESS_ZIP | openvdb::io::COMPRESS_ACTIVE_MASK;
    if (!openvdb::io::Archive::hasBloscCompression()) throw Error("this build of OpenVDB has no blosc");
    return openvdb::io::COMPRESS_BLOSC | openvdb::io::COMPRESS_ACTIVE_MASK;
}

/// Reads an offset in the order of bytes of the machine, as OpenVDB does.
int64_t read_offset(std::istream& stream) {
    int64_t offset = 0;
    stream.read(reinterpret_cast<char*>(&offset), sizeof offset);
    return offset;
}

/// The least number of bytes that name a grid: three empty texts and three offsets.
constexpr uint64_t least_descriptor = 36;

/// Reads the offsets of a grid, which OpenVDB leaves unread if it doesn't know the type.
void read_offsets(std::istream& stream, GridDescriptor& descriptor) {
    descriptor.setGridPos(read_offset(stream));
    descriptor.setBlockPos(read_offset(stream));
    descriptor.setEndPos(read_offset(stream));
}

}  // namespace

VdbReader::VdbReader(const std::string& path) : stream(path, std::ios::binary) {
    if (!stream) throw Error(std::strerror(errno));
    if (std::filesystem::is_directory(path)) throw Error("it is a folder");
    size = std::filesystem::file_size(path);
    stream.exceptions(std::ios::failbit | std::ios::badbit);
    try {
        read_file();
    } catch (const std::ios_base::failure&) {
        fail();
    }
}

/// Tells what a failed read of the stream means.
void VdbReader::fail() const { throw Error(stream.eof() ? "the file is cut short, or no .vdb file" : std::strerror(errno)); }

void VdbReader::read_file() {
    readHeader(stream);
    stream_metadata.reset(new openvdb::io::StreamMetadata);
    openvdb::io::setStreamMetadataPtr(stream, stream_metadata, /*transfer=*/false);
    setFormatVersion(stream);
    setLibraryVersion(stream);
    setDataCompression(stream);
    file_metadata.readMeta(stream);
    const int32_t count = readGridCount(stream);
    if (count < 0 || uint64_t(count) > size / least_descriptor) throw Error("it tells of " + std::to_string(count) + " grids, more than it holds");
    for (int32_t grid = 0; grid < count; ++grid) read_descriptor();
}

/// Reads the next descriptor, and passes over its grid if the file has offsets.
void VdbReader::read_descriptor() {
    GridDescriptor descriptor;
    if (!inputHasGridOffsets()) {
        GridBase::Ptr grid = descriptor.read(stream);
        Archive::readGrid(grid, descriptor, stream);
        held.push_back(grid);
    } else {
        try {
            descriptor.read(stream);
        } catch (const openvdb::LookupError&) {
            read_offsets(stream, descriptor);
        }
        check_offsets(descriptor);
        descriptor.seekToEnd(stream);
    }
    descriptors.push_back(descriptor);
}

/// Tests that a grid lies behind its descriptor and within the file, so that the next descriptor lies behind this one.
void VdbReader::check_offsets(const GridDescriptor& descriptor) {
    const int64_t offsets[] = {int64_t(stream.tellg()), descriptor.getGridPos(), descriptor.getEndPos()};
    const std::string grid = "grid " + in_quotes(descriptor.gridName());
    if (!std::is_sorted(std::begin(offsets), std::end(offsets))) throw Error(grid + " has offsets that don't rise");
    if (uint64_t(descriptor.getEndPos()) > size) throw Error("the file is cut short: " + grid + " ends past it");
}

const GridDescriptor& VdbReader::parent(const GridDescriptor& instance) const {
    for (const GridDescriptor& other : descriptors)
        if (other.uniqueName() == instance.instanceParentName() && !other.isInstance()) return other;
    throw Error("grid " + in_quotes(instance.gridName()) + " has the tree of a grid that isn't there");
}

GridBase::Ptr VdbReader::read_tree(const GridDescriptor& descriptor) {
    if (!inputHasGridOffsets()) return held[size_t(&descriptor - descriptors.data())];
    GridBase::Ptr grid = GridBase::createGrid(descriptor.gridType());
    descriptor.seekToGrid(stream);
    Archive::readGrid(grid, descriptor, stream);
    return grid;
}

GridBase::Ptr VdbReader::read(const GridDescriptor& descriptor) {
    try {
        GridBase::Ptr grid = read_tree(descriptor);
        if (descriptor.isInstance()) grid->setTree(read_tree(parent(descriptor))->baseTreePtr());
        return grid;
    } catch (const std::ios_base::failure&) {
        fail();
    }
}

void write_vdb(OutputFile& file, const openvdb::GridCPtrVec& grids, const std::string& compression) {
    VdbWriter writer;
    writer.setCompression(compression_flags(compression));
    OutputBuffer buffer(file);
    std::ostream stream(&buffer);
    stream.exceptions(std::ios::failbit | std::ios::badbit);
    writer.write_all(stream, grids);
    stream.flush();
}
