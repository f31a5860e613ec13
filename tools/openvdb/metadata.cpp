// SPDX-License-Identifier: Apache-2.0
#include "metadata.h"

#include <algorithm>
#include <array>
#include <set>

using openvdb::GridBase;
using openvdb::MetaMap;

namespace {

constexpr const char* limit_key = "vdb_root_limit";
// goes before the key of a pair that OpenVDB would take for its own
const std::string prefix = "vdbs:";

/// Metadata that OpenVDB makes again when it writes a file, and the name and class, which the programs read by themselves.
bool is_made_again(const std::string& key) {
    static const std::array<const char*, 8> keys{
        GridBase::META_GRID_NAME,        GridBase::META_GRID_CLASS,     GridBase::META_FILE_BBOX_MIN,    GridBase::META_FILE_BBOX_MAX,
        GridBase::META_FILE_COMPRESSION, GridBase::META_FILE_MEM_BYTES, GridBase::META_FILE_VOXEL_COUNT, GridBase::META_FILE_DELAYED_LOAD};
    return std::find(keys.begin(), keys.end(), key) != keys.end();
}

/// Metadata with a meaning of its own to OpenVDB or to these programs.
bool is_reserved(const std::string& key) {
    return is_made_again(key) || key == GridBase::META_VECTOR_TYPE || key == GridBase::META_IS_LOCAL_SPACE ||
           key == GridBase::META_SAVE_HALF_FLOAT || key == limit_key;
}

/// The key of the pair that an entry's key stands for, or an empty one.
std::string key_of(const std::string& key) {
    const bool escaped = key.compare(0, prefix.size(), prefix) == 0;
    const std::string stood_for = escaped ? key.substr(prefix.size()) : key;
    return scene::is_name(stood_for) && is_reserved(stood_for) == escaped ? stood_for : "";
}

/// Why an entry can't be a pair, or an empty text.
std::string reason_against(const std::string& key, const openvdb::Metadata& entry, size_t pairs) {
    const auto* text = dynamic_cast<const openvdb::StringMetadata*>(&entry);
    if (text == nullptr) return "it is no text but of type " + entry.typeName();
    if (key_of(key).empty()) return "its key is none of a scene";
    if (!scene::is_text(text->value())) return "its text is none of a scene";
    return pairs == scene::most_pairs ? "a scene's grid has at most 16 pairs" : "";
}

/// A name in small letters, with `_` for other bytes, of a scene's form.
std::string simplified(const std::string& name) {
    std::string made;
    for (char byte : name) {
        const bool capital = byte >= 'A' && byte <= 'Z';
        const bool stays = (byte >= 'a' && byte <= 'z') || (byte >= '0' && byte <= '9');
        made += capital ? char(byte - 'A' + 'a') : stays ? byte : '_';
    }
    if (made.empty()) return "grid";
    if (made[0] < 'a' || made[0] > 'z') made = "g_" + made;
    return made.substr(0, scene::most_name);
}

/// A name that isn't taken: this one, or its beginning with the least number from 2 on behind it.
std::string untaken(const std::string& name, const std::set<std::string>& taken) {
    std::string made = name;
    for (int number = 2; taken.count(made) > 0; ++number) {
        const std::string digits = std::to_string(number);
        made = name.substr(0, scene::most_name - digits.size()) + digits;
    }
    return made;
}

}  // namespace

scene::Pairs pairs_of(const GridBase& grid, const std::string& name, const Notices& notices) {
    scene::Pairs pairs;
    for (auto entry = grid.beginMeta(); entry != grid.endMeta(); ++entry) {
        const std::string& key = entry->first;
        if (is_made_again(key) || (key == limit_key && limit_of(grid))) continue;
        const std::string reason = reason_against(key, *entry->second, pairs.size());
        if (reason.empty()) pairs[key_of(key)] = static_cast<const openvdb::StringMetadata&>(*entry->second).value();
        else notices.report("grid " + in_quotes(name) + ": metadata " + in_quotes(key) + " is left out: " + reason);
    }
    return pairs;
}

std::optional<uint32_t> limit_of(const MetaMap& metadata) {
    const auto limit = metadata.getMetadata<openvdb::Int32Metadata>(limit_key);
    if (!limit || limit->value() < 1 || limit->value() > int32_t(scene::most_roots)) return {};
    return uint32_t(limit->value());
}

void report_file_metadata(const MetaMap& metadata, const Notices& notices) {
    for (auto entry = metadata.beginMeta(); entry != metadata.endMeta(); ++entry)
        notices.report("metadata " + in_quotes(entry->first) + " of the file is left out: a scene has none");
}

void report_class(const GridBase& grid, const std::string& name, const Notices& notices) {
    const auto entry = grid[GridBase::META_GRID_CLASS];
    if (!entry || entry->str() == GridBase::gridClassToString(openvdb::GRID_UNKNOWN)) return;
    notices.report("grid " + in_quotes(name) + ": its class " + in_quotes(entry->str()) + " is left out: a scene's grid has none");
}

void store_metadata(MetaMap& metadata, const scene::Header& header) {
    for (const auto& [key, text] : header.pairs)
        metadata.insertMeta(is_reserved(key) ? prefix + key : key, openvdb::StringMetadata(text));
    if (header.limit != scene::usual_limit) metadata.insertMeta(limit_key, openvdb::Int32Metadata(int32_t(header.limit)));
}

std::vector<std::string> names_in_scene(const std::vector<std::string>& names) {
    std::vector<std::string> made(names.size());
    std::set<std::string> taken;
    for (size_t grid = 0; grid < names.size(); ++grid)
        if (scene::is_name(names[grid]) && taken.insert(names[grid]).second) made[grid] = names[grid];
    for (size_t grid = 0; grid < names.size(); ++grid) {
        if (!made[grid].empty()) continue;
        made[grid] = untaken(simplified(names[grid]), taken);
        taken.insert(made[grid]);
    }
    return made;
}
