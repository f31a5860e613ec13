// SPDX-License-Identifier: Apache-2.0
// Plays the script language of vdb on the grids of OpenVDB, so that both can be measured on the same scripts. ../README.md says
// what it can't do and where its answers differ. It writes each answer before it reads the next line.

#include "script.h"

#include <openvdb/tools/Composite.h>
#include <openvdb/tools/Count.h>
#include <openvdb/tools/Morphology.h>
#include <openvdb/tools/Prune.h>

#include <fcntl.h>
#include <unistd.h>

#include <cstdio>

namespace tools = openvdb::tools;

/// Whether operations may use several threads. With one, OpenVDB's forms without threads are the faster ones.
bool is_threaded = false;

// ---- commands on grids; `t` has the tokens behind the command's word

template <class G>
void insert_new(Session& session, const Token* t) { session.insert(t[0].text, G::create(value<typename G::ValueType>(t[2]))); }

void grid(Session& session, const Token* t) {
    session.check_new(t[0]);
    if (t[1].text == "bool") insert_new<BoolGrid>(session, t);
    else if (t[1].text == "i32") insert_new<Int32Grid>(session, t);
    else insert_new<Int64Grid>(session, t);
    session.done();
}

void drop(Session& session, const Token* t) {
    session.find(t[0]);
    session.grids.erase(session.grids.find(t[0].text));
    session.done();
}

void copy(Session& session, const Token* t) {
    session.with(t[0], [&](auto& held) {
        session.check_new(t[1]);
        session.insert(t[1].text, held.grid->deepCopy());
    });
    session.done();
}

// ---- commands on voxels

void get(Session& session, const Token* t) {
    session.with(t[0], [&](auto& held) {
        Coord at = coord(t + 2);
        ValueOf<decltype(held)> found;
        bool on = false;
        held.through(t[1], [&](auto& reader) { on = reader.probeValue(at, found); });
        session.add(string_view("value "), found, string_view(on ? " on\n" : " off\n"));
    });
}

/// A write of the line's value: `write` gets an accessor or the tree, the coordinate and the value.
template <class Write>
void write_value(Session& session, const Token* t, Write write) {
    session.with(t[0], [&](auto& held) {
        auto written = value<ValueOf<decltype(held)>>(t[5]);
        Coord at = coord(t + 2);
        held.through(t[1], [&](auto& writer) { write(writer, at, written); });
    });
    session.done();
}

void set(Session& session, const Token* t) {
    write_value(session, t, [](auto& writer, const Coord& at, auto written) { writer.setValueOn(at, written); });
}

void unset(Session& session, const Token* t) {
    write_value(session, t, [](auto& writer, const Coord& at, auto written) { writer.setValueOff(at, written); });
}

void only(Session& session, const Token* t) {
    write_value(session, t, [](auto& writer, const Coord& at, auto written) { writer.setValueOnly(at, written); });
}

void state(Session& session, const Token* t) {
    session.with(t[0], [&](auto& held) {
        Coord at = coord(t + 2);
        held.through(t[1], [&](auto& writer) { writer.setActiveState(at, is_on(t[5])); });
    });
    session.done();
}

// ---- commands on boxes and on trees

void fill(Session& session, const Token* t) {
    session.with(t[0], [&](auto& held) {
        auto filled = value<ValueOf<decltype(held)>>(t[7]);
        held.tree().fill(box(t + 1), filled, is_on(t[8]));
    });
    session.done();
}

void clip(Session& session, const Token* t) {
    session.with(t[0], [&](auto& held) { held.tree().clip(box(t + 1)); });
    session.done();
}

template <class Tree>
void prune_tree(Tree& tree) { tools::prune(tree, openvdb::zeroVal<typename Tree::ValueType>(), is_threaded); }

void prune(Session& session, const Token* t) {
    session.with(t[0], [](auto& held) { prune_tree(held.tree()); });
    session.done();
}

/// Makes a leaf wherever an active tile is over a leaf block that meets the box.
void voxelise(Session& session, const Token* t) {
    session.with(t[0], [&](auto& held) {
        CoordBBox within = box(t + 1);
        int64_t volume = 1, limit = 2097152;
        for (int axis = 0; axis < 3; ++axis) {
            volume *= std::min(extent(within, axis), limit + 1);
            if (volume > limit) throw Refused{"too-large"};
        }
        for (int64_t x = within.min().x() & ~7; x <= within.max().x(); x += 8)
            for (int64_t y = within.min().y() & ~7; y <= within.max().y(); y += 8)
                for (int64_t z = within.min().z() & ~7; z <= within.max().z(); z += 8) {
                    Coord first(x, y, z);
                    if (!held.tree().probeConstLeaf(first) && held.tree().isValueOn(first)) held.tree().touchLeaf(first);
                }
    });
    session.done();
}

void dilate(Session& session, const Token* t) {
    session.with(t[0], [&](auto& held) {
        tools::dilateActiveValues(held.tree(), int(number_in(t[1], 1, 16)), tools::NN_FACE, tools::EXPAND_TILES, is_threaded);
        held.tree().clearAllAccessors();
    });
    session.done();
}

void erode(Session& session, const Token* t) {
    session.with(t[0], [&](auto& held) {
        tools::erodeActiveValues(held.tree(), int(number_in(t[1], 1, 16)), tools::NN_FACE, tools::EXPAND_TILES, is_threaded);
        held.tree().clearAllAccessors();
    });
    session.done();
}

// ---- commands on two grids, of which the first changes

/// A command on the states of two grids, of any two kinds.
template <class Change>
void change_states(Session& session, const Token* t, Change change) {
    auto &first = session.find(t[0]), &second = session.find(t[1]);
    if (&first == &second) throw Refused{"same-grid"};
    std::visit([&](auto& held, auto& other) { change(held.tree(), other.tree()); }, first, second);
    session.done();
}

void unite(Session& session, const Token* t) {
    change_states(session, t, [](auto& tree, auto& other) { tree.topologyUnion(other); });
}

void difference(Session& session, const Token* t) {
    change_states(session, t, [](auto& tree, auto& other) { tree.topologyDifference(other); });
}

void intersect(Session& session, const Token* t) {
    change_states(session, t, [](auto& tree, auto& other) { tree.topologyIntersection(other); });
}

/// A command on the values of two grids of one kind.
template <class Change>
void change_values(Session& session, const Token* t, Change change) {
    change_states(session, t, [&](auto& tree, auto& other) {
        if constexpr (std::is_same_v<decltype(tree), decltype(other)>) change(tree, other);
        else throw Refused{"kind"};
    });
}

/// The same for the calls of OpenVDB that leave the second tree empty: they get a copy.
template <class Change>
void change_by_copy(Session& session, const Token* t, Change change) {
    change_values(session, t, [&](auto& tree, auto& other) {
        std::decay_t<decltype(other)> taken(other);
        change(tree, taken);
    });
}

void maximum(Session& session, const Token* t) {
    change_by_copy(session, t, [](auto& tree, auto& taken) { tools::compMax(tree, taken); });
}

void minimum(Session& session, const Token* t) {
    change_by_copy(session, t, [](auto& tree, auto& taken) { tools::compMin(tree, taken); });
}

void sum(Session& session, const Token* t) {
    change_by_copy(session, t, [](auto& tree, auto& taken) {
        if constexpr (std::is_same_v<decltype(tree), openvdb::BoolTree&>) throw Refused{"no-sum"};
        else tools::compSum(tree, taken);
    });
}

void replace(Session& session, const Token* t) {
    change_values(session, t, [](auto& tree, auto& other) { tools::compReplace(tree, other); });
}

// ---- reports

void count(Session& session, const Token* t) {
    session.with(t[0], [&](auto& held) {
        session.add(string_view("count "), int64_t(tools::countActiveVoxels(held.tree(), box(t + 1), is_threaded)), line_end);
    });
}

void count_all(Session& session, const Token* t) {
    session.with(t[0], [&](auto& held) { session.add(string_view("count "), int64_t(held.tree().activeVoxelCount()), line_end); });
}

void bounds(Session& session, const Token* t) {
    session.with(t[0], [&](auto& held) {
        CoordBBox around;
        if (!held.tree().evalActiveVoxelBoundingBox(around)) return session.add(string_view("bounds none\n"));
        session.add(string_view("bounds "), around.min(), space, around.max(), line_end);
    });
}

/// The nodes of a pruned copy, from the root table's entries to the leaves.
void census(Session& session, const Token* t) {
    session.with(t[0], [&](auto& held) {
        auto pruned = held.grid->deepCopy();
        prune_tree(pruned->tree());
        auto nodes = pruned->tree().nodeCount();
        session.add(string_view("census "), int64_t(pruned->tree().root().getTableSize()));
        for (int level = 2; level >= 0; --level) session.add(space, int64_t(nodes[level]));
        session.add(line_end);
    });
}

void slice(Session& session, const Token* t) {
    session.with(t[0], [&](auto& held) {
        int32_t z = component(t[1]);
        CoordBBox part = ordered({component(t[2]), component(t[3]), z}, {component(t[4]), component(t[5]), z});
        if (extent(part, 0) > 64 || extent(part, 1) > 64) throw Refused{"too-large"};
        auto accessor = held.grid->getConstAccessor();
        for (int64_t y = part.min().y(); y <= part.max().y(); ++y) {
            session.add(string_view("row "), y);
            for (int64_t x = part.min().x(); x <= part.max().x(); ++x) {
                ValueOf<decltype(held)> found;
                bool on = accessor.probeValue(Coord(x, y, z), found);
                session.add(string_view(on ? " " : " ("), found, string_view(on ? "" : ")"));
            }
            session.add(line_end);
        }
        session.add(string_view("end "), extent(part, 1), line_end);
    });
}

/// Lists the active voxels of a box in block order, up to a limit. Each call answers whether the list may go on.
struct Listing {
    Session& session;
    CoordBBox within;
    int64_t limit, listed = 0;
    bool has_more = false;

    template <class V>
    bool add_voxel(const Coord& at, V found) {
        if (!within.isInside(at)) return true;
        has_more = listed == limit;
        if (has_more) return false;
        session.add(at, space, found, line_end);
        ++listed;
        return true;
    }

    /// The voxels of an active tile of so many voxels along each axis, block by block as if there were nodes under it.
    template <class V>
    bool add_tile(const Coord& first, int size, V found) {
        if (size == 1) return add_voxel(first, found);
        CoordBBox part = CoordBBox::createCube(first, size);
        part.intersect(within);
        if (part.empty()) return true;
        int step = size == 4096 ? 128 : size == 128 ? 8 : 1;
        Coord from = part.min() - first, to = part.max() - first;
        for (int x = from.x() / step; x <= to.x() / step; ++x)
            for (int y = from.y() / step; y <= to.y() / step; ++y)
                for (int z = from.z() / step; z <= to.z() / step; ++z)
                    if (!add_tile(first.offsetBy(x * step, y * step, z * step), step, found)) return false;
        return true;
    }

    template <class Node>
    bool add_node(const Node& node) {
        if (!within.hasOverlap(node.getNodeBoundingBox())) return true;
        if constexpr (Node::LEVEL == 0) {
            for (auto voxel = node.cbeginValueOn(); voxel; ++voxel)
                if (!add_voxel(voxel.getCoord(), voxel.getValue())) return false;
        } else {
            auto entries = node.getChildMask();
            entries |= node.getValueMask();
            for (auto entry = entries.beginOn(); entry; ++entry) {
                auto& union_of_both = node.getTable()[entry.pos()];
                Coord first = node.offsetToGlobalCoord(entry.pos());
                if (node.isChildMaskOn(entry.pos()) ? !add_node(*union_of_both.getChild())
                                                    : !add_tile(first, Node::ChildNodeType::DIM, union_of_both.getValue())) return false;
            }
        }
        return true;
    }

    template <class Root>
    void add_root(const Root& root) {
        for (auto entry = root.cbeginChildAll(); entry; ++entry) {
            typename Root::ValueType tile;
            const auto* child = entry.probeChild(tile);
            if (child ? !add_node(*child) : entry.isValueOn() && !add_tile(entry.getCoord(), 4096, tile)) return;
        }
    }
};

void list(Session& session, const Token* t) {
    session.with(t[0], [&](auto& held) {
        Coord min = coord(t + 1), max = coord(t + 4);
        int64_t limit = number_in(t[7], 1, 4096);
        Listing listing{session, ordered(min, max), limit};
        listing.add_root(held.tree().root());
        session.add(string_view(listing.has_more ? "more " : "end "), listing.listed, line_end);
    });
}

// ---- lines

/// A command: its word, the form of each token behind it, and what carries it out.
struct Command {
    string_view word, forms;
    void (*carry_out)(Session&, const Token*);
};

// those that scripts have most of come first, since a word is sought from the first row on
const Command commands[] = {
    {"set", "naiiiv", set},          {"get", "naiii", get},           {"unset", "naiiiv", unset},
    {"only", "naiiiv", only},        {"state", "naiiis", state},      {"fill", "niiiiiivs", fill},
    {"count", "n*", count_all},      {"count", "niiiiii", count},     {"list", "niiiiiii", list},
    {"slice", "niiiii", slice},      {"bounds", "n", bounds},         {"census", "n", census},
    {"clip", "niiiiii", clip},       {"prune", "n", prune},           {"voxelise", "niiiiii", voxelise},
    {"grid", "nkv", grid},           {"drop", "n", drop},             {"copy", "nn", copy},
    {"union", "nn", unite},          {"difference", "nn", difference}, {"intersect", "nn", intersect},
    {"max", "nn", maximum},          {"min", "nn", minimum},          {"sum", "nn", sum},
    {"replace", "nn", replace},      {"dilate", "ni", dilate},        {"erode", "ni", erode},
};

/// The command of a line, whose numbers are read on the way.
const Command& command_of(std::vector<Token>& tokens) {
    for (const Command& command : commands) {
        bool fits = command.word == tokens[0].text && command.forms.size() == tokens.size() - 1;
        for (size_t at = 0; fits && at < command.forms.size(); ++at) fits = has_form(command.forms[at], tokens[at + 1]);
        if (fits) return command;
    }
    throw Refused{"syntax"};
}

/// Carries out a line, and leaves its answer in the session. Answers whether it was refused.
bool carry_out(Session& session, string_view line, std::vector<Token>& tokens) {
    session.answer.clear();
    try {
        if (line.size() > 256) throw Refused{"line-too-long"};
        split(line, tokens);
        if (tokens.empty() || tokens[0].text[0] == '#') return false;
        command_of(tokens).carry_out(session, tokens.data() + 1);
        return false;
    } catch (const Refused& refused) {
        session.answer = std::string("error ") + refused.word + '\n';
        return true;
    }
}

bool write_all(string_view text) {
    while (!text.empty()) {
        ssize_t taken = write(STDOUT_FILENO, text.data(), text.size());
        if (taken <= 0) return false;
        text.remove_prefix(size_t(taken));
    }
    return true;
}

int fault(int status, const char* text) {
    fprintf(stderr, "openvdb: %s\n", text);
    return status;
}

/// Plays the script of an open file, and answers the exit status.
int play(Session& session, int file) {
    std::vector<char> page(65536);
    std::vector<Token> tokens;
    std::string rest;  // of a line whose newline hasn't been read
    int status = 0;
    auto play_line = [&](string_view line) {
        if (carry_out(session, line, tokens)) status = 1;
        return write_all(session.answer);
    };
    ssize_t given;
    while ((given = read(file, page.data(), page.size())) > 0) {
        string_view left(page.data(), size_t(given));
        for (size_t end; (end = left.find('\n')) != left.npos; left.remove_prefix(end + 1)) {
            string_view line = left.substr(0, end);
            if (!rest.empty()) line = rest += line;
            if (!play_line(line)) return fault(4, "answers: write");
            rest.clear();
        }
        rest += left;
    }
    if (given < 0) return fault(4, "script: read");
    if (!rest.empty() && !play_line(rest)) return fault(4, "answers: write");
    return status;
}

// ---- files, in OpenVDB's own format

template <class G>
bool insert_loaded(Session& session, const openvdb::GridBase::Ptr& loaded) {
    auto grid = openvdb::gridPtrCast<G>(loaded);
    if (grid) session.insert(grid->getName(), grid);
    return bool(grid);
}

void load(Session& session, const std::string& name) {
    openvdb::io::File file(name);
    file.open(/*delayLoad=*/false);
    auto grids = file.getGrids();
    for (auto& loaded : *grids)
        insert_loaded<BoolGrid>(session, loaded) || insert_loaded<Int32Grid>(session, loaded) || insert_loaded<Int64Grid>(session, loaded);
}

/// The compression that a word of the command line names. ZIP and Blosc leave out inactive values, as OpenVDB's own default does.
uint32_t compression(string_view word) {
    using namespace openvdb::io;
    if (word == "none") return COMPRESS_NONE;
    if (word == "zip") return COMPRESS_ZIP | COMPRESS_ACTIVE_MASK;
    if (word == "blosc") return COMPRESS_BLOSC | COMPRESS_ACTIVE_MASK;
    throw Refused{"--compression takes none, zip or blosc"};
}

void save(Session& session, const std::string& name, uint32_t flags) {
    openvdb::GridPtrVec grids;
    for (auto& [grid_name, any] : session.grids)
        std::visit([&, &named = grid_name](auto& held) { held.grid->setName(named), grids.push_back(held.grid); }, any);
    openvdb::io::File file(name);
    file.setCompression(flags);
    file.write(grids);
}

/// Prints to standard error how many bytes each grid says that it uses.
void print_memory(Session& session) {
    for (auto& [name, any] : session.grids)
        std::visit([&, &named = name](auto& held) { fprintf(stderr, "%s %llu\n", named.c_str(), (unsigned long long)held.grid->memUsage()); }, any);
}

/// What the command line asks for.
struct Options {
    std::string loaded, saved, script, threads = "1", compression = "none";
    bool prints_memory = false;

    Options(int count, char** words) {
        for (int at = 1; at < count; ++at) {
            string_view word = words[at];
            std::string* option = word == "--load" ? &loaded : word == "--save" ? &saved : word == "--threads" ? &threads
                                : word == "--compression" ? &compression : nullptr;
            if (option && at + 1 < count) *option = words[++at];
            else if (word == "--memory") prints_memory = true;
            else if (!option && word[0] != '-' && script.empty()) script = word;
            else throw Refused{"usage: openvdb [--load FILE] [--save FILE] [--compression none|zip|blosc] [--threads N|all] [--memory] [SCRIPT]"};
        }
    }
};

int run(const Options& options) {
    const size_t threads = threads_of(options.threads);
    tbb::global_control limit(tbb::global_control::max_allowed_parallelism, threads);
    is_threaded = threads > 1;
    const uint32_t flags = compression(options.compression);
    openvdb::initialize();
    Session session;
    try {
        if (!options.loaded.empty()) load(session, options.loaded);
    } catch (const openvdb::Exception& error) {
        return fault(3, error.what());
    }
    int file = options.script.empty() ? STDIN_FILENO : open(options.script.c_str(), O_RDONLY);
    if (file < 0) return fault(4, "script: read");
    int status = play(session, file);
    try {
        if (!options.saved.empty() && status <= 1) save(session, options.saved, flags);
    } catch (const openvdb::Exception& error) {
        return fault(4, error.what());
    }
    if (options.prints_memory) print_memory(session);
    return status;
}

int main(int count, char** words) {
    try {
        return run(Options(count, words));
    } catch (const Refused& refused) {
        return fault(2, refused.word);
    } catch (const std::invalid_argument& error) {
        return fault(2, error.what());
    }
}
