// SPDX-License-Identifier: Apache-2.0
// Loads a scene file and saves it: resave INPUT OUTPUT
//
// The status is 0, or 1 if a file can't be read or written. It is 9 if a descriptor is left open.
#include <vdb.hpp>

#include <cstdio>
#include <exception>
#include <filesystem>
#include <iterator>

static auto descriptors() { return std::distance(std::filesystem::directory_iterator("/proc/self/fd"), {}); }

int main(int, char **words)
{
    const auto before = descriptors();
    int status = 0;
    try {
        vdb::Scene::load_file(words[1]).save_file(words[2]);
    } catch (const std::exception &error) {
        std::fprintf(stderr, "resave: %s\n", error.what());
        status = 1;
    }
    return descriptors() == before ? status : 9;
}
