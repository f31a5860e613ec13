// SPDX-License-Identifier: Apache-2.0
// What the programs over OpenVDB share. It stands before the first header of OpenVDB, and compiles OpenVDB's tools from its headers, with
// the program's flags: Debian's library has instances of its own, which are compiled for processors without hardware bit counts.
#pragma once

#include <openvdb/version.h>

#undef OPENVDB_USE_EXPLICIT_INSTANTIATION

#include <tbb/global_control.h>

#include <charconv>
#include <cstddef>
#include <stdexcept>
#include <string_view>
#include <thread>

/// Returns the number of threads that a word names: a number from 1 on, or `all` for one a processor.
inline std::size_t threads_of(std::string_view word) {
    if (word == "all") return std::thread::hardware_concurrency();
    std::size_t threads = 0;
    const auto [end, error] = std::from_chars(word.data(), word.data() + word.size(), threads);
    if (error != std::errc() || end != word.data() + word.size() || threads == 0)
        throw std::invalid_argument("the number of threads is a number from 1 on, or all");
    return threads;
}
