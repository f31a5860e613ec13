// SPDX-License-Identifier: Apache-2.0
#include "metadata.h"

#include <array>
#include <charconv>
#include <cmath>

using openvdb::GridBase;
using openvdb::math::AffineMap;
using openvdb::math::Mat4d;
using openvdb::math::Transform;

namespace {

// the rows of the matrix that maps a column x, y, z, 1 to the world
constexpr std::array<const char*, 3> keys{"affine_x", "affine_y", "affine_z"};
constexpr size_t most_row = 63;
constexpr int least_digits = 8;

/// Reads a row of four numbers with commas between them into a column of OpenVDB's matrix, which maps rows. Returns whether it is one.
bool read_row(const std::string& text, int column, Mat4d& matrix) {
    const char *at = text.data(), *const end = at + text.size();
    for (int row = 0; row < 4; ++row) {
        if (row > 0 && (at == end || *at++ != ',')) return false;
        double number = 0;
        const auto [after, fault] = std::from_chars(at, end, number);
        if (fault != std::errc() || !std::isfinite(number)) return false;
        matrix(row, column) = number;
        at = after;
    }
    return at == end;
}

/// The matrix of a linear transform.
Mat4d matrix_of(const Transform& transform) { return transform.baseMap()->getAffineMap()->getMat4(); }

/// The transform of pairs, or null if they have none, or one that OpenVDB takes for singular. OpenVDB simplifies it, and may change
/// its last digits then.
Transform::Ptr transform_of(const scene::Pairs& pairs) {
    Mat4d matrix = Mat4d::identity();
    for (int column = 0; column < 3; ++column) {
        const auto pair = pairs.find(keys[column]);
        if (pair == pairs.end() || !read_row(pair->second, column, matrix)) return {};
    }
    try {
        return Transform::Ptr(new Transform(AffineMap::Ptr(new AffineMap(matrix))));
    } catch (const openvdb::ArithmeticError&) {
        return {};
    }
}

template <class Number, class... Precision>
std::string number_text(Number number, Precision... precision) {
    char text[32];
    const auto end = std::to_chars(text, text + sizeof text, number == 0 ? Number(0) : number, precision...).ptr;
    return std::string(text, end);
}

/// The text of a number with `digits` digits; with 0 the shortest, of 32 bits if these hold it.
std::string number_text(double number, int digits) {
    if (digits > 0) return number_text(number, std::chars_format::general, digits);
    const float narrow = float(number);
    return double(narrow) == number ? number_text(narrow) : number_text(number);
}

/// The text of a row, with as many digits as there is room for.
std::string row_text(const Mat4d& matrix, int column) {
    std::string text;
    for (int digits : {0, 16, 15, 14, 13, 12, 11, 10, 9, least_digits}) {
        text.clear();
        for (int row = 0; row < 4; ++row) text += (row > 0 ? "," : "") + number_text(matrix(row, column), digits);
        if (text.size() <= most_row) break;
    }
    return text;
}

}  // namespace

void keep_transform(const GridBase& grid, const std::string& name, scene::Pairs& pairs, const Notices& notices) {
    const Transform& transform = grid.transform();
    const std::string begin = "grid " + in_quotes(name) + ": its transform (" + std::string(transform.mapType()) + ") is left out: ";
    if (!transform.isLinear()) return notices.report(begin + "it isn't linear");
    const Mat4d matrix = matrix_of(transform);
    if (!matrix.isFinite()) return notices.report(begin + "it isn't finite");
    const auto told = transform_of(pairs);
    if (told ? matrix_of(*told).eq(matrix) : transform.isIdentity()) return;
    scene::Pairs kept = pairs;
    for (int column = 0; column < 3; ++column) {
        if (transform.isIdentity()) kept.erase(keys[column]);
        else kept[keys[column]] = row_text(matrix, column);
    }
    if (kept.size() > scene::most_pairs) return notices.report(begin + "a scene's grid has at most 16 pairs");
    pairs = std::move(kept);
}

void set_transform(GridBase& grid, const scene::Pairs& pairs) {
    if (const auto transform = transform_of(pairs)) grid.setTransform(transform);
}
