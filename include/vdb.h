/* SPDX-License-Identifier: Apache-2.0 */
/* libvdb: sparse grids of booleans and integers, for C and C++.
 *
 * A grid has a cell at each coordinate of three signed 32-bit integers: a value, and a state that is active or inactive.
 * It is stored as a VDB tree of tiles and of leaves of 8 x 8 x 8 voxels. Tiles and leaves never alter a cell.
 *
 *     #include <vdb.h>
 *
 *     vdb_grid grid = VDB_GRID_INIT;
 *     int32_t code = vdb_grid_new(&grid, VDB_I32, 0, VDB_LIMIT_DEFAULT);
 *     if (!code)
 *         code = vdb_grid_set(&grid, VDB_NO_ACCESSOR, 1, 2, 3, 5, 1);
 *     if (code)
 *         fprintf(stderr, "labels: %s\n", vdb_message(code));
 *     vdb_grid_free(&grid);
 *
 * Handles. A vdb_grid, vdb_view or vdb_scene is a struct in the memory of the caller. It starts empty: VDB_GRID_INIT,
 * VDB_VIEW_INIT, VDB_SCENE_INIT, or all bytes 0. Calls create a grid, view or scene in it. vdb_grid_free, vdb_view_free and
 * vdb_scene_free delete it and leave the handle empty. Never change a field. Never copy a handle by assignment, unless the old
 * one isn't used again: vdb_grid_copy makes a second grid, and vdb_view_share a second view.
 *
 * Codes. Each call on a handle returns a code, except the three that free. After any code but VDB_OK every
 * cell, background, root limit and metadata pair is as before, each handle holds the same grid, view or scene, and no pointer
 * argument points to another value. Two calls are exceptions: vdb_grid_write_many and vdb_grid_write_box may have set some voxels, and say
 * which. Tiles and leaves may change after VDB_MEMORY and VDB_ROOT_LIMIT: for example, a fill, clip or voxelise that lacks
 * memory prunes. A call whose comment names no code returns only VDB_OK or VDB_EMPTY. Every call returns VDB_EMPTY if a handle
 * that it needs is empty. vdb_message returns the text of a code.
 *
 * Values cross as int64_t: 0 or 1 for VDB_BOOL, -2,147,483,648 to 2,147,483,647 for VDB_I32, any for VDB_I64. The library
 * writes a state as 1 (active) or 0 (inactive), and reads every state but 0 as active.
 *
 * Coordinates are voxels. A box includes both of its corners, and its least corner is first. A cube of N voxels is aligned and
 * has N along each axis.
 *
 * Block order sorts the cubes of 4,096 voxels by x, then y, then z. It sorts the cubes of 128 voxels of each in the same order,
 * within these the cubes of 8, and within these the voxels.
 *
 * The library allocates by malloc, and frees when the handle is freed. If malloc fails, the call returns VDB_MEMORY and the
 * program goes on.
 *
 * Long calls. A call can't be interrupted. To stop one, or to show its progress, make it in parts on a copy of the grid: a dilation or
 * an erosion one iteration at a time, a fill, a write or a count box by box. Then free the grid, and assign the copy to its handle.
 *
 * Threads. One call at a time may use a handle, also for look-ups. Threads may use different handles at the same time, and
 * a handle may pass from one thread to another. To read one grid in several threads, give each a vdb_view of it. The library
 * has no global state. Make no call in a signal handler.
 *
 * Preconditions that the library cannot check: each pointer points to an initialised object of its type, or to as many as its
 * length says. It isn't null, even if the length is 0. No two arguments of a call overlap. For a call on two handles of one type
 * this header tests that they differ, and returns VDB_SAME_GRID if not. A program that calls the library without the header tests
 * the handles itself.
 */
#ifndef VDB_H
#define VDB_H

#include <stddef.h>
#include <stdint.h>

/* The version of this header. A library of the same major version, and of this minor version or a later one, has all of its calls. */
#define VDB_VERSION_MAJOR 1
#define VDB_VERSION_MINOR 2
#define VDB_VERSION_PATCH 0
#define VDB_VERSION (1000000 * VDB_VERSION_MAJOR + 1000 * VDB_VERSION_MINOR + VDB_VERSION_PATCH)

#ifdef __cplusplus
extern "C" {
#endif

/* A handle of a grid. The fields belong to the library. */
typedef struct vdb_grid {
    void *at;
    uint64_t visits;
} vdb_grid;

/* A handle of a scene, which holds up to 64 grids by name. The fields belong to the library. */
typedef struct vdb_scene {
    void *at;
    uint64_t visits;
} vdb_scene;

/* A handle of a view: a grid that several threads read. The fields belong to the library. */
typedef struct vdb_view {
    void *at;
    uint64_t visits;
} vdb_view;

#define VDB_GRID_INIT { 0, 0 }
#define VDB_VIEW_INIT { 0, 0 }
#define VDB_SCENE_INIT { 0, 0 }

/* A voxel. */
typedef struct vdb_coord {
    int32_t x, y, z;
} vdb_coord;

/* A box of voxels with its least and its greatest corner, both included. */
typedef struct vdb_box {
    vdb_coord min, max;
} vdb_box;

/* How many elements of an array lie from a voxel of a box to the next one along each axis. The element of the least corner is the
 * first one of the array. No two voxels share an element, as the axes are nested in some order: a step along each axis passes all elements
 * that steps along the axes before it reach. So an array may be in row order, where z is 1, in column order, where x is 1, or any other, and
 * may have gaps. Along an axis on which the box has one voxel any stride is valid. For an array without gaps in row order the strides are 1
 * for z, the number of voxels along z for y, and that times the number along y for x. */
typedef struct vdb_strides {
    size_t x, y, z;
} vdb_strides;

/* All voxels, as an initialiser of a vdb_box. */
#define VDB_EVERYWHERE { { INT32_MIN, INT32_MIN, INT32_MIN }, { INT32_MAX, INT32_MAX, INT32_MAX } }

/* A number of voxels, high * 2^64 + low, at most 2^96. */
typedef struct vdb_count {
    uint64_t low, high;
} vdb_count;

/* The size of the smallest tree of a grid's cells. It depends on the cells alone. */
typedef struct vdb_census {
    uint64_t roots; /* root blocks (cubes of 4,096 voxels) with a cell other than the background, inactive */
    uint64_t upper; /* cubes of 4,096 voxels whose cells aren't all equal */
    uint64_t lower; /* cubes of 128 voxels whose cells aren't all equal */
    uint64_t leaf;  /* cubes of 8 voxels whose cells aren't all equal */
} vdb_census;

/* A part of a grid: a tile, whose voxels all have its value and its state, or a leaf, whose state is VDB_LEAF and whose value is 0. */
typedef struct vdb_part {
    vdb_box box;
    int64_t value;
    int32_t state;
} vdb_part;

enum { VDB_LEAF = 2 };

/* The type of a grid's values. */
enum { VDB_BOOL = 0, VDB_I32 = 1, VDB_I64 = 2 };

/* A grid has the accessors 0 to 7. Each keeps the path to the voxel that it last visited, so that the next one nearby takes
 * less time. VDB_NO_ACCESSOR names none. */
enum { VDB_NO_ACCESSOR = -1, VDB_ACCESSORS = 8 };

/* Limits. The root limit of a grid is the most root blocks that may have a cell other than the background, inactive. */
enum {
    VDB_LIMIT_DEFAULT = 4096,
    VDB_LIMIT_MOST = 65536,
    VDB_ITERATIONS_MOST = 16,
    VDB_GRIDS_MOST = 64,
    VDB_METAS_MOST = 16,
    VDB_NAME_MOST = 16,
    VDB_TEXT_MOST = 64,
    VDB_FILE_MOST = 268435456
};

/* The codes. */
enum {
    VDB_OK = 0, /* done */
    VDB_EMPTY = 1, /* a handle that the call needs is empty */
    VDB_MEMORY = 2, /* an allocation failed */
    VDB_ROOT_LIMIT = 3, /* the grid would need more root blocks than its root limit */
    VDB_RANGE = 4, /* an argument is out of range */
    VDB_SUM_RANGE = 5, /* a sum is outside the type of the grid's values */
    VDB_KINDS = 6, /* the two grids, or the grid and an array, have values of different types */
    VDB_NO_SUM = 7, /* booleans have no sum */
    VDB_NO_GRID = 8, /* the scene has no such grid */
    VDB_NAME = 9, /* the bytes are no name */
    VDB_NAME_TAKEN = 10, /* the scene has a grid of this name */
    VDB_GRID_LIMIT = 11, /* the scene has 64 grids */
    VDB_META_LIMIT = 12, /* the grid has 16 metadata pairs */
    VDB_NO_META = 13, /* the grid has no such metadata pair */
    VDB_TEXT = 14, /* the bytes are no metadata text */
    VDB_BUFFER = 15, /* the buffer is too small */
    VDB_SAME_GRID = 16, /* both handles of the call are the same */
    /* Faults of a scene file. docs/FORMAT.md describes each. */
    VDB_FILE_MAGIC = 20,
    VDB_FILE_VERSION = 21,
    VDB_FILE_TRUNCATED = 22,
    VDB_FILE_NAME = 23,
    VDB_FILE_KIND = 24,
    VDB_FILE_VALUE = 25,
    VDB_FILE_LIMIT = 26,
    VDB_FILE_META = 27,
    VDB_FILE_KEY = 28,
    VDB_FILE_ROOT_LIMIT = 29,
    VDB_FILE_TAG = 30,
    VDB_FILE_INDEX = 31,
    VDB_FILE_BACKGROUND = 32,
    VDB_FILE_CONSTANT_NODE = 33,
    VDB_FILE_TRAILING = 34,
    VDB_FILE_TOO_LONG = 35
};

/* Lets compilers warn of a null pointer and of a code that isn't used. */
#ifdef __GNUC__
#define VDB_NONNULL __attribute__((nonnull))
#define VDB_CODE __attribute__((nonnull, warn_unused_result)) int32_t
#else
#define VDB_NONNULL
#define VDB_CODE int32_t
#endif

/* Returns the version of the library, a number like VDB_VERSION. */
int32_t vdb_version(void);

/* Sets *text to the text of a code, which ends with a 0 and is never freed. */
VDB_NONNULL void vdb_message_at(int32_t code, const char **text);

/* Returns the text of a code, which is never freed. */
static inline const char *vdb_message(int32_t code)
{
    const char *text = 0;
    vdb_message_at(code, &text);
    return text;
}

/* ---- A grid -------------------------------------------------------------------------------------------------------- */

/* Creates a grid with values of type `kind`, in which each cell is the background, inactive. It replaces the handle's grid.
 * VDB_RANGE: no such type, a background outside it, or a limit outside 1 to 65,536. VDB_MEMORY. */
VDB_CODE vdb_grid_new(vdb_grid *grid, int32_t kind, int64_t background, uint32_t limit);

/* Frees the handle's grid, if it has one, and leaves the handle empty. */
VDB_NONNULL void vdb_grid_free(vdb_grid *grid);

/* Copies a grid, which replaces the grid of the other handle. The accessors of the copy are empty. VDB_SAME_GRID. VDB_MEMORY. */
VDB_CODE vdb_grid_copy(vdb_grid *from, vdb_grid *to);

/* Returns the type of the values, the background, and the root limit. */
VDB_CODE vdb_grid_kind(vdb_grid *grid, int32_t *kind);
VDB_CODE vdb_grid_background(vdb_grid *grid, int64_t *value);
VDB_CODE vdb_grid_limit(vdb_grid *grid, uint32_t *limit);

/* Returns the value and the state of a voxel. Calls without an accessor share the path to the last voxel that one of them read. */
VDB_CODE vdb_grid_get(vdb_grid *grid, int32_t x, int32_t y, int32_t z, int64_t *value, int32_t *active);

/* Returns the value and the state of a voxel through an accessor or, with VDB_NO_ACCESSOR, without one.
 * VDB_RANGE: no such accessor. */
VDB_CODE vdb_grid_probe(vdb_grid *grid, int32_t accessor, int32_t x, int32_t y, int32_t z, int64_t *value, int32_t *active);

/* Sets the value and the state of a voxel, or only one of them, through an accessor or without one.
 * VDB_RANGE: no such accessor, or a value outside the type. VDB_ROOT_LIMIT. VDB_MEMORY. */
VDB_CODE vdb_grid_set(vdb_grid *grid, int32_t accessor, int32_t x, int32_t y, int32_t z, int64_t value, int32_t active);
VDB_CODE vdb_grid_set_value(vdb_grid *grid, int32_t accessor, int32_t x, int32_t y, int32_t z, int64_t value);
VDB_CODE vdb_grid_set_active(vdb_grid *grid, int32_t accessor, int32_t x, int32_t y, int32_t z, int32_t active);

/* Sets the value and the state of each voxel of a box.
 * VDB_RANGE: corners out of order, or a value outside the type. VDB_ROOT_LIMIT. VDB_MEMORY. */
VDB_CODE vdb_grid_fill(vdb_grid *grid, const vdb_box *box, int64_t value, int32_t active);

/* Sets each voxel outside a box to the background, inactive. VDB_RANGE: corners out of order. VDB_MEMORY. */
VDB_CODE vdb_grid_clip(vdb_grid *grid, const vdb_box *box);

/* Makes the tree as small as its cells allow. No cell changes. */
VDB_CODE vdb_grid_prune(vdb_grid *grid);

/* Stores each active voxel of a box in a leaf. No cell changes. It skips inactive tiles, so the box may be large. An
 * active tile takes memory: a leaf for each cube of 8 voxels. VDB_RANGE: corners out of order. VDB_MEMORY. */
VDB_CODE vdb_grid_voxelise(vdb_grid *grid, const vdb_box *box);

/* Activates, in each of 1 to 16 iterations, every voxel that has an active face neighbour. No value changes.
 * VDB_RANGE: the number of iterations. VDB_ROOT_LIMIT. VDB_MEMORY, which may also hide a VDB_ROOT_LIMIT. */
VDB_CODE vdb_grid_dilate(vdb_grid *grid, uint32_t iterations);

/* Deactivates, in each of 1 to 16 iterations, every voxel that has an inactive face neighbour. No value changes.
 * VDB_RANGE: the number of iterations. VDB_MEMORY. */
VDB_CODE vdb_grid_erode(vdb_grid *grid, uint32_t iterations);

/* ---- Two grids: the first one changes, the other one stays ---------------------------------------------------------- */

/* Each call returns VDB_SAME_GRID, whatever the handle holds, if both handles are the same. */

/* Activates each voxel that is active in the other grid. No value changes, and types may differ. VDB_ROOT_LIMIT. VDB_MEMORY. */
VDB_CODE vdb_grid_unite(vdb_grid *grid, vdb_grid *other);

/* Deactivates each voxel that is active in the other grid. No value changes, and types may differ. VDB_MEMORY. */
VDB_CODE vdb_grid_subtract(vdb_grid *grid, vdb_grid *other);

/* Deactivates each voxel that is inactive in the other grid. No value changes, and types may differ. VDB_MEMORY. */
VDB_CODE vdb_grid_intersect(vdb_grid *grid, vdb_grid *other);

/* Sets each voxel and the background to the greater or the lesser of its two values. A voxel becomes active if it is active in
 * either grid. VDB_KINDS. VDB_ROOT_LIMIT. VDB_MEMORY. */
VDB_CODE vdb_grid_maximum(vdb_grid *grid, vdb_grid *other);
VDB_CODE vdb_grid_minimum(vdb_grid *grid, vdb_grid *other);

/* Sets each voxel and the background to the sum of its two values. A voxel becomes active if it is active in either grid.
 * VDB_KINDS. VDB_NO_SUM: both grids have booleans. VDB_SUM_RANGE: a sum is outside the type. VDB_ROOT_LIMIT. VDB_MEMORY. */
VDB_CODE vdb_grid_sum(vdb_grid *grid, vdb_grid *other);

/* Copies the value and the state of each voxel that is active in the other grid. VDB_KINDS. VDB_ROOT_LIMIT. VDB_MEMORY. */
VDB_CODE vdb_grid_replace(vdb_grid *grid, vdb_grid *other);

/* ---- Reports of a grid, none of which allocates -------------------------------------------------------------------- */

/* Returns the number of active voxels, of the grid or of a box. VDB_RANGE: corners out of order. */
VDB_CODE vdb_grid_count(vdb_grid *grid, vdb_count *count);
VDB_CODE vdb_grid_count_in(vdb_grid *grid, const vdb_box *box, vdb_count *count);

/* Returns the bounding box of the active voxels. If no voxel is active, *found is 0 and *box is unchanged; otherwise *found is 1. */
VDB_CODE vdb_grid_bounds(vdb_grid *grid, vdb_box *box, int32_t *found);

/* Returns the size of the smallest tree of the grid's cells. */
VDB_CODE vdb_grid_census(vdb_grid *grid, vdb_census *census);

/* Returns whether two grids have the same type, background and cells: *equal is 1 if so, otherwise 0. Their root limits, tiles and leaves
 * may differ. It stops at the first difference. VDB_SAME_GRID: both handles are the same. */
VDB_CODE vdb_grid_equal(vdb_grid *grid, vdb_grid *other, int32_t *equal);

/* Returns the first active voxel of a box in block order, or the first one after *at, and its value. If none is left, *found
 * is 0, and *at and *value are unchanged; otherwise *found is 1. VDB_RANGE: corners out of order.
 *
 *     for (code = vdb_grid_first_active(g, &box, &at, &value, &found); !code && found;
 *          code = vdb_grid_next_active(g, &box, &at, &value, &found))
 *         ...
 */
VDB_CODE vdb_grid_first_active(vdb_grid *grid, const vdb_box *box, vdb_coord *at, int64_t *value, int32_t *found);
VDB_CODE vdb_grid_next_active(vdb_grid *grid, const vdb_box *box, vdb_coord *at, int64_t *value, int32_t *found);

/* ---- The leaves of a grid -------------------------------------------------------------------------------------------- */

/* Returns the number of leaves of the grid's tree. It depends on how the cells were written. After vdb_grid_prune it equals `leaf` of
 * the census. */
VDB_CODE vdb_grid_leaf_count(vdb_grid *grid, uint64_t *count);

/* Copies leaves in block order, at most as many as `origins` has elements: the first ones, or those whose least corner lies past a
 * coordinate, such as the last origin of the previous call. Sets *copied to their number, 0 if none is left. Tiles aren't leaves.
 *
 * Element k of `origins` becomes the least corner of leaf k. A voxel of the leaf is dx, dy and dz past it, each 0 to 7. Its value is
 * element 512 k + 64 dx + 8 dy + dz of `values`. Its state is bit 8 dy + dz of word 8 k + dx of `states`, where bit j counts 2^j.
 * No element past those of the copied leaves changes. Pass length 0 to omit an array; its pointer must still not be null.
 * VDB_RANGE: `origins` has no element, or `values` has neither 512 times as many nor 0, or `states` neither 8 times as many nor 0.
 *
 *     for (code = vdb_grid_first_leaves(g, at, 64, values, 64 * 512, states, 64 * 8, &n); !code && n;
 *          code = vdb_grid_next_leaves(g, at[n - 1].x, at[n - 1].y, at[n - 1].z, at, 64, values, 64 * 512, states, 64 * 8, &n))
 *         ...
 */
VDB_CODE vdb_grid_first_leaves(vdb_grid *grid, vdb_coord *origins, size_t count, int64_t *values, size_t values_len, uint64_t *states,
                               size_t states_len, size_t *copied);
VDB_CODE vdb_grid_next_leaves(vdb_grid *grid, int32_t x, int32_t y, int32_t z, vdb_coord *origins, size_t count, int64_t *values,
                              size_t values_len, uint64_t *states, size_t states_len, size_t *copied);

/* Copies parts in block order, at most `count`: the leaves of the grid's tree, and its tiles other than those of the inactive background. They
 * are the first ones, or those with a voxel past a coordinate, such as the greatest corner of the last part of the previous call. Sets
 * *copied to their number, 0 if none is left. Each voxel past the coordinate lies in one part, or is the inactive background. No element
 * past those of the copied parts changes.
 *
 *     for (code = vdb_grid_first_parts(g, parts, 64, &n); !code && n;
 *          code = vdb_grid_next_parts(g, parts[n - 1].box.max.x, parts[n - 1].box.max.y, parts[n - 1].box.max.z, parts, 64, &n))
 *         ...
 */
VDB_CODE vdb_grid_first_parts(vdb_grid *grid, vdb_part *parts, size_t count, size_t *copied);
VDB_CODE vdb_grid_next_parts(vdb_grid *grid, int32_t x, int32_t y, int32_t z, vdb_part *parts, size_t count, size_t *copied);

/* ---- Many voxels of a grid at once ---------------------------------------------------------------------------------- */

/* Values (int64_t) and states (uint8_t) are arrays with lengths of their own, in elements. Pass length 0 to omit an array: that part
 * isn't read, or the voxels keep it. Its pointer must still not be null. */

/* Copies the value and the state of each voxel of `at` to the element of the same index, through an accessor or without one.
 * VDB_RANGE: no such accessor, or the length of an array is neither `count` nor 0. */
VDB_CODE vdb_grid_get_many(vdb_grid *grid, int32_t accessor, const vdb_coord *at, size_t count, int64_t *values, size_t values_len,
                           uint8_t *states, size_t states_len);

/* Sets each voxel of `at` to the value and the state of the same index, one after another, through an accessor or without one.
 * VDB_RANGE: no such accessor, a value outside the type, the length of an array is neither `count` nor 0, or both are 0 and `count`
 * isn't. Nothing has changed after it. VDB_ROOT_LIMIT, VDB_MEMORY: the voxel at index *written failed, and those before it are set. After
 * VDB_OK, *written is `count`. */
VDB_CODE vdb_grid_write_many(vdb_grid *grid, int32_t accessor, const vdb_coord *at, size_t count, const int64_t *values,
                             size_t values_len, const uint8_t *states, size_t states_len, size_t *written);

/* Copies the value and the state of each voxel of a box to its element. No other element changes. It reads the tree tile by tile and
 * leaf by leaf, and allocates nothing.
 * VDB_RANGE: corners out of order, strides whose axes aren't nested, or an array that is neither of length 0 nor long enough. */
VDB_CODE vdb_grid_read_box(vdb_grid *grid, const vdb_box *box, const vdb_strides *strides, int64_t *values, size_t values_len,
                           uint8_t *states, size_t states_len);

/* Copies the value, in its own type, and the state of each voxel of a box to its element, as vdb_grid_read_box does: of a grid of booleans,
 * 1 for true and 0 for false, or of numbers of 32 bits. VDB_RANGE, as there. VDB_KINDS: the grid's values have another type. */
VDB_CODE vdb_grid_read_box_bool(vdb_grid *grid, const vdb_box *box, const vdb_strides *strides, uint8_t *values, size_t values_len,
                                uint8_t *states, size_t states_len);
VDB_CODE vdb_grid_read_box_i32(vdb_grid *grid, const vdb_box *box, const vdb_strides *strides, int32_t *values, size_t values_len,
                               uint8_t *states, size_t states_len);

/* Sets each voxel of a box to the value and the state of its element, by x, then y, then z, through an accessor or without one. A box
 * of at least 8 voxels along each axis takes the least time: it is written leaf by leaf.
 * VDB_RANGE: no such accessor, corners out of order, or strides whose axes aren't nested; an array that is neither of length 0 nor
 * long enough, both of length 0, or a value outside the type. Nothing has changed after it. VDB_ROOT_LIMIT, VDB_MEMORY: the first *written
 * voxels of the box in that order are set, and the one after them failed. After VDB_OK, *written is the number of voxels of the box. */
VDB_CODE vdb_grid_write_box(vdb_grid *grid, int32_t accessor, const vdb_box *box, const vdb_strides *strides, const int64_t *values,
                            size_t values_len, const uint8_t *states, size_t states_len, size_t *written);

/* Creates a grid from an array, in one pass over it: each voxel of a box has the value of its element, and is active unless this is the
 * background. Every other voxel has the background, inactive. Elements of type bool make a grid of type VDB_BOOL (true unless the byte is 0),
 * i64 make VDB_I64, and all others VDB_I32. The tree is then the smallest one, as after vdb_grid_prune. It replaces the handle's grid, which
 * stays if the call fails.
 * VDB_RANGE: a background outside the type, a limit outside 1 to 65,536, corners out of order, strides whose axes aren't nested, or an
 * array that isn't long enough. VDB_ROOT_LIMIT. VDB_MEMORY, also where more memory would have led to VDB_ROOT_LIMIT. */
VDB_CODE vdb_grid_from_box_bool(vdb_grid *grid, int64_t background, uint32_t limit, const vdb_box *box, const vdb_strides *strides,
                                const uint8_t *values, size_t values_len);
VDB_CODE vdb_grid_from_box_u8(vdb_grid *grid, int64_t background, uint32_t limit, const vdb_box *box, const vdb_strides *strides,
                              const uint8_t *values, size_t values_len);
VDB_CODE vdb_grid_from_box_i16(vdb_grid *grid, int64_t background, uint32_t limit, const vdb_box *box, const vdb_strides *strides,
                               const int16_t *values, size_t values_len);
VDB_CODE vdb_grid_from_box_u16(vdb_grid *grid, int64_t background, uint32_t limit, const vdb_box *box, const vdb_strides *strides,
                               const uint16_t *values, size_t values_len);
VDB_CODE vdb_grid_from_box_i32(vdb_grid *grid, int64_t background, uint32_t limit, const vdb_box *box, const vdb_strides *strides,
                               const int32_t *values, size_t values_len);
VDB_CODE vdb_grid_from_box_i64(vdb_grid *grid, int64_t background, uint32_t limit, const vdb_box *box, const vdb_strides *strides,
                               const int64_t *values, size_t values_len);

/* ---- A view ---------------------------------------------------------------------------------------------------------- */

/* A view is a grid that several threads read at the same time, each through a handle of its own. No call changes the grid. */

/* Moves the grid out of its handle into a new view, which replaces the other handle's view. No cell is copied. VDB_MEMORY. */
VDB_CODE vdb_view_new(vdb_grid *grid, vdb_view *view);

/* Makes another view of the same grid, for another thread. It replaces the other handle's view. VDB_SAME_GRID. VDB_MEMORY. */
VDB_CODE vdb_view_share(vdb_view *from, vdb_view *to);

/* Copies the grid of a view, which replaces the grid of the other handle. The accessors of the copy are empty. VDB_MEMORY. */
VDB_CODE vdb_view_copy(vdb_view *from, vdb_grid *to);

/* Moves the grid of a view back into a handle, whose grid it replaces. The view's handle is then empty. No cell is copied, and it allocates
 * nothing. VDB_RANGE: this isn't the last view of the grid. */
VDB_CODE vdb_view_take(vdb_view *view, vdb_grid *grid);

/* Frees the handle's view, if it has one, and leaves the handle empty. The last view of a grid frees the grid. */
VDB_NONNULL void vdb_view_free(vdb_view *view);

/* Returns the value and the state of a voxel, from the root. */
VDB_CODE vdb_view_get(vdb_view *view, int32_t x, int32_t y, int32_t z, int64_t *value, int32_t *active);

/* Copies the values and the states of many voxels, or of a box, to arrays, as vdb_grid_get_many and the calls vdb_grid_read_box do, with
 * the same codes. */
VDB_CODE vdb_view_get_many(vdb_view *view, const vdb_coord *at, size_t count, int64_t *values, size_t values_len, uint8_t *states,
                           size_t states_len);
VDB_CODE vdb_view_read_box(vdb_view *view, const vdb_box *box, const vdb_strides *strides, int64_t *values, size_t values_len,
                           uint8_t *states, size_t states_len);
VDB_CODE vdb_view_read_box_bool(vdb_view *view, const vdb_box *box, const vdb_strides *strides, uint8_t *values, size_t values_len,
                                uint8_t *states, size_t states_len);
VDB_CODE vdb_view_read_box_i32(vdb_view *view, const vdb_box *box, const vdb_strides *strides, int32_t *values, size_t values_len,
                               uint8_t *states, size_t states_len);

/* Returns what the call of the same name for a grid returns, with the same codes. */
VDB_CODE vdb_view_kind(vdb_view *view, int32_t *kind);
VDB_CODE vdb_view_background(vdb_view *view, int64_t *value);
VDB_CODE vdb_view_limit(vdb_view *view, uint32_t *limit);
VDB_CODE vdb_view_count(vdb_view *view, vdb_count *count);
VDB_CODE vdb_view_count_in(vdb_view *view, const vdb_box *box, vdb_count *count);
VDB_CODE vdb_view_bounds(vdb_view *view, vdb_box *box, int32_t *found);
VDB_CODE vdb_view_census(vdb_view *view, vdb_census *census);
VDB_CODE vdb_view_first_active(vdb_view *view, const vdb_box *box, vdb_coord *at, int64_t *value, int32_t *found);
VDB_CODE vdb_view_next_active(vdb_view *view, const vdb_box *box, vdb_coord *at, int64_t *value, int32_t *found);
VDB_CODE vdb_view_leaf_count(vdb_view *view, uint64_t *count);
VDB_CODE vdb_view_first_leaves(vdb_view *view, vdb_coord *origins, size_t count, int64_t *values, size_t values_len, uint64_t *states,
                               size_t states_len, size_t *copied);
VDB_CODE vdb_view_next_leaves(vdb_view *view, int32_t x, int32_t y, int32_t z, vdb_coord *origins, size_t count, int64_t *values,
                              size_t values_len, uint64_t *states, size_t states_len, size_t *copied);
VDB_CODE vdb_view_first_parts(vdb_view *view, vdb_part *parts, size_t count, size_t *copied);
VDB_CODE vdb_view_next_parts(vdb_view *view, int32_t x, int32_t y, int32_t z, vdb_part *parts, size_t count, size_t *copied);

/* ---- A scene -------------------------------------------------------------------------------------------------------- */

/* A name, a key or a text is an array of bytes and its length. No 0 ends it. VDB_NAME: a name or a key isn't a letter a to z and
 * then up to 15 of a to z, 0 to 9 and _. */

/* Creates a scene without grids. It replaces the handle's scene. VDB_MEMORY. */
VDB_CODE vdb_scene_new(vdb_scene *scene);

/* Frees the handle's scene with its grids, if it has one, and leaves the handle empty. */
VDB_NONNULL void vdb_scene_free(vdb_scene *scene);

/* Creates a scene from the bytes of a scene file. It replaces the handle's scene. VDB_FILE_..: the first fault of the file; which
 * fault inside a grid comes first is tested, not proved. VDB_MEMORY. */
VDB_CODE vdb_scene_load(vdb_scene *scene, const uint8_t *bytes, size_t len);

/* Returns the length of the scene's file in bytes. A file has at most 268,435,456. */
VDB_CODE vdb_scene_length(vdb_scene *scene, uint64_t *length);

/* Writes the scene's file into a buffer of `len` bytes, and returns its length. VDB_FILE_TOO_LONG. VDB_BUFFER. VDB_MEMORY. */
VDB_CODE vdb_scene_save(vdb_scene *scene, uint8_t *bytes, size_t len, uint64_t *written);

/* Returns the number of grids. */
VDB_CODE vdb_scene_count(vdb_scene *scene, uint64_t *count);

/* Returns the name of a grid and its length, by the index of the grid in order of names. VDB_NO_GRID. VDB_BUFFER: VDB_NAME_MOST
 * bytes are always enough. */
VDB_CODE vdb_scene_name(vdb_scene *scene, size_t index, char *out, size_t room, uint64_t *used);

/* Moves a grid into the scene under a new name, and leaves its handle empty. VDB_NAME. VDB_NAME_TAKEN. VDB_GRID_LIMIT. VDB_MEMORY. */
VDB_CODE vdb_scene_put(vdb_scene *scene, const char *name, size_t len, vdb_grid *grid);

/* Moves a grid out of the scene, and replaces the grid of the handle by it. Its metadata are lost. VDB_NAME. VDB_NO_GRID.
 * VDB_MEMORY. */
VDB_CODE vdb_scene_take(vdb_scene *scene, const char *name, size_t len, vdb_grid *grid);

/* Exchanges a grid of the scene with that of the handle, which may have another type. The metadata stay in the scene. It allocates
 * nothing, so a second call that exchanges them back can't fail. VDB_NAME. VDB_NO_GRID. */
VDB_CODE vdb_scene_swap(vdb_scene *scene, const char *name, size_t len, vdb_grid *grid);

/* Copies a grid of the scene, and replaces the grid of the handle by it. VDB_NAME. VDB_NO_GRID. VDB_MEMORY. */
VDB_CODE vdb_scene_copy(vdb_scene *scene, const char *name, size_t len, vdb_grid *grid);

/* Returns the number of metadata pairs of a grid. VDB_NAME. VDB_NO_GRID. */
VDB_CODE vdb_scene_meta_count(vdb_scene *scene, const char *name, size_t len, uint64_t *count);

/* Returns the key of a metadata pair, or its text, and the length, by the index of the pair in order of keys. VDB_NAME. VDB_NO_GRID.
 * VDB_NO_META. VDB_BUFFER: VDB_NAME_MOST bytes are always enough for a key, VDB_TEXT_MOST for a text. */
VDB_CODE vdb_scene_meta_key(vdb_scene *scene, const char *name, size_t len, size_t index, char *out, size_t room, uint64_t *used);
VDB_CODE vdb_scene_meta_text(vdb_scene *scene, const char *name, size_t len, size_t index, char *out, size_t room, uint64_t *used);

/* Sets the text of a key. VDB_NAME. VDB_NO_GRID. VDB_TEXT: not 1 to 64 printable ASCII characters without spaces. VDB_META_LIMIT.
 * VDB_MEMORY. */
VDB_CODE vdb_scene_meta_set(vdb_scene *scene, const char *name, size_t len, const char *key, size_t key_len, const char *text,
                            size_t text_len);

/* Removes a metadata pair, if the grid has the key. VDB_NAME. VDB_NO_GRID. */
VDB_CODE vdb_scene_meta_remove(vdb_scene *scene, const char *name, size_t len, const char *key, size_t key_len);

/* ---- The test of two handles ----------------------------------------------------------------------------------------- */

/* The library assumes that two handles differ. So each of these names is a macro for a test followed by the call. */
#define VDB_OF_TWO(call, handle)                                                                                                \
    static inline VDB_CODE call##_of_two(handle *first, handle *second)                                                         \
    {                                                                                                                           \
        return first == second ? VDB_SAME_GRID : call(first, second);                                                           \
    }
VDB_OF_TWO(vdb_grid_copy, vdb_grid)
VDB_OF_TWO(vdb_grid_unite, vdb_grid)
VDB_OF_TWO(vdb_grid_subtract, vdb_grid)
VDB_OF_TWO(vdb_grid_intersect, vdb_grid)
VDB_OF_TWO(vdb_grid_maximum, vdb_grid)
VDB_OF_TWO(vdb_grid_minimum, vdb_grid)
VDB_OF_TWO(vdb_grid_sum, vdb_grid)
VDB_OF_TWO(vdb_grid_replace, vdb_grid)
VDB_OF_TWO(vdb_view_share, vdb_view)
#undef VDB_OF_TWO
static inline VDB_CODE vdb_grid_equal_of_two(vdb_grid *first, vdb_grid *second, int32_t *equal)
{
    return first == second ? VDB_SAME_GRID : vdb_grid_equal(first, second, equal);
}
#define vdb_grid_copy vdb_grid_copy_of_two
#define vdb_grid_unite vdb_grid_unite_of_two
#define vdb_grid_subtract vdb_grid_subtract_of_two
#define vdb_grid_intersect vdb_grid_intersect_of_two
#define vdb_grid_maximum vdb_grid_maximum_of_two
#define vdb_grid_minimum vdb_grid_minimum_of_two
#define vdb_grid_sum vdb_grid_sum_of_two
#define vdb_grid_replace vdb_grid_replace_of_two
#define vdb_view_share vdb_view_share_of_two
#define vdb_grid_equal vdb_grid_equal_of_two

#ifdef __cplusplus
}
#endif

#endif
