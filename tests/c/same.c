/* SPDX-License-Identifier: Apache-2.0 */
/* Calls on two handles that are the same one: each returns VDB_SAME_GRID, and the grid or view stays. C and C++. The status is the number
 * of the first check that fails, or 0. */
#include <stddef.h>
#include <string.h>
#include <vdb.h>

typedef int32_t (*pair_call)(vdb_grid *, vdb_grid *);

int main(void)
{
    static const pair_call calls[] = {vdb_grid_copy, vdb_grid_unite, vdb_grid_subtract, vdb_grid_intersect, vdb_grid_maximum, vdb_grid_minimum, vdb_grid_sum, vdb_grid_replace};
    vdb_grid grid = VDB_GRID_INIT, other = VDB_GRID_INIT;
    vdb_view view = VDB_VIEW_INIT, second = VDB_VIEW_INIT;
    int64_t value = 0;
    int32_t active = 0;
    size_t it;
    if (vdb_grid_unite(&grid, &grid) != VDB_SAME_GRID || vdb_grid_unite(&grid, &other) != VDB_EMPTY || vdb_view_share(&view, &view) != VDB_SAME_GRID)
        return 1;
    if (vdb_grid_new(&grid, VDB_I32, 3, VDB_LIMIT_DEFAULT) || vdb_grid_set(&grid, VDB_NO_ACCESSOR, 1, 2, 3, 5, 1))
        return 2;
    for (it = 0; it < sizeof calls / sizeof *calls; it++) {
        const vdb_grid before = grid;
        if (calls[it](&grid, &grid) != VDB_SAME_GRID || memcmp(&before, &grid, sizeof grid))
            return 10 + (int)it;
        if (vdb_grid_get(&grid, 1, 2, 3, &value, &active) || value != 5 || !active)
            return 30 + (int)it;
    }
    if (vdb_grid_equal(&grid, &grid, &active) != VDB_SAME_GRID || !active || vdb_grid_copy(&grid, &other) || vdb_grid_equal(&grid, &other, &active) || active != 1)
        return 7;
    if (vdb_grid_copy(&grid, &other) || vdb_grid_sum(&grid, &other) || vdb_grid_get(&grid, 1, 2, 3, &value, &active) || value != 10)
        return 3;
    if (vdb_view_new(&grid, &view) || vdb_view_share(&view, &view) != VDB_SAME_GRID || vdb_view_share(&view, &second))
        return 4;
    if (vdb_view_get(&second, 1, 2, 3, &value, &active) || value != 10 || vdb_view_get(&view, 0, 0, 0, &value, &active) || value != 6)
        return 5;
    vdb_view_free(&view);
    vdb_view_free(&second);
    vdb_grid_free(&other);
    return strcmp(vdb_message(VDB_SAME_GRID), "both handles of the call are the same") || strcmp(vdb_message(-1), "unknown code") ? 6 : 0;
}
