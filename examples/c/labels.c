/* SPDX-License-Identifier: Apache-2.0 */
/* Makes a margin, the voxels up to two from an organ without the organ and a vessel: labels INPUT OUTPUT
 *
 * INPUT is a scene file with the grids `organ` and `vessel`. OUTPUT is a new file: the same with a third grid `margin`. */
#include <stdio.h>
#include <stdlib.h>
#include <string.h>

#include "vdb.h"

/* Prints the error of a file, and ends the program. */
static void fail(const char *path)
{
    perror(path);
    exit(1);
}

static int32_t load(vdb_scene *scene, const char *path)
{
    FILE *file = fopen(path, "rb");
    uint8_t *bytes = malloc(VDB_FILE_MOST);
    size_t length = 0;
    int32_t code = VDB_MEMORY;
    if (!file)
        fail(path);
    if (bytes) {
        length = fread(bytes, 1, VDB_FILE_MOST, file);
        if (ferror(file))
            fail(path);
        code = vdb_scene_load(scene, bytes, length);
    }
    free(bytes);
    fclose(file);
    return code;
}

static int32_t save(vdb_scene *scene, const char *path)
{
    uint64_t length = 0;
    uint8_t *bytes = calloc(VDB_FILE_MOST, 1);
    int32_t code = bytes ? vdb_scene_save(scene, bytes, VDB_FILE_MOST, &length) : VDB_MEMORY;
    if (!code) {
        FILE *file = fopen(path, "wbx"); /* x: an existing file isn't overwritten */
        if (!file || fwrite(bytes, 1, length, file) != length || fclose(file) != 0)
            fail(path);
    }
    free(bytes);
    return code;
}

/* Prints the number of active voxels, their bounding box and their centre. */
static int32_t report(vdb_grid *grid)
{
    vdb_box box = VDB_EVERYWHERE;
    vdb_count count = {0, 0};
    vdb_coord at = {0, 0, 0};
    int64_t value = 0;
    int32_t found = 0;
    double x = 0, y = 0, z = 0;
    int32_t code = vdb_grid_count(grid, &count);
    if (!code)
        code = vdb_grid_bounds(grid, &box, &found);
    if (code)
        return code;
    for (code = vdb_grid_first_active(grid, &box, &at, &value, &found); !code && found;
         code = vdb_grid_next_active(grid, &box, &at, &value, &found)) {
        x += at.x;
        y += at.y;
        z += at.z;
    }
    printf("%llu voxels from %d %d %d to %d %d %d", (unsigned long long)count.low, box.min.x, box.min.y, box.min.z, box.max.x, box.max.y,
           box.max.z);
    printf(", centre %.2f %.2f %.2f\n", x / count.low, y / count.low, z / count.low);
    return code;
}

/* Puts the grid `margin` into the scene. */
static int32_t make_margin(vdb_scene *scene)
{
    vdb_grid organ = VDB_GRID_INIT, vessel = VDB_GRID_INIT, margin = VDB_GRID_INIT;
    int32_t code = vdb_scene_copy(scene, "organ", strlen("organ"), &organ);
    if (!code)
        code = vdb_scene_copy(scene, "vessel", strlen("vessel"), &vessel);
    if (!code)
        code = vdb_grid_copy(&organ, &margin);
    if (!code)
        code = vdb_grid_dilate(&margin, 2);
    if (!code)
        code = vdb_grid_subtract(&margin, &organ);
    if (!code)
        code = vdb_grid_subtract(&margin, &vessel);
    if (!code)
        code = report(&margin);
    if (!code)
        code = vdb_scene_put(scene, "margin", strlen("margin"), &margin);
    vdb_grid_free(&organ);
    vdb_grid_free(&vessel);
    vdb_grid_free(&margin);
    return code;
}

int main(int argc, char **argv)
{
    vdb_scene scene = VDB_SCENE_INIT;
    int32_t code;
    if (argc != 3) {
        fprintf(stderr, "usage: labels INPUT OUTPUT\n");
        return 2;
    }
    code = load(&scene, argv[1]);
    if (!code)
        code = make_margin(&scene);
    if (!code)
        code = save(&scene, argv[2]);
    if (code)
        fprintf(stderr, "labels: %s: %s\n", argv[1], vdb_message(code));
    vdb_scene_free(&scene);
    return code != VDB_OK;
}
