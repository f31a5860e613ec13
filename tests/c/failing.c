/* SPDX-License-Identifier: Apache-2.0 */
/* Makes an allocation of libvdb fail, and counts the blocks that it holds. The linker puts these calls in place of malloc,
 * realloc and free (--wrap), in the library alone. */
#include <stddef.h>

void *__real_malloc(size_t size);
void *__real_realloc(void *old, size_t size);
void __real_free(void *old);

/* The allocation that fails, counted down; 0: none. Then how many have failed, and how many blocks are held. */
long test_fail_in, test_failed, test_held;

static int fails(void)
{
    if (test_fail_in == 0 || --test_fail_in > 0)
        return 0;
    test_failed++;
    return 1;
}

void *__wrap_malloc(size_t size)
{
    void *made = fails() ? NULL : __real_malloc(size);
    test_held += made != NULL;
    return made;
}

void *__wrap_realloc(void *old, size_t size)
{
    void *made = fails() ? NULL : __real_realloc(old, size);
    test_held += made != NULL && old == NULL;
    return made;
}

void __wrap_free(void *old)
{
    test_held -= old != NULL;
    __real_free(old);
}
