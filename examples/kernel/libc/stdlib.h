/* SPDX-License-Identifier: GPL-2.0 */
#include <linux/slab.h>

#define realloc(pointer, size) krealloc(pointer, size, GFP_KERNEL)
#define free(pointer) kfree(pointer)
