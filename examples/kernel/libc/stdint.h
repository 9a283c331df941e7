/* SPDX-License-Identifier: GPL-2.0 */
#include <linux/limits.h>
#include <linux/types.h>

#define INT64_MAX S64_MAX
#define UINT32_MAX U32_MAX
#define UINT64_MAX U64_MAX
