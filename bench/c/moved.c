/* SPDX-License-Identifier: MIT OR Apache-2.0 */
/* Moves the code that is linked after it by MOVED bytes. */
#define TEXT(number) #number
#define TEXT_OF(name) TEXT(name)

__asm__(".text\n\t.skip " TEXT_OF(MOVED) "\n");
