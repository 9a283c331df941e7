/* random_bytes: prints random bytes by all calls, those of a child, and what the kernel gives a program
 * when it starts. Then prints a line for each result that is wrong. Ends with their number. */
#define _GNU_SOURCE
#include <errno.h>
#include <fcntl.h>
#include <stdio.h>
#include <string.h>
#include <sys/auxv.h>
#include <sys/mman.h>
#include <sys/random.h>
#include <sys/syscall.h>
#include <sys/uio.h>
#include <sys/wait.h>
#include <unistd.h>

#include "faults.h"

#undef fread_unlocked /* its macro reads the buffer without a call */

static void *volatile nowhere = (void *)16;
static size_t (*volatile read_unlocked)(void *, size_t, size_t, FILE *) = fread_unlocked;

static void show(const char *name, const void *bytes, size_t size)
{
	const unsigned char *byte = bytes;

	printf("%s ", name);
	for (size_t i = 0; i < size; i++)
		printf("%02x", byte[i]);
	puts("");
	fflush(stdout);
}

static void show_file(const char *path)
{
	char bytes[24] = { 0 };
	struct iovec parts[2] = { { bytes, 5 }, { bytes + 9, 7 } };
	int file = open(path, O_RDONLY), copy = dup(file), none = open(path, O_WRONLY);
	FILE *stream = fopen(path, "r");

	CHECK(read(file, bytes, 19) == 19);
	show("read", bytes, 19);
	CHECK(pread(copy, bytes, 9, 100) == 9);
	show("pread", bytes, 9);
	memset(bytes, 0, sizeof(bytes));
	CHECK(readv(file, parts, 2) == 12);
	CHECK(!memcmp(bytes + 5, "\0\0\0\0", 4));
	show("readv", bytes, 16);
	CHECK(fread(bytes, 4, 3, stream) == 3);
	show("fread", bytes, 12);
	CHECK(read_unlocked(bytes, 1, 3, stream) == 3);
	show("fread_unlocked", bytes, 3);
	for (int i = 0; i < 8; i++)
		bytes[i] = (char)(i % 2 ? fgetc(stream) : getc(stream));
	show("fgetc", bytes, 8);
	errno = 0;
	CHECK(read(none, bytes, 1) == -1 && errno == EBADF);
	CHECK(read(-1, bytes, 1) == -1 && errno == EBADF);
	CHECK(read(file, NULL, 0) == 0);
	CHECK(read(file, nowhere, 1) == -1 && errno == EFAULT);
	fclose(stream);
	close(file);
	close(copy);
	close(none);
}

/* Bytes of other files aren't replaced. */
static void check_other_files(void)
{
	FILE *stream = fopen("/dev/zero", "r");
	char bytes[9] = "xxxxxxxx";
	int ends[2];

	CHECK(fread(bytes, 1, 4, stream) == 4 && !memcmp(bytes, "\0\0\0\0xxxx", 8));
	CHECK(fgetc(stream) == 0);
	CHECK(!pipe(ends) && write(ends[1], "abcdef", 6) == 6);
	CHECK(read(ends[0], bytes, 3) == 3 && !memcmp(bytes, "abc", 3));
	fclose(stream);
	stream = fopen("/dev/null", "r");
	CHECK(fgetc(stream) == EOF && fread(bytes, 1, 1, stream) == 0);
}

static void check_getrandom(void)
{
	static char large[300000];
	char bytes[8] = "xxxxxxx", *edge = mmap(NULL, 8192, PROT_READ, MAP_PRIVATE | MAP_ANONYMOUS,
						 -1, 0);
	ssize_t size;

	for (unsigned int flags = 0; flags < 10; flags++) {
		errno = 0;
		if (flags > 7 || (flags & 6) == 6)
			CHECK(getrandom(bytes, 8, flags) == -1 && errno == EINVAL);
		else
			CHECK(getrandom(bytes, 8, flags) == 8);
	}
	CHECK(getrandom(bytes, 3, 0) == 3);
	CHECK(getrandom(NULL, 0, 0) == 0);
	CHECK(getrandom(nowhere, 8, 0) == -1 && errno == EFAULT);
	CHECK(getrandom(edge, 8, 0) == -1 && errno == EFAULT); /* it can't be written */
	size = getrandom(large, sizeof(large), 0);
	CHECK(size > 256 && size <= (ssize_t)sizeof(large));
	for (ssize_t i = 0; i + 64 < size; i += 64) /* none of it is left out */
		CHECK(memcmp(large + i, large + i + 64, 32));
	CHECK(size == (ssize_t)sizeof(large) || !large[size]);
	CHECK(!getentropy(bytes, 8));
	show("getentropy", bytes, 8);
	CHECK(syscall(SYS_getrandom, bytes, 8, 0) == 8);
	show("syscall", bytes, 8);
}

int main(void)
{
	char bytes[16];
	int status;

	if (getrandom(bytes, sizeof(bytes), 0) != sizeof(bytes))
		return 100;
	show("getrandom", bytes, sizeof(bytes));
	show("start", (const void *)getauxval(AT_RANDOM), 16);
	show_file("/dev/urandom");
	show_file("/dev/random");
	if (!fork()) {
		CHECK(getrandom(bytes, sizeof(bytes), 0) == sizeof(bytes));
		show("child", bytes, sizeof(bytes));
		_exit(faults);
	}
	wait(&status);
	CHECK(!status);
	check_getrandom();
	check_other_files();
	printf("places %p %p %p\n", (void *)bytes, (void *)main, (void *)puts);
	printf("numbers %d %d\n", (int)getpid(), (int)getppid());
	return faults;
}
