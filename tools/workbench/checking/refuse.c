/* Counts the allocations of a program that is started with this library in LD_PRELOAD, and refuses
   some. guests/refuse compiles it and starts the program.

   An allocation is a call of malloc, calloc, realloc, aligned_alloc, posix_memalign, memalign, mmap
   or pthread_create. REFUSE has the numbers of the first and the last that are refused, from 1 on, as
   in "7 7". At the program's end a line goes to the descriptor REFUSE_TELL: how many allocations there
   were, how many were refused, and how many pieces of memory more were taken than given back. */
#define _GNU_SOURCE
#include <dlfcn.h>
#include <errno.h>
#include <pthread.h>
#include <stdatomic.h>
#include <stdio.h>
#include <stdlib.h>
#include <sys/mman.h>
#include <sys/syscall.h>
#include <unistd.h>

void *__libc_malloc(size_t);
void *__libc_calloc(size_t, size_t);
void *__libc_realloc(void *, size_t);
void *__libc_memalign(size_t, size_t);
void __libc_free(void *);

static atomic_ulong calls, refusals;
static atomic_long pieces;
static unsigned long first, last;

static int refused(void) {
	unsigned long call = ++calls;
	if (call < first || call > last)
		return 0;
	refusals++;
	errno = ENOMEM;
	return 1;
}

/* Counts a piece of memory that was given. */
static void *given(void *piece) {
	pieces += piece != NULL;
	return piece;
}

void *malloc(size_t size) {
	return refused() ? NULL : given(__libc_malloc(size));
}

void *calloc(size_t count, size_t size) {
	return refused() ? NULL : given(__libc_calloc(count, size));
}

void *realloc(void *piece, size_t size) {
	if (refused())
		return NULL;
	void *moved = __libc_realloc(piece, size);
	if (piece == NULL)
		given(moved);
	return moved;
}

void *memalign(size_t alignment, size_t size) {
	return refused() ? NULL : given(__libc_memalign(alignment, size));
}

void *aligned_alloc(size_t alignment, size_t size) {
	return memalign(alignment, size);
}

int posix_memalign(void **piece, size_t alignment, size_t size) {
	int before = errno;
	void *made = memalign(alignment, size);
	errno = before;
	if (made == NULL)
		return ENOMEM;
	*piece = made;
	return 0;
}

void free(void *piece) {
	pieces -= piece != NULL;
	__libc_free(piece);
}

void *mmap(void *address, size_t size, int protection, int flags, int file, off_t at) {
	static void *(*next)(void *, size_t, int, int, int, off_t);
	if (next == NULL)
		next = dlsym(RTLD_NEXT, "mmap");
	return refused() ? MAP_FAILED : next(address, size, protection, flags, file, at);
}

int pthread_create(pthread_t *thread, const pthread_attr_t *how, void *(*run)(void *), void *given) {
	static int (*next)(pthread_t *, const pthread_attr_t *, void *(*)(void *), void *);
	if (next == NULL)
		next = dlsym(RTLD_NEXT, "pthread_create");
	return refused() ? EAGAIN : next(thread, how, run, given);
}

__attribute__((constructor)) static void begin(void) {
	const char *numbers = getenv("REFUSE");
	calls = 0;
	pieces = 0;
	if (numbers != NULL && sscanf(numbers, "%lu %lu", &first, &last) != 2)
		last = 0;
}

/* Says the counts, once. */
__attribute__((destructor)) static void tell(void) {
	const char *to = getenv("REFUSE_TELL");
	unsigned long counted = calls, were_refused = refusals;
	long kept = pieces;
	static atomic_flag told = ATOMIC_FLAG_INIT;
	last = 0;
	if (to != NULL && !atomic_flag_test_and_set(&told))
		dprintf(atoi(to), "%lu %lu %ld\n", counted, were_refused, kept);
}

void _exit(int status) {
	tell();
	syscall(SYS_exit_group, status);
	__builtin_unreachable();
}
