/* Refuses threads to a program that is started with this library in LD_PRELOAD, as a host does that has
   no more. bench together compiles it and starts the program.

   THREADS says how many threads the program gets beside its first one; all that it asks for later are
   refused. For each of these a byte goes to the descriptor THREADS_TELL. */
#define _GNU_SOURCE
#include <dlfcn.h>
#include <errno.h>
#include <pthread.h>
#include <stdatomic.h>
#include <stdlib.h>
#include <unistd.h>

static atomic_long asked;

int pthread_create(pthread_t *thread, const pthread_attr_t *how, void *(*run)(void *), void *given)
{
	const char *threads = getenv("THREADS"), *tell = getenv("THREADS_TELL");
	if (threads != NULL && atomic_fetch_add(&asked, 1) >= atol(threads)) {
		if (tell != NULL && write(atoi(tell), "r", 1) != 1)
			_exit(126);
		return EAGAIN;
	}
	int (*next)(pthread_t *, const pthread_attr_t *, void *(*)(void *), void *);
	*(void **)&next = dlsym(RTLD_NEXT, "pthread_create");
	return next(thread, how, run, given);
}
