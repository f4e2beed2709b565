/* Threads and time of a host, which are tasks and the clock of the world. It is included before all else of the host. */
#ifndef HOST_H
#define HOST_H

#include <pthread.h>
#include <time.h>
#include <unistd.h>

int host_thread_create(pthread_t *thread, const pthread_attr_t *attributes, void *(*run)(void *argument), void *argument);
int host_thread_join(pthread_t thread, void **result);
int host_sleep(useconds_t microseconds);
int host_main(void);

#define pthread_create host_thread_create
#define pthread_join host_thread_join
#define usleep host_sleep
#define main host_main

#endif
