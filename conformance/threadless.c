/* Preloaded, it lets a program make no thread. */
#include <errno.h>
#include <pthread.h>

int pthread_create(pthread_t *thread, const pthread_attr_t *form, void *(*run)(void *), void *with) {
    (void)thread, (void)form, (void)run, (void)with;
    return EAGAIN;
}
