// Put before the C library: no thread can be started, so that the caller does all work itself, as in the page.
int pthread_create(void *thread, void *with, void *work, void *value) { return 11; }
