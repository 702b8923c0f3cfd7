// Refuses the request for memory whose number REFUSE_NTH gives, and then makes the file REFUSE_MARK.
#define _GNU_SOURCE
#include <errno.h>
#include <fcntl.h>
#include <stdlib.h>
#include <unistd.h>
static unsigned long asked;
static int refused(void) {
    const char *nth = getenv("REFUSE_NTH");
    if (nth == NULL || ++asked != strtoul(nth, NULL, 10)) return 0;
    int mark = open(getenv("REFUSE_MARK"), O_CREAT | O_WRONLY, 0600);
    if (mark >= 0) close(mark);
    errno = ENOMEM;
    return 1;
}
extern void *__libc_malloc(size_t), *__libc_realloc(void *, size_t), *__libc_calloc(size_t, size_t);
void *malloc(size_t n) { return refused() ? NULL : __libc_malloc(n); }
void *realloc(void *p, size_t n) { return refused() ? NULL : __libc_realloc(p, n); }
void *calloc(size_t m, size_t n) { return refused() ? NULL : __libc_calloc(m, n); }
