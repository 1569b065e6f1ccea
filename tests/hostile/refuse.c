/* Preloaded into the program: refuses allocation number REFUSE_AT, counted from 1, and with REFUSE_ON each later one.
   With REFUSE_TOLD=FILE it writes to that file, at the end of the program, how many were asked for. */
#include <errno.h>
#include <fcntl.h>
#include <stddef.h>
#include <stdio.h>
#include <stdlib.h>
#include <unistd.h>

void *__libc_malloc(size_t);
void *__libc_calloc(size_t, size_t);
void *__libc_realloc(void *, size_t);
void *__libc_memalign(size_t, size_t);

static unsigned long asked, refused_at;
static int is_read, goes_on;

static int is_refused(void)
{
    if (!is_read) {
        const char *at = getenv("REFUSE_AT");
        is_read = 1;
        goes_on = getenv("REFUSE_ON") != NULL;
        refused_at = at ? strtoul(at, NULL, 10) : 0;
    }
    asked++;
    if (refused_at == 0 || (goes_on ? asked < refused_at : asked != refused_at))
        return 0;
    errno = ENOMEM;
    return 1;
}

void *malloc(size_t size) { return is_refused() ? NULL : __libc_malloc(size); }
void *calloc(size_t count, size_t size) { return is_refused() ? NULL : __libc_calloc(count, size); }
void *realloc(void *old, size_t size) { return is_refused() ? NULL : __libc_realloc(old, size); }
void *aligned_alloc(size_t align, size_t size) { return is_refused() ? NULL : __libc_memalign(align, size); }

int posix_memalign(void **place, size_t align, size_t size)
{
    void *got = is_refused() ? NULL : __libc_memalign(align, size);
    if (got == NULL)
        return ENOMEM;
    *place = got;
    return 0;
}

__attribute__((destructor)) static void tell(void)
{
    const char *path = getenv("REFUSE_TOLD");
    char line[32];
    int file = path ? open(path, O_WRONLY | O_CREAT | O_TRUNC, 0600) : -1;
    if (file < 0 || write(file, line, snprintf(line, sizeof line, "%lu\n", asked)) < 0)
        return;
    close(file);
}
