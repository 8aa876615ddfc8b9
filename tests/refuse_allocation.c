/* Preloaded into a program: of its calls for memory, by malloc and realloc, the one whose number stands in REFUSE_AT is refused,
   counted from 1. A byte goes to the handle REFUSE_TO then, so that who started the program knows that there was such a call.
   calloc and the like aren't counted: the program makes none (`nm -D`). */
#include <errno.h>
#include <stdlib.h>
#include <unistd.h>

/* The C library's own names of these. dlsym would find them too, but asks for memory itself. */
void *__libc_malloc(size_t size);
void *__libc_realloc(void *block, size_t size);

static unsigned long asked;

static int is_refused(void)
{
    const char *at = getenv("REFUSE_AT"), *to = getenv("REFUSE_TO");
    asked++;
    if (at == NULL || to == NULL || asked != strtoul(at, NULL, 10))
        return 0;
    if (write(atoi(to), "r", 1) != 1)
        abort();
    errno = ENOMEM;
    return 1;
}

void *malloc(size_t size)
{
    return is_refused() ? NULL : __libc_malloc(size);
}

void *realloc(void *block, size_t size)
{
    return is_refused() ? NULL : __libc_realloc(block, size);
}
