/* This library, loaded by LD_PRELOAD, replaces malloc, calloc and realloc of the C library (glibc). Two environment variables
   control this library. REFUSE is the number of the request that is refused. Requests are counted from 1 once this library is
   loaded. REFUSE_LOG names a file, to which a refusal appends the line "refused", or "refused smaller" if the request is for a
   smaller block in place of a block. When the process exits normally, the number of requests is appended to the same file.
   Without REFUSE_LOG, requests are neither counted nor refused. */
#include <errno.h>
#include <fcntl.h>
#include <malloc.h>
#include <stdio.h>
#include <stdlib.h>
#include <string.h>
#include <unistd.h>

void *__libc_malloc(size_t), *__libc_calloc(size_t, size_t), *__libc_realloc(void *, size_t);

static const char *log_file;
static long chosen, made;

static void record(const char *line) {
    int file = log_file ? open(log_file, O_WRONLY | O_CREAT | O_APPEND | O_CLOEXEC, 0600) : -1;
    if (file >= 0 && (write(file, line, strlen(line)) < 0 || close(file) < 0)) abort();
}

static int is_refused(const char *line) {
    if (!log_file || __atomic_add_fetch(&made, 1, __ATOMIC_RELAXED) != chosen) return 0;
    record(line);
    errno = ENOMEM;
    return 1;
}

static const char *line_of(void *block, size_t size) {
    return size < malloc_usable_size(block) ? "refused smaller\n" : "refused\n";
}

void *malloc(size_t size) { return is_refused("refused\n") ? NULL : __libc_malloc(size); }
void *calloc(size_t count, size_t size) { return is_refused("refused\n") ? NULL : __libc_calloc(count, size); }
/* realloc to a size of 0 frees the block, so it is not a request for memory */
void *realloc(void *block, size_t size) { return size && is_refused(line_of(block, size)) ? NULL : __libc_realloc(block, size); }

__attribute__((constructor)) static void begin(void) {
    const char *number = getenv("REFUSE");
    chosen = number ? atol(number) : 0;
    log_file = getenv("REFUSE_LOG");
}

__attribute__((destructor)) static void end(void) {
    char line[32];
    snprintf(line, sizeof line, "%ld\n", made);
    record(line);
}
