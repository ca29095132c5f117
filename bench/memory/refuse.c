/* Refuses allocations of a program that it is loaded before: the one numbered REFUSE_AT, counted from 1, and with
   REFUSE_ALL=1 each one behind it too. Only what the program itself asks for counts, and not what its libraries do.
   How many it asked for stands in the file REFUSE_COUNT behind its end. */
#define _GNU_SOURCE
#include <errno.h>
#include <fcntl.h>
#include <link.h>
#include <stddef.h>
#include <stdio.h>
#include <stdlib.h>
#include <unistd.h>

extern void *__libc_malloc(size_t);
extern void *__libc_calloc(size_t, size_t);
extern void *__libc_realloc(void *, size_t);
extern void *__libc_memalign(size_t, size_t);

static unsigned long made, at;
static int all, ready;
static char *low, *high;

/* The program is the first of the objects. */
static int first_object(struct dl_phdr_info *info, size_t size, void *unused) {
    (void)size;
    (void)unused;
    for (int i = 0; i < info->dlpi_phnum; i++) {
        const ElfW(Phdr) *part = &info->dlpi_phdr[i];
        if (part->p_type == PT_LOAD && (part->p_flags & PF_X)) {
            low = (char *)info->dlpi_addr + part->p_vaddr;
            high = low + part->p_memsz;
        }
    }
    return 1;
}

static void begin(void) {
    const char *number = getenv("REFUSE_AT"), *rest = getenv("REFUSE_ALL");
    ready = 1;
    at = number ? strtoul(number, NULL, 10) : 0;
    all = rest && *rest == '1';
    dl_iterate_phdr(first_object, NULL);
}

static int refused(void *asked_at) {
    if (!ready) begin();
    if ((char *)asked_at < low || (char *)asked_at >= high) return 0;
    made++;
    if (at == 0 || made < at || (made > at && !all)) return 0;
    errno = ENOMEM;
    return 1;
}

void *malloc(size_t size) { return refused(__builtin_return_address(0)) ? NULL : __libc_malloc(size); }
void *calloc(size_t count, size_t size) { return refused(__builtin_return_address(0)) ? NULL : __libc_calloc(count, size); }
void *realloc(void *old, size_t size) { return refused(__builtin_return_address(0)) ? NULL : __libc_realloc(old, size); }
void *aligned_alloc(size_t by, size_t size) { return refused(__builtin_return_address(0)) ? NULL : __libc_memalign(by, size); }
int posix_memalign(void **out, size_t by, size_t size) {
    if (refused(__builtin_return_address(0))) return ENOMEM;
    *out = __libc_memalign(by, size);
    return *out ? 0 : ENOMEM;
}

__attribute__((destructor)) static void end(void) {
    char text[32];
    const char *name = getenv("REFUSE_COUNT");
    int file = name ? open(name, O_WRONLY | O_CREAT | O_TRUNC, 0600) : -1;
    if (file < 0) return;
    int length = snprintf(text, sizeof text, "%lu\n", made);
    if (write(file, text, length) != length) _exit(99);
    close(file);
}
