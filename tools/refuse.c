/* Loaded before a program (LD_PRELOAD) by tools/memory_faults.py: takes the place of its calls `rattle_alloc` and `rattle_realloc`, at ALLOC_AT and
   REALLOC_AT of its text, counts them in the file REFUSE_COUNT, and refuses the one with the number REFUSE, from 1. */
#define _GNU_SOURCE
#include <fcntl.h>
#include <link.h>
#include <stdlib.h>
#include <string.h>
#include <sys/mman.h>
#include <unistd.h>

struct answer {
    unsigned long is_there;
    void *place;
};

static char nowhere[64] __attribute__((aligned(64)));
static unsigned long own, *count = &own, refused;

static struct answer answer_of(void *place) {
    struct answer answer = {place != NULL, place ? place : nowhere};
    return answer;
}

static int is_refused(void) { return __sync_add_and_fetch(count, 1) == refused; }

static struct answer counted_alloc(size_t size, size_t align) {
    return answer_of(is_refused() ? NULL : malloc(size ? size : align));
}

static struct answer counted_realloc(void *old, size_t before, size_t size, size_t align) {
    (void)before;
    return answer_of(is_refused() ? NULL : realloc(old, size ? size : align));
}

static int first_base(struct dl_phdr_info *info, size_t size, void *base) {
    (void)size;
    *(unsigned long *)base = info->dlpi_addr;
    return 1;
}

/* Writes a jump to `to` over what is at `at`. */
static void jump(unsigned long at, void *to) {
    void *page = (void *)(at & ~4095ul);
    unsigned char code[12] = {0x48, 0xb8, 0, 0, 0, 0, 0, 0, 0, 0, 0xff, 0xe0}; /* movabs to, %rax; jmp *%rax */
    memcpy(code + 2, &to, 8);
    mprotect(page, 8192, PROT_READ | PROT_WRITE | PROT_EXEC);
    memcpy((void *)at, code, sizeof code);
    mprotect(page, 8192, PROT_READ | PROT_EXEC);
}

static void share(const char *name) {
    int file = name ? open(name, O_RDWR | O_CREAT | O_TRUNC, 0644) : -1;
    if (file < 0 || ftruncate(file, sizeof own)) return;
    void *place = mmap(NULL, sizeof own, PROT_READ | PROT_WRITE, MAP_SHARED, file, 0);
    if (place != MAP_FAILED) count = place;
    close(file);
}

__attribute__((constructor)) static void begin(void) {
    const char *alloc = getenv("ALLOC_AT"), *realloc_at = getenv("REALLOC_AT"), *number = getenv("REFUSE");
    unsigned long base = 0;
    if (!alloc || !realloc_at || !number) return;
    refused = strtoul(number, NULL, 10);
    share(getenv("REFUSE_COUNT"));
    dl_iterate_phdr(first_base, &base);
    jump(base + strtoul(alloc, NULL, 16), counted_alloc);
    jump(base + strtoul(realloc_at, NULL, 16), counted_realloc);
}
