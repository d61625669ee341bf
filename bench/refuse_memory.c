/* Refuses one request for memory: the one whose number is in REFUSE, counted from 1 over the requests that the program itself makes. Loaded by
   LD_PRELOAD; bench/refused_memory.sh builds it. Where COUNT_TO names a file, the number of requests is written to it at the end. */
#define _GNU_SOURCE
#include <dlfcn.h>
#include <errno.h>
#include <link.h>
#include <stdint.h>
#include <stdio.h>
#include <stdlib.h>

extern void *__libc_malloc(size_t);
extern void *__libc_calloc(size_t, size_t);
extern void *__libc_realloc(void *, size_t);
extern void *__libc_memalign(size_t, size_t);

static uintptr_t low, high;
static unsigned long made, refused;

/* Where the program's own code is: it is the first object that the loader names. */
static int find_program(struct dl_phdr_info *info, size_t size, void *data) {
  (void)size, (void)data;
  low = UINTPTR_MAX;
  for (int i = 0; i < info->dlpi_phnum; i++) {
    const ElfW(Phdr) *part = &info->dlpi_phdr[i];
    if (part->p_type != PT_LOAD) continue;
    uintptr_t begin = info->dlpi_addr + part->p_vaddr;
    if (begin < low) low = begin;
    if (begin + part->p_memsz > high) high = begin + part->p_memsz;
  }
  return 1;
}

__attribute__((constructor)) static void begin(void) {
  const char *number = getenv("REFUSE");
  refused = number ? strtoul(number, NULL, 10) : 0;
  dl_iterate_phdr(find_program, NULL);
}

__attribute__((destructor)) static void end(void) {
  const char *name = getenv("COUNT_TO");
  FILE *file = name ? fopen(name, "w") : NULL;
  if (file) fprintf(file, "%lu\n", made), fclose(file);
}

static int is_refused(void *caller) {
  uintptr_t at = (uintptr_t)caller;
  return at >= low && at < high && ++made == refused;
}

#define REFUSE_OR(make) (is_refused(__builtin_return_address(0)) ? (errno = ENOMEM, NULL) : (make))

void *malloc(size_t size) { return REFUSE_OR(__libc_malloc(size)); }
void *calloc(size_t count, size_t size) { return REFUSE_OR(__libc_calloc(count, size)); }
void *realloc(void *old, size_t size) { return REFUSE_OR(__libc_realloc(old, size)); }
void *memalign(size_t align, size_t size) { return REFUSE_OR(__libc_memalign(align, size)); }
void *aligned_alloc(size_t align, size_t size) { return REFUSE_OR(__libc_memalign(align, size)); }
int posix_memalign(void **to, size_t align, size_t size) {
  if (is_refused(__builtin_return_address(0))) return ENOMEM;
  void *at = __libc_memalign(align, size);
  if (!at) return ENOMEM;
  *to = at;
  return 0;
}
