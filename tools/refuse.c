// Refuses memory to the program into which it is loaded (LD_PRELOAD): of its calls of `malloc` and `realloc`, counted from
// 1, the one of the number REFUSE_AT, or with REFUSE_ON that one and all behind it. Calls of the C library itself, as for
// the start of a thread, are not counted. The file REFUSE_COUNTS gets two numbers of eight bytes: the calls, and those refused.
// A program that brings its own `malloc`, as one with an address sanitizer does, has the entries of both led here (x86-64).

#define _GNU_SOURCE
#include <dlfcn.h>
#include <errno.h>
#include <fcntl.h>
#include <link.h>
#include <stdatomic.h>
#include <stdint.h>
#include <stdlib.h>
#include <string.h>
#include <sys/mman.h>
#include <unistd.h>

extern void *__libc_malloc(size_t);
extern void *__libc_realloc(void *, size_t);
static void *(*take)(size_t) = __libc_malloc;
static void *(*take_again)(void *, size_t) = __libc_realloc;

enum { CALLS, REFUSED, STACK, NUMBERS = 128 };
enum { MOST_FRAME = 1 << 20 };  // bytes

static uintptr_t base, low, high;  // where the program lies, and its code
static uint64_t refused_at;
static int refuses_on, tells_stack;
static _Atomic uint64_t *counts;

// The first object is the program itself.
static int find_program(struct dl_phdr_info *info, size_t size, void *data) {
  (void)size, (void)data;
  for (int k = 0; k < info->dlpi_phnum; k++) {
    const ElfW(Phdr) *part = &info->dlpi_phdr[k];
    if (part->p_type != PT_LOAD || !(part->p_flags & PF_X)) continue;
    base = info->dlpi_addr;
    low = base + part->p_vaddr;
    high = low + part->p_memsz;
  }
  return 1;
}

static void *counted_malloc(size_t bytes);
static void *counted_realloc(void *old, size_t bytes);

// Where a jump of five bytes leads, and such a jump. (Such a program's `malloc` is one, to where the work is done.)
static unsigned char *target(unsigned char *entry) {
  int32_t far;
  memcpy(&far, entry + 1, 4);
  return entry + 5 + far;
}

static void lead(unsigned char *entry, unsigned char *to) {
  int32_t far = (int32_t)(to - (entry + 5));
  uintptr_t page = (uintptr_t)entry & ~(uintptr_t)4095;
  if (mprotect((void *)page, 8192, PROT_READ | PROT_WRITE | PROT_EXEC)) _exit(125);
  entry[0] = 0xe9;
  memcpy(entry + 1, &far, 4);
  mprotect((void *)page, 8192, PROT_READ | PROT_EXEC);
}

// A jump to anywhere, beside the program.
static unsigned char *bridge(unsigned char *at, void *to) {
  const unsigned char code[] = {0x49, 0xbb, 0, 0, 0, 0, 0, 0, 0, 0, 0x41, 0xff, 0xe3};  // movabs to, r11; jmp r11
  memcpy(at, code, sizeof code);
  memcpy(at + 2, &to, 8);
  return at;
}

static void lead_entries(void) {
  unsigned char *own = dlsym(RTLD_DEFAULT, "malloc"), *again = dlsym(RTLD_DEFAULT, "realloc");
  if ((uintptr_t)own < low || (uintptr_t)own >= high) return;
  if (own[0] != 0xe9 || again[0] != 0xe9) _exit(125);
  unsigned char *room = MAP_FAILED;
  for (uintptr_t near = (high | 4095) + 1; room == MAP_FAILED && near - high < 1u << 30; near += 1 << 20)
    room = mmap((void *)near, 4096, PROT_READ | PROT_WRITE | PROT_EXEC, MAP_PRIVATE | MAP_ANONYMOUS | MAP_FIXED_NOREPLACE, -1, 0);
  if (room == MAP_FAILED) _exit(125);
  take = (void *(*)(size_t))target(own);
  take_again = (void *(*)(void *, size_t))target(again);
  lead(own, bridge(room, counted_malloc));
  lead(again, bridge(room + 64, counted_realloc));
}

__attribute__((constructor)) static void begin(void) {
  const char *at = getenv("REFUSE_AT"), *name = getenv("REFUSE_COUNTS");
  int file = name ? open(name, O_RDWR | O_CLOEXEC) : -1;
  if (!at || file < 0) _exit(125);
  refused_at = strtoull(at, NULL, 10);
  refuses_on = getenv("REFUSE_ON") != NULL;
  tells_stack = getenv("REFUSE_STACK") != NULL;
  void *shared = mmap(NULL, NUMBERS * sizeof *counts, PROT_READ | PROT_WRITE, MAP_SHARED, file, 0);
  if (shared == MAP_FAILED) _exit(125);
  close(file);
  dl_iterate_phdr(find_program, NULL);
  lead_entries();
  counts = shared;
}

static int is_in_program(uintptr_t place) { return place >= low && place < high; }

// Each frame begins with the address of the one around it, and behind that is where its call returns to.
static void tell_stack(void) {
  const uintptr_t *frame = __builtin_frame_address(0), *outer;
  for (int at = STACK; at < NUMBERS; frame = outer) {
    if (is_in_program(frame[1])) counts[at++] = frame[1] - base;
    outer = (const uintptr_t *)frame[0];
    if (outer <= frame || (uintptr_t)outer - (uintptr_t)frame > MOST_FRAME) return;
  }
}

static int is_refused(void *caller) {
  if (!counts || !is_in_program((uintptr_t)caller)) return 0;
  uint64_t number = atomic_fetch_add(&counts[CALLS], 1) + 1;
  if (number != refused_at && !(refuses_on && number > refused_at)) return 0;
  if (tells_stack && number == refused_at) tell_stack();
  atomic_fetch_add(&counts[REFUSED], 1);
  errno = ENOMEM;
  return 1;
}

static void *counted_malloc(size_t bytes) { return is_refused(__builtin_return_address(0)) ? NULL : take(bytes); }

static void *counted_realloc(void *old, size_t bytes) {
  return is_refused(__builtin_return_address(0)) ? NULL : take_again(old, bytes);
}

void *malloc(size_t bytes) { return is_refused(__builtin_return_address(0)) ? NULL : take(bytes); }

void *realloc(void *old, size_t bytes) {
  return is_refused(__builtin_return_address(0)) ? NULL : take_again(old, bytes);
}
