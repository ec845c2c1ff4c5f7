/* The import slots of make's ELF program: they contain the addresses of the library functions that it calls. */
#define _GNU_SOURCE
#include "hook.h"
#include "syscalls.h"
#include <elf.h>
#include <link.h>
#include <sys/mman.h>

#if defined __x86_64__
#define IS_IMPORT(type) ((type) == R_X86_64_JUMP_SLOT || (type) == R_X86_64_GLOB_DAT)
#elif defined __aarch64__
#define IS_IMPORT(type) ((type) == R_AARCH64_JUMP_SLOT || (type) == R_AARCH64_GLOB_DAT)
#else
#error "which relocations does this machine have for imports?"
#endif

extern void *dlsym(void *, const char *) __attribute__((weak));

struct import imports[IMPORT_COUNT] = {
    [POSIX_SPAWN] = {"posix_spawn", hooked_spawn, NULL},
    [ACTIONS_INIT] = {"posix_spawn_file_actions_init", hooked_actions_init, NULL},
    [ACTIONS_ADDDUP2] = {"posix_spawn_file_actions_adddup2", hooked_actions_adddup2, NULL},
    [ACTIONS_DESTROY] = {"posix_spawn_file_actions_destroy", hooked_actions_destroy, NULL},
    [VFORK] = {"vfork", NULL, NULL}, /* not replaced */
    [EXECVP] = {"execvp", hooked_execvp, NULL},
    [WAIT] = {"wait", hooked_wait, NULL},
    [WAITPID] = {"waitpid", hooked_waitpid, NULL},
    [WAIT3] = {"wait3", hooked_wait3, NULL},
    [WAIT4] = {"wait4", hooked_wait4, NULL},
    [EXIT] = {"exit", hooked_exit, NULL},
    [FPUTS] = {"fputs", hooked_fputs, NULL},
    [WRITE] = {"write", hooked_write, NULL},
    [SIGPROCMASK] = {"sigprocmask", hooked_sigprocmask, NULL},
};

/* The parts of the program's dynamic section that are needed. */
struct program {
  uintptr_t base, relro_start, relro_end; /* guarded: read-only after relocation */
  const char *strings;
  const ElfW(Sym) *symbols;
  const char *tables[2]; /* of relocations: for calls, and others */
  size_t sizes[2];
  int has_addends;
};

static unsigned found_imports;

int is_imported(enum import_number number) { return found_imports >> number & 1; }

void *find_function(const char *name) { return dlsym ? dlsym(NULL, name) : NULL; }

/* musl doesn't relocate the addresses in the dynamic section. */
static void read_dynamic_entry(struct program *program, const ElfW(Dyn) *entry) {
  uintptr_t address = entry->d_un.d_ptr;
  if (address < program->base) address += program->base;
  switch (entry->d_tag) {
    case DT_STRTAB: program->strings = (const char *)address; break;
    case DT_SYMTAB: program->symbols = (const void *)address; break;
    case DT_JMPREL: program->tables[0] = (const char *)address; break;
    case DT_RELA: program->tables[1] = (const char *)address; break;
    case DT_PLTRELSZ: program->sizes[0] = entry->d_un.d_val; break;
    case DT_RELASZ: program->sizes[1] = entry->d_un.d_val; break;
    case DT_PLTREL: program->has_addends = entry->d_un.d_val == DT_RELA; break;
  }
}

/* Reads the first object, which is the program itself, and stops. */
static int read_program(struct dl_phdr_info *info, size_t size, void *to) {
  (void)size;
  struct program *program = to;
  *program = (struct program){.base = info->dlpi_addr, .has_addends = 1};
  for (int i = 0; i < info->dlpi_phnum; i++) {
    const ElfW(Phdr) *segment = &info->dlpi_phdr[i];
    uintptr_t start = program->base + segment->p_vaddr;
    if (segment->p_type == PT_GNU_RELRO) program->relro_start = start, program->relro_end = start + segment->p_memsz;
    if (segment->p_type != PT_DYNAMIC) continue;
    for (const ElfW(Dyn) *entry = (const void *)start; entry->d_tag != DT_NULL; entry++) read_dynamic_entry(program, entry);
  }
  return 1;
}

static int replace_slot(const struct program *program, uintptr_t slot, void *replacement) {
  int (*page_size)(void) = find_function("getpagesize");
  uintptr_t page = page_size ? slot & -(uintptr_t)page_size() : 0, size = page_size ? page_size() : 0;
  int is_relro = slot >= program->relro_start && slot < program->relro_end;
  if (is_relro && (!page || SYSCALL(mprotect, page, size, PROT_READ | PROT_WRITE, 0) < 0)) return -1;
  *(void **)slot = replacement;
  if (is_relro) SYSCALL(mprotect, page, size, PROT_READ, 0);
  return 0;
}

/* Visits each slot of any of the functions. */
static int for_each_slot(const struct program *program, int is_replaced) {
  for (int table = 0; table < 2; table++) {
    const ElfW(Rela) *relocation = (const void *)program->tables[table];
    for (size_t left = relocation ? program->sizes[table] / sizeof *relocation : 0; left > 0; left--, relocation++) {
      if (!IS_IMPORT(ELF64_R_TYPE(relocation->r_info))) continue;
      const char *name = program->strings + program->symbols[ELF64_R_SYM(relocation->r_info)].st_name;
      for (int i = 0; i < IMPORT_COUNT; i++) {
        if (!strings_equal(name, imports[i].name)) continue;
        found_imports |= 1u << i;
        if (is_replaced && imports[i].replacement &&
            replace_slot(program, program->base + relocation->r_offset, imports[i].replacement) < 0) return -1;
      }
    }
  }
  return 0;
}

static int visit_slots(int is_replaced) {
  int (*iterate)(int (*)(struct dl_phdr_info *, size_t, void *), void *) = find_function("dl_iterate_phdr");
  struct program program = {0};
  if (!iterate) return -1;
  iterate(read_program, &program);
  return program.strings && program.symbols && program.has_addends ? for_each_slot(&program, is_replaced) : -1;
}

int find_imports(void) {
  for (int i = 0; i < IMPORT_COUNT; i++) imports[i].original = find_function(imports[i].name);
  handling_fatal_signal = find_function("handling_fatal_signal");
  find_message_variables();
  return imports[WAIT4].original ? visit_slots(0) : -1;
}

int replace_imports(void) { return visit_slots(1); }
