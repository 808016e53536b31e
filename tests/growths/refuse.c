/* What a test preloads, and sets by environment variables.
 *
 * The program's call number GROWTHS_REFUSE of malloc(3), calloc(3) or realloc(3), counted from 1, answers NULL. Calls that
 * the C library makes for itself are neither counted nor refused, but with GROWTHS_OF_ALL. The count stands in the 8 bytes
 * of the file GROWTHS_COUNT, also where the program ends by a signal.
 *
 * With MOST_THREADS so many threads can be started, and no more. With TIMES_FASTER clocks go so many times as fast, but for
 * the wall's, and with WALL_TIMES_FASTER the wall's alone. With POLL_FAILS the call of epoll_wait(2) with this number fails,
 * counted from 1 over all threads, and with REGISTER_FAILS that call of epoll_ctl(2). With CONNECTS_LACK so many calls of
 * connect(2) fail for want of the system's memory, and then none. */
#define _GNU_SOURCE
#include <dlfcn.h>
#include <errno.h>
#include <fcntl.h>
#include <link.h>
#include <pthread.h>
#include <stdatomic.h>
#include <stdint.h>
#include <stdlib.h>
#include <sys/epoll.h>
#include <sys/mman.h>
#include <sys/socket.h>
#include <sys/syscall.h>
#include <time.h>
#include <unistd.h>

extern void *__libc_malloc(size_t size);
extern void *__libc_calloc(size_t number, size_t size);
extern void *__libc_realloc(void *old, size_t size);

static uintptr_t program_start, program_end;
static unsigned long refuse;
static _Atomic uint64_t own_count;
static _Atomic uint64_t *count = &own_count;

/* The first object is the program; its segments give the range of its code. */
static int program_range(struct dl_phdr_info *info, size_t size, void *unused) {
  (void)size, (void)unused;
  program_start = UINTPTR_MAX;
  for (int i = 0; i < info->dlpi_phnum; i++) {
    const ElfW(Phdr) *part = &info->dlpi_phdr[i];
    uintptr_t start = info->dlpi_addr + part->p_vaddr;
    if (part->p_type != PT_LOAD) continue;
    if (start < program_start) program_start = start;
    if (start + part->p_memsz > program_end) program_end = start + part->p_memsz;
  }
  return 1;
}

__attribute__((constructor)) static void begin(void) {
  const char *number = getenv("GROWTHS_REFUSE"), *path = getenv("GROWTHS_COUNT");
  if (number) refuse = strtoul(number, NULL, 10);
  if (path) {
    int file = open(path, O_RDWR);
    void *shared = mmap(NULL, sizeof *count, PROT_READ | PROT_WRITE, MAP_SHARED, file, 0);
    close(file);
    if (shared == MAP_FAILED) _exit(125);
    count = shared;
  }
  if (getenv("GROWTHS_OF_ALL")) program_end = UINTPTR_MAX;
  else dl_iterate_phdr(program_range, NULL);
}

static int is_refused(const void *caller) {
  uintptr_t at = (uintptr_t)caller;
  if (at < program_start || at >= program_end) return 0;
  if (atomic_fetch_add(count, 1) + 1 != refuse) return 0;
  errno = ENOMEM;
  return 1;
}

#define UNLESS_REFUSED(answer) (is_refused(__builtin_return_address(0)) ? NULL : answer)

void *malloc(size_t size) { return UNLESS_REFUSED(__libc_malloc(size)); }

void *calloc(size_t number, size_t size) { return UNLESS_REFUSED(__libc_calloc(number, size)); }

void *realloc(void *old, size_t size) { return UNLESS_REFUSED(__libc_realloc(old, size)); }

int pthread_create(pthread_t *thread, const pthread_attr_t *attributes, void *(*run)(void *), void *argument) {
  static atomic_int started;
  int (*create)(pthread_t *, const pthread_attr_t *, void *(*)(void *), void *) = dlsym(RTLD_NEXT, "pthread_create");
  const char *most = getenv("MOST_THREADS");
  if (!most || started++ < atoi(most)) return create(thread, attributes, run, argument);
  usleep(100000); /* the others sleep by the time that this is printed */
  return EAGAIN;
}

int epoll_wait(int poll, struct epoll_event *events, int most, int timeout) {
  static atomic_int made;
  const char *fails = getenv("POLL_FAILS");
  if (!fails || ++made != atoi(fails)) return syscall(SYS_epoll_pwait, poll, events, most, timeout, NULL, 0);
  errno = EIO;
  return -1;
}

int epoll_ctl(int poll, int operation, int file, struct epoll_event *event) {
  static atomic_int made;
  const char *fails = getenv("REGISTER_FAILS");
  if (!fails || ++made != atoi(fails)) return syscall(SYS_epoll_ctl, poll, operation, file, event);
  errno = EPERM;
  return -1;
}

int connect(int made, const struct sockaddr *to, socklen_t length) {
  static atomic_int made_before;
  const char *lack = getenv("CONNECTS_LACK");
  if (!lack || made_before++ >= atoi(lack)) return syscall(SYS_connect, made, to, length);
  errno = ENOBUFS;
  return -1;
}

int clock_gettime(clockid_t clock, struct timespec *time) {
  const char *faster = getenv(clock == CLOCK_REALTIME || clock == CLOCK_REALTIME_COARSE ? "WALL_TIMES_FASTER" : "TIMES_FASTER");
  int answer = syscall(SYS_clock_gettime, clock, time);
  if (!faster) return answer;
  long milliseconds = (time->tv_sec * 1000 + time->tv_nsec / 1000000) * atol(faster);
  time->tv_sec = milliseconds / 1000, time->tv_nsec = milliseconds % 1000 * 1000000;
  return answer;
}
