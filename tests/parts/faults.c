// Devices and memory that fail, for tests: a library for LD_PRELOAD over the C library's calls. Variables say what is to fail:
//   FAULTS=DEVICE:FIRST:LAST:ERROR,..   of this device's calls the ones from FIRST to LAST fail with the error's number; 1 is the first call
//   PIECES=DEVICE:BYTES,..              a call of this device moves at most so many bytes
//   COUNTS=FILE                         gets a 64-bit number for each device, in the order of DEVICES: its calls so far
// A call counts where it has something to report: of reads from links those that give bytes or the end, of writes to links those that the
// system would take now, of waiting calls all. Memory counts where the program itself asks for it, and not the C library.
#define _GNU_SOURCE
#include <dlfcn.h>
#include <errno.h>
#include <fcntl.h>
#include <link.h>
#include <netdb.h>
#include <poll.h>
#include <pthread.h>
#include <stdarg.h>
#include <stdint.h>
#include <stdlib.h>
#include <string.h>
#include <sys/epoll.h>
#include <sys/ioctl.h>
#include <sys/mman.h>
#include <sys/socket.h>
#include <sys/stat.h>
#include <sys/uio.h>
#include <unistd.h>

enum device { INPUT, OUTPUT, ERRORS, SOCKET, DIAL, BIND, LISTEN, ACCEPT, RECEIVE, SEND, OPTION, MODE, WAIT, LOOKUP, THREAD, MEMORY, COUNT, NONE };

static const char *const DEVICES[COUNT] = {"input",   "output", "errors", "socket", "dial", "bind",   "listen", "accept",
                                           "receive", "send",   "option", "mode",   "wait", "lookup", "thread", "memory"};

struct plan {
  uint64_t first, last, bytes;
  int error;
};

static struct plan plans[COUNT];
static uint64_t kept[COUNT];
static uint64_t *counts = kept;
static uintptr_t code_from, code_to;
static int is_ready;

void *__libc_malloc(size_t);
void *__libc_realloc(void *, size_t);
void *__libc_calloc(size_t, size_t);
void *__libc_memalign(size_t, size_t);

static enum device named(const char *name, size_t length) {
  for (enum device it = 0; it < COUNT; it++)
    if (strlen(DEVICES[it]) == length && !strncmp(DEVICES[it], name, length)) return it;
  _exit(120);
}

// The code of the program itself, which is the first object that is listed.
static int find_code(struct dl_phdr_info *info, size_t size, void *unused) {
  (void)size, (void)unused;
  for (int it = 0; it < info->dlpi_phnum; it++) {
    const ElfW(Phdr) *part = &info->dlpi_phdr[it];
    if (part->p_type == PT_LOAD && (part->p_flags & PF_X)) {
      code_from = info->dlpi_addr + part->p_vaddr;
      code_to = code_from + part->p_memsz;
    }
  }
  return 1;
}

static void read_plans(const char *text, int is_pieces) {
  while (text && *text) {
    char *rest = strchr(text, ':');
    if (!rest) _exit(120);
    struct plan *plan = &plans[named(text, rest - text)];
    if (is_pieces) {
      plan->bytes = strtoull(rest + 1, &rest, 10);
    } else {
      plan->first = strtoull(rest + 1, &rest, 10);
      plan->last = strtoull(rest + 1, &rest, 10);
      plan->error = strtoul(rest + 1, &rest, 10);
    }
    text = *rest == ',' ? rest + 1 : rest;
    if (*rest && *rest != ',') _exit(120);
  }
}

__attribute__((constructor)) static void begin(void) {
  const char *path = getenv("COUNTS");
  dl_iterate_phdr(find_code, NULL);
  read_plans(getenv("FAULTS"), 0);
  read_plans(getenv("PIECES"), 1);
  if (path) {
    int file = open(path, O_RDWR | O_CREAT | O_CLOEXEC, 0600);
    if (file < 0 || ftruncate(file, sizeof kept)) _exit(120);
    counts = mmap(NULL, sizeof kept, PROT_READ | PROT_WRITE, MAP_SHARED, file, 0);
    if (counts == MAP_FAILED) _exit(120);
    close(file);
  }
  is_ready = 1;
}

// Counts a call of a device; whether it is to fail, with errno as it is given.
static int fails(enum device device) {
  if (device >= COUNT || !is_ready) return 0;
  uint64_t number = __atomic_add_fetch(&counts[device], 1, __ATOMIC_SEQ_CST);
  if (number < plans[device].first || number > plans[device].last) return 0;
  errno = plans[device].error;
  return 1;
}

static size_t part_of(enum device device, size_t size) {
  return device < COUNT && plans[device].bytes && plans[device].bytes < size ? plans[device].bytes : size;
}

static int is_socket(int file) {
  struct stat found;
  int before = errno, is = !fstat(file, &found) && S_ISSOCK(found.st_mode);
  errno = before;
  return is;
}

static enum device reader(int file) { return is_socket(file) ? RECEIVE : file == 0 ? INPUT : NONE; }

static enum device writer(int file) { return is_socket(file) ? SEND : file == 1 ? OUTPUT : file == 2 ? ERRORS : NONE; }

// Whether the system would take a write to a link now; other writes wait.
static int is_taken(enum device device, int file) {
  struct pollfd look = {.fd = file, .events = POLLOUT};
  return device != SEND || (poll(&look, 1, 0) == 1 && look.revents == POLLOUT);
}

#define REAL(name) ({ static __typeof__(&name) it; if (!it) it = (__typeof__(it))dlsym(RTLD_NEXT, #name); it; })

// A read of a link counts once there is something to read, bytes or the end; where it fails, these are still there.
#define READS(file, call)                                                               \
  char first;                                                                           \
  enum device device = reader(file);                                                    \
  if (device == RECEIVE && REAL(recv)(file, &first, 1, MSG_PEEK) < 0) return -1;        \
  return fails(device) ? -1 : call

#define WRITES(file, call)                                                              \
  enum device device = writer(file);                                                    \
  return is_taken(device, file) && fails(device) ? -1 : call

ssize_t read(int file, void *to, size_t size) { READS(file, REAL(read)(file, to, part_of(device, size))); }

ssize_t readv(int file, const struct iovec *to, int parts) { READS(file, REAL(readv)(file, to, parts)); }

ssize_t recv(int file, void *to, size_t size, int flags) { READS(file, REAL(recv)(file, to, part_of(device, size), flags)); }

ssize_t recvfrom(int file, void *restrict to, size_t size, int flags, struct sockaddr *restrict from, socklen_t *restrict length) {
  READS(file, REAL(recvfrom)(file, to, part_of(device, size), flags, from, length));
}

ssize_t recvmsg(int file, struct msghdr *to, int flags) { READS(file, REAL(recvmsg)(file, to, flags)); }

ssize_t write(int file, const void *from, size_t size) { WRITES(file, REAL(write)(file, from, part_of(device, size))); }

ssize_t send(int file, const void *from, size_t size, int flags) { WRITES(file, REAL(send)(file, from, part_of(device, size), flags)); }

ssize_t sendto(int file, const void *from, size_t size, int flags, const struct sockaddr *to, socklen_t length) {
  WRITES(file, REAL(sendto)(file, from, part_of(device, size), flags, to, length));
}

// Several pieces at once: the first one alone where a call moves few bytes.
ssize_t writev(int file, const struct iovec *from, int parts) {
  WRITES(file, device < COUNT && plans[device].bytes && parts > 0 ? REAL(write)(file, from->iov_base, part_of(device, from->iov_len))
                                                                   : REAL(writev)(file, from, parts));
}

ssize_t sendmsg(int file, const struct msghdr *from, int flags) {
  WRITES(file, device < COUNT && plans[device].bytes && from->msg_iovlen > 0
                   ? REAL(send)(file, from->msg_iov->iov_base, part_of(device, from->msg_iov->iov_len), flags)
                   : REAL(sendmsg)(file, from, flags));
}

int socket(int domain, int type, int protocol) { return fails(SOCKET) ? -1 : REAL(socket)(domain, type, protocol); }

int connect(int file, const struct sockaddr *to, socklen_t length) { return fails(DIAL) ? -1 : REAL(connect)(file, to, length); }

int bind(int file, const struct sockaddr *at, socklen_t length) { return fails(BIND) ? -1 : REAL(bind)(file, at, length); }

int listen(int file, int backlog) { return fails(LISTEN) ? -1 : REAL(listen)(file, backlog); }

int accept(int file, struct sockaddr *restrict from, socklen_t *restrict length) { return fails(ACCEPT) ? -1 : REAL(accept)(file, from, length); }

int accept4(int file, struct sockaddr *restrict from, socklen_t *restrict length, int flags) {
  return fails(ACCEPT) ? -1 : REAL(accept4)(file, from, length, flags);
}

int setsockopt(int file, int level, int name, const void *value, socklen_t length) {
  return fails(OPTION) ? -1 : REAL(setsockopt)(file, level, name, value, length);
}

// Whether a socket's calls wait.
int ioctl(int file, unsigned long what, ...) {
  va_list rest;
  va_start(rest, what);
  void *given = va_arg(rest, void *);
  va_end(rest);
  return what == FIONBIO && fails(MODE) ? -1 : REAL(ioctl)(file, what, given);
}

int getaddrinfo(const char *restrict name, const char *restrict port, const struct addrinfo *restrict how, struct addrinfo **restrict found) {
  return fails(LOOKUP) ? EAI_FAIL : REAL(getaddrinfo)(name, port, how, found);
}

int epoll_create(int size) { return fails(WAIT) ? -1 : REAL(epoll_create)(size); }

int epoll_create1(int flags) { return fails(WAIT) ? -1 : REAL(epoll_create1)(flags); }

int epoll_ctl(int set, int what, int file, struct epoll_event *event) { return fails(WAIT) ? -1 : REAL(epoll_ctl)(set, what, file, event); }

int epoll_wait(int set, struct epoll_event *events, int most, int time) { return fails(WAIT) ? -1 : REAL(epoll_wait)(set, events, most, time); }

int pthread_create(pthread_t *restrict thread, const pthread_attr_t *restrict how, void *(*work)(void *), void *restrict given) {
  return fails(THREAD) ? plans[THREAD].error : REAL(pthread_create)(thread, how, work, given);
}

static int refuses(const void *caller) {
  uintptr_t at = (uintptr_t)caller;
  return code_from <= at && at < code_to && fails(MEMORY);
}

void *malloc(size_t size) { return refuses(__builtin_return_address(0)) ? NULL : __libc_malloc(size); }

void *calloc(size_t count, size_t size) { return refuses(__builtin_return_address(0)) ? NULL : __libc_calloc(count, size); }

void *realloc(void *old, size_t size) { return refuses(__builtin_return_address(0)) ? NULL : __libc_realloc(old, size); }

void *aligned_alloc(size_t align, size_t size) { return refuses(__builtin_return_address(0)) ? NULL : __libc_memalign(align, size); }
