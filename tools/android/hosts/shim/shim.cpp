// What stands in place of the kernel's driver and of functions that Debian's libraries lack, or whose own files would bring more.
// The linker's --wrap sends the calls of open and ioctl here; no file of libbinder is changed.
#include <errno.h>
#include <fcntl.h>
#include <stdarg.h>
#include <sys/ioctl.h>
#include <sys/mman.h>
#include <linux/android/binder.h>
#include <string>
#ifdef OLDER
#include <processgroup/sched_policy.h>
#endif

extern "C" {
int __real_open(const char* path, int flags, ...);
int __real_ioctl(int fd, unsigned long request, ...);

// /dev/binder is an empty file in memory.
int __wrap_open(const char* path, int flags, ...) {
  va_list a;
  va_start(a, flags);
  int mode = va_arg(a, int);
  va_end(a);
  if (strcmp(path, "/dev/binder") == 0) return memfd_create("binder", MFD_CLOEXEC);
  return __real_open(path, flags, mode);
}

// It knows its version and takes any number of threads; no transaction goes through it.
int __wrap_ioctl(int fd, unsigned long request, ...) {
  va_list a;
  va_start(a, request);
  void* p = va_arg(a, void*);
  va_end(a);
  if (request == BINDER_VERSION) {
    static_cast<binder_version*>(p)->protocol_version = BINDER_CURRENT_PROTOCOL_VERSION;
    return 0;
  }
  if (request == BINDER_SET_MAX_THREADS) return 0;
  errno = EINVAL;
  return -1;
}

#ifdef OLDER
int set_sched_policy(int, SchedPolicy) { return 0; }
int get_sched_policy(int, SchedPolicy* p) { *p = SP_FOREGROUND; return 0; }
#else
// liblog's writer of binary events: Status.cpp logs to it, and here nobody reads it.
int android_log_write_string8_len(void*, const char*, size_t) { return 0; }
void* create_android_logger(uint32_t) { return nullptr; }
int android_log_write_list(void*, int) { return 0; }
int android_log_write_int32(void*, int32_t) { return 0; }
int android_log_destroy(void**) { return 0; }
#endif
}

#ifdef OLDER
namespace android {
// libutils of 2020 has it, for Status::toString8 alone; Debian's has it not.
std::string statusToString(int32_t s) { return std::to_string(s); }
}
#endif
