/* What the proved program ringdump calls beside the C library: the number of the last error. Where pointers have 32 bits it counts bytes in 64: those that it
 * reads, writes and has told to it are those of its own buffers; and a handler of a signal, which for it is the number of "ignore it" alone, has 64. */
#include <errno.h>
#include <stdint.h>

int32_t rattle_errno(void);
int32_t rattle_errno(void) { return errno; }

#if UINTPTR_MAX == UINT32_MAX
#include <signal.h>
#include <stddef.h>
#include <unistd.h>

int64_t wide_read(int file, void *bytes, uint64_t count);
int64_t wide_write(int file, const void *bytes, uint64_t count);
int32_t wide_strerror_r(int32_t error, char *text, uint64_t room);
uint64_t wide_signal(int number, uint64_t handler);
extern int __xpg_strerror_r(int error, char *text, size_t room);

int64_t wide_read(int file, void *bytes, uint64_t count) { return read(file, bytes, (size_t)count); }
int64_t wide_write(int file, const void *bytes, uint64_t count) { return write(file, bytes, (size_t)count); }
int32_t wide_strerror_r(int32_t error, char *text, uint64_t room) { return __xpg_strerror_r(error, text, (size_t)room); }
uint64_t wide_signal(int number, uint64_t handler) { return (uint64_t)(uintptr_t)signal(number, (void (*)(int))(uintptr_t)handler); }
#endif
