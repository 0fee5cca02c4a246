/* Preloaded before the program, so that its reads of standard input and its writes to standard output pass through here. The
   environment says what happens to them, with numbers (0 where nothing is said); what they answered is told on standard error at
   the end.

   CALLS_READ_MOST      a read asks the system for at most so many bytes
   CALLS_READ_REFUSED   before each read that gets to the system so many answer EINTR
   CALLS_WRITE_MOST     a write gives the system at most so many bytes
   CALLS_SIGNAL_EVERY   so many microseconds apart a signal comes, whose handler restarts nothing: a read that waits is interrupted */

#include <errno.h>
#include <signal.h>
#include <stdio.h>
#include <stdlib.h>
#include <string.h>
#include <sys/syscall.h>
#include <sys/time.h>
#include <unistd.h>

extern long syscall(long number, ...);
extern int dprintf(int fd, const char *format, ...);

static unsigned long read_most, read_refused, write_most, refused_since;
static unsigned long with_bytes, ended, interrupted, writes;

static unsigned long number(const char *name)
{
    const char *digit = getenv(name);
    unsigned long value = 0;
    for (; digit && *digit; digit++)
        value = 10 * value + (unsigned long)(*digit - '0');
    return value;
}

static void pass(int signal)
{
    (void)signal;
}

static void signals_every(long microseconds)
{
    struct itimerval timer = {{0, microseconds}, {0, microseconds}};
    setitimer(ITIMER_REAL, &timer, NULL);
}

__attribute__((constructor)) static void begin(void)
{
    unsigned long every = number("CALLS_SIGNAL_EVERY");
    read_most = number("CALLS_READ_MOST");
    read_refused = number("CALLS_READ_REFUSED");
    write_most = number("CALLS_WRITE_MOST");
    if (every) {
        struct sigaction action;
        memset(&action, 0, sizeof action);
        action.sa_handler = pass;
        sigaction(SIGALRM, &action, NULL);
        signals_every((long)every);
    }
}

ssize_t read(int fd, void *buffer, size_t count)
{
    long got;
    if (fd != STDIN_FILENO)
        return syscall(SYS_read, fd, buffer, count);
    if (refused_since < read_refused) {
        refused_since++;
        interrupted++;
        errno = EINTR;
        return -1;
    }
    refused_since = 0;
    if (read_most && count > read_most)
        count = read_most;
    got = syscall(SYS_read, fd, buffer, count);
    with_bytes += got > 0;
    ended += got == 0;
    interrupted += got < 0 && errno == EINTR;
    return got;
}

ssize_t write(int fd, const void *bytes, size_t count)
{
    if (fd == STDOUT_FILENO) {
        signals_every(0);
        writes++;
        if (write_most && count > write_most)
            count = write_most;
    }
    return syscall(SYS_write, fd, bytes, count);
}

__attribute__((destructor)) static void end(void)
{
    signals_every(0);
    dprintf(STDERR_FILENO, "%lu %lu %lu %lu\n", with_bytes, ended, interrupted, writes);
}
