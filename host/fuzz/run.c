/* fchdir, mkdtemp and madvise, and __fpurge of the C library, are not all in POSIX. */
#define _GNU_SOURCE

#include "run.h"

#include <fcntl.h>
#include <stdio.h>
#include <stdio_ext.h>
#include <stdlib.h>
#include <sys/mman.h>
#include <unistd.h>

#include "../files.h"
#include "../program.h"

enum { WORDS_MOST = 130, PAGE = 4096 };

/* host/program.c has it by this name here. */
int program_main(int argc, char **argv);

/* What the program keeps: build.sh puts all of its variables into these two sections. */
extern uint8_t __start_host_data[] __attribute__((weak)), __stop_host_data[] __attribute__((weak));
extern uint8_t __start_host_bss[] __attribute__((weak)), __stop_host_bss[] __attribute__((weak));

/* The sanitizers' reports go where standard error was; a fault ends the process by a signal. */
void __sanitizer_set_report_fd(void *fd) __attribute__((weak));
const char *__asan_default_options(void);
const char *__asan_default_options(void)
{
    return "abort_on_error=1:detect_leaks=0";
}

const char *__ubsan_default_options(void);
const char *__ubsan_default_options(void)
{
    return "abort_on_error=1:print_stacktrace=1";
}

static uint8_t *first_data; /* as the program's variables are when it starts */
static FILE *input_file;
static int here, nowhere, nothing, output, errors;

static int checked(int result)
{
    if (result < 0) {
        perror("host/fuzz/run.c");
        exit(2);
    }
    return result;
}

/* ---- each run finds the program as it is when it starts */

/* Byte by byte, and unwatched: between the variables there are bytes that a sanitizer guards. */
__attribute__((no_sanitize_address)) static void
set_bytes(volatile uint8_t *to, const volatile uint8_t *from, const volatile uint8_t *end)
{
    for (; to < end; to++)
        *to = from == NULL ? 0 : *from++;
}

/* The system gives whole pages back as zeros, and only where they were touched. */
static void clear_pages(uint8_t *from, uint8_t *end)
{
    uint8_t *first = from + (PAGE - (uintptr_t)from % PAGE) % PAGE;
    uint8_t *last = end - (uintptr_t)end % PAGE;

    if (first >= last) {
        set_bytes(from, NULL, end);
        return;
    }
    set_bytes(from, NULL, first);
    checked(madvise(first, (size_t)(last - first), MADV_DONTNEED));
    set_bytes(last, NULL, end);
}

static void reset_program(void)
{
    set_bytes(__start_host_data, first_data, __stop_host_data);
    clear_pages(__start_host_bss, __stop_host_bss);
}

/* ---- a run */

/* A folder that was removed: nothing can be made in it, and no name is there. */
static int open_nowhere(void)
{
    char name[] = P_tmpdir "/fuzz-XXXXXX";
    int fd;

    checked(mkdtemp(name) == NULL ? -1 : 0);
    fd = checked(open(name, O_RDONLY | O_DIRECTORY | O_CLOEXEC));
    checked(rmdir(name));
    return fd;
}

static void begin(void)
{
    size_t length = (size_t)(__stop_host_data - __start_host_data);

    first_data = malloc(length + 1);
    input_file = tmpfile();
    checked(first_data == NULL || input_file == NULL ? -1 : 0);
    set_bytes(first_data, __start_host_data, first_data + length);
    checked(dup2(fileno(input_file), STDIN_FILENO));
    here = checked(open(".", O_RDONLY | O_DIRECTORY | O_CLOEXEC));
    nowhere = open_nowhere();
    nothing = checked(open("/dev/null", O_RDWR | O_CLOEXEC));
    output = checked(dup(STDOUT_FILENO));
    errors = checked(dup(STDERR_FILENO));
    if (__sanitizer_set_report_fd != NULL)
        __sanitizer_set_report_fd((void *)(intptr_t)errors);
}

static void move(int folder, int standard_output, int standard_error)
{
    fflush(stdout);
    checked(fchdir(folder));
    checked(dup2(standard_output, STDOUT_FILENO));
    checked(dup2(standard_error, STDERR_FILENO));
}

void run_program(const char *const *words, const uint8_t *input, size_t length)
{
    char *argv[WORDS_MOST] = {(char *)program};
    int argc = 1, status;

    if (first_data == NULL)
        begin();
    for (; words[argc - 1] != NULL && argc < WORDS_MOST - 1; argc++)
        argv[argc] = (char *)words[argc - 1];
    checked(ftruncate(STDIN_FILENO, 0));
    checked(pwrite(STDIN_FILENO, input, length, 0) == (ssize_t)length ? 0 : -1);
    checked((int)lseek(STDIN_FILENO, 0, SEEK_SET));
    __fpurge(stdin);
    clearerr(stdin);
    move(nowhere, nothing, nothing);
    status = program_main(argc, argv);
    move(here, output, errors);
    reset_program();
    if (status < 0 || status > EXIT_SILENCED) {
        fprintf(stderr, "%s %s ended with status %d\n", program, argc > 1 ? argv[1] : "", status);
        abort();
    }
}

void run_mode(const mode *modes, size_t count, const uint8_t *bytes, size_t length)
{
    if (length > 0)
        run_program(modes[bytes[0] % count], bytes + 1, length - 1);
}
