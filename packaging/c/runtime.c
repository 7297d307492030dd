/* What the commands ask of the system: memory, the words and the environment that they were started with, files, and the
 * number of the last error. Compile it with commands.c, on any system with POSIX or on Windows (MinGW), or on Linux with
 * commands-MACHINE.s, which calls Linux's C library for files itself. The proved code knows the numbers of Linux, so
 * they cross here on every system. No proof covers this file or the C library. */
#if !defined(_WIN32)
#define _POSIX_C_SOURCE 200809L
#define _FILE_OFFSET_BITS 64
#endif
#include <errno.h>
#include <fcntl.h>
#include <limits.h>
#include <signal.h>
#include <stdint.h>
#include <stdlib.h>
#include <string.h>
#include <sys/stat.h>
#include <sys/types.h>
#if defined(_WIN32)
#include <io.h>
#include <windows.h>
#include <shellapi.h>
#else
#include <unistd.h>
#endif

/* Whether there is memory, and its address. If there is none, that of a byte that nothing else uses. */
struct nd_64_64 {
    uint64_t f0, f1;
};

struct nd_64_64 rattle_alloc(uint64_t size, uint64_t align);
struct nd_64_64 rattle_realloc(unsigned char *block, uint64_t kept, uint64_t size, uint64_t align);
void rattle_dealloc(unsigned char *block);
uint64_t rattle_arg(uint64_t index, unsigned char *to, uint64_t size);
uint64_t rattle_env(unsigned char *name, unsigned char *to, uint64_t size);
uint32_t rattle_errno(void);
void rattle_set_errno(uint32_t number);
uint64_t ndef_host_signal(uint32_t number, uint64_t action);
uint32_t ndef_host_isatty(uint32_t file);
uint64_t ndef_host_lseek(uint32_t file, uint64_t places, uint32_t from);
uint64_t ndef_host_read(uint32_t file, unsigned char *to, uint64_t size);
uint64_t ndef_host_write(uint32_t file, unsigned char *from, uint64_t size);
uint32_t ndef_host_open(unsigned char *path, uint32_t flags);
uint32_t ndef_host_statx(uint32_t file, unsigned char *path, uint32_t flags, uint32_t mask, unsigned char *found);
uint32_t ndef_host_close(uint32_t file);
int ndef_commands(void);

static unsigned char nowhere;
static size_t count;
static char **words;

static struct nd_64_64 found(void *block) {
    struct nd_64_64 answer;
    answer.f0 = block != NULL;
    answer.f1 = (uint64_t)(uintptr_t)(block != NULL ? block : &nowhere);
    return answer;
}

/* A new block of `size` bytes, which nothing else uses until it is freed, aligned to `align`, which divides 16; or no
 * memory. The C file has no use for an alignment over 8, which malloc keeps on every machine; on those of the assembly it
 * keeps 16. It may give NULL for 0 bytes, so it is asked for 1 then. */
struct nd_64_64 rattle_alloc(uint64_t size, uint64_t align) {
    (void)align;
    return found(size > PTRDIFF_MAX ? NULL : malloc(size != 0 ? (size_t)size : 1));
}

/* The block made one of `size` bytes, perhaps elsewhere, with the same first `kept` bytes, which are at most `size`; or
 * no memory, and the block is as it was. realloc keeps all bytes that fit. It may free the block for 0 bytes, so it is
 * asked for 1 then. */
struct nd_64_64 rattle_realloc(unsigned char *block, uint64_t kept, uint64_t size, uint64_t align) {
    (void)kept;
    (void)align;
    return found(size > PTRDIFF_MAX ? NULL : realloc(block, size != 0 ? (size_t)size : 1));
}

/* Frees a block that one of the two gave and that isn't freed yet. */
void rattle_dealloc(unsigned char *block) { free(block); }

/* Writes a text from `to` on and gives its length; or -1 if there is none, or -2 if it is longer than `size`, of which
 * all is written then. */
static uint64_t put(const char *text, unsigned char *to, uint64_t size) {
    size_t length;
    if (text == NULL) return (uint64_t)-1;
    length = strlen(text);
    if (size != 0) memcpy(to, text, length < size ? length : (size_t)size);
    return length <= size ? length : (uint64_t)-2;
}

/* The word with this number of those that the program was started with, its name first, as `put` gives it. It may be
 * called with any number. */
uint64_t rattle_arg(uint64_t index, unsigned char *to, uint64_t size) {
    return put(index < count ? words[(size_t)index] : NULL, to, size);
}

/* The variable of the environment with this name, which ends with a 0, as `put` gives it. */
uint64_t rattle_env(unsigned char *name, unsigned char *to, uint64_t size) { return put(getenv((char *)name), to, size); }

/* The numbers of the errors that the program tells apart, here and on Linux. */
static const int numbers[][2] = {
    { 0, 0 }, { EPERM, 1 }, { ENOENT, 2 }, { EINTR, 4 }, { EAGAIN, 11 }, { ENOMEM, 12 }, { EACCES, 13 }, { ENOTDIR, 20 },
    { EISDIR, 21 }, { EINVAL, 22 }, { EFBIG, 27 }, { ENOSPC, 28 }, { EPIPE, 32 },
};

/* The number of an error in the other column. Other numbers cross as they are: the program sets some itself and asks for them again. */
static int across(int number, int from, int to) {
    size_t i;
    for (i = 0; i < sizeof numbers / sizeof *numbers; i++)
        if (numbers[i][from] == number) return numbers[i][to];
    return number;
}

/* Linux's number of the error of the last call that failed. */
uint32_t rattle_errno(void) { return (uint32_t)across(errno, 0, 1); }

/* Makes this the number that rattle_errno gives, until a call fails. */
void rattle_set_errno(uint32_t number) { errno = across((int)number, 1, 0); }

#if defined(_WIN32)

/* A text as UTF-16, which the caller frees, or NULL. */
static wchar_t *widened(const char *text) {
    int length = MultiByteToWideChar(CP_UTF8, 0, text, -1, NULL, 0);
    wchar_t *wide = length > 0 ? malloc((size_t)length * sizeof *wide) : NULL;
    if (wide != NULL) MultiByteToWideChar(CP_UTF8, 0, text, -1, wide, length);
    return wide;
}

/* There is no signal to leave out: a pipe that nothing reads is an error of _write. */
uint64_t ndef_host_signal(uint32_t number, uint64_t action) {
    (void)number;
    (void)action;
    return 0;
}

uint32_t ndef_host_isatty(uint32_t file) { return _isatty((int)file) != 0; }

/* A pipe and a console have no place to go to. */
uint64_t ndef_host_lseek(uint32_t file, uint64_t places, uint32_t from) {
    errno = EINVAL;
    if (GetFileType((HANDLE)_get_osfhandle((int)file)) != FILE_TYPE_DISK) return UINT64_MAX;
    return (uint64_t)_lseeki64((int)file, (int64_t)places, (int)from);
}

static unsigned at_once(uint64_t size) { return size < 1 << 20 ? (unsigned)size : 1 << 20; }

uint64_t ndef_host_read(uint32_t file, unsigned char *to, uint64_t size) {
    return (uint64_t)(int64_t)_read((int)file, to, at_once(size));
}

uint64_t ndef_host_write(uint32_t file, unsigned char *from, uint64_t size) {
    return (uint64_t)(int64_t)_write((int)file, from, at_once(size));
}

/* The program opens files only to read. Windows refuses a folder as it does a file without permission. */
uint32_t ndef_host_open(unsigned char *path, uint32_t flags) {
    struct _stat64 about;
    wchar_t *wide = widened((char *)path);
    int file = -1, number;
    errno = wide == NULL ? ENOMEM : EACCES;
    if (wide != NULL && (flags & 3) == 0) file = _wopen(wide, _O_RDONLY | _O_BINARY);
    number = errno;
    if (file < 0 && wide != NULL && _wstat64(wide, &about) == 0 && (about.st_mode & _S_IFDIR)) number = EISDIR;
    free(wide);
    errno = number;
    return (uint32_t)file;
}

static int look(uint32_t file, const char *path, int64_t *size, uint16_t *mode) {
    struct _stat64 about;
    wchar_t *wide = path != NULL ? widened(path) : NULL;
    int got = path == NULL ? _fstat64((int)file, &about) : wide != NULL ? _wstat64(wide, &about) : -1;
    free(wide);
    if (got != 0) return -1;
    *size = about.st_size;
    *mode = about.st_mode;
    return 0;
}

uint32_t ndef_host_close(uint32_t file) { return (uint32_t)_close((int)file); }

/* The words of the command line, in UTF-8, and the program's name without folders and `.exe`. */
static int take_words(void) {
    int given = 0, i;
    wchar_t **wide = CommandLineToArgvW(GetCommandLineW(), &given);
    char *name, *at;
    if (wide == NULL || given < 1 || (words = calloc((size_t)given, sizeof *words)) == NULL) return 0;
    for (i = 0; i < given; i++) {
        int length = WideCharToMultiByte(CP_UTF8, 0, wide[i], -1, NULL, 0, NULL, NULL);
        if (length < 1 || (words[i] = malloc((size_t)length)) == NULL) return 0;
        WideCharToMultiByte(CP_UTF8, 0, wide[i], -1, words[i], length, NULL, NULL);
    }
    for (name = at = words[0]; *at != 0; at++)
        if (*at == '\\' || *at == '/') name = at + 1;
    if (at - name > 4 && _stricmp(at - 4, ".exe") == 0) at[-4] = 0;
    words[0] = name;
    count = (size_t)given;
    return 1;
}

/* The streams take octets. Without memory for the words the program ends as the proved code does. */
int main(void) {
    int i;
    for (i = 0; i < 3; i++) _setmode(i, _O_BINARY);
    return take_words() ? ndef_commands() : 3;
}

#else

uint64_t ndef_host_signal(uint32_t number, uint64_t action) {
    if (number == 13 && action == 1) signal(SIGPIPE, SIG_IGN);
    return 0;
}

uint32_t ndef_host_isatty(uint32_t file) { return isatty((int)file) != 0; }

uint64_t ndef_host_lseek(uint32_t file, uint64_t places, uint32_t from) {
    return (uint64_t)(int64_t)lseek((int)file, (off_t)(int64_t)places, from == 0 ? SEEK_SET : from == 1 ? SEEK_CUR : SEEK_END);
}

static size_t at_once(uint64_t size) { return size < INT_MAX ? (size_t)size : INT_MAX; }

uint64_t ndef_host_read(uint32_t file, unsigned char *to, uint64_t size) {
    return (uint64_t)(int64_t)read((int)file, to, at_once(size));
}

uint64_t ndef_host_write(uint32_t file, unsigned char *from, uint64_t size) {
    return (uint64_t)(int64_t)write((int)file, from, at_once(size));
}

/* The program opens files only to read. */
uint32_t ndef_host_open(unsigned char *path, uint32_t flags) {
    errno = EACCES;
    return (uint32_t)((flags & 3) == 0 ? open((char *)path, O_RDONLY | O_NOCTTY | O_CLOEXEC) : -1);
}

static int look(uint32_t file, const char *path, int64_t *size, uint16_t *mode) {
    struct stat about;
    if ((path == NULL ? fstat((int)file, &about) : stat(path, &about)) != 0) return -1;
    *size = about.st_size;
    *mode = (uint16_t)about.st_mode;
    return 0;
}

uint32_t ndef_host_close(uint32_t file) { return (uint32_t)close((int)file); }

int main(int argc, char **argv) {
    count = argc > 0 ? (size_t)argc : 0;
    words = argv;
    return ndef_commands();
}

#endif

/* Linux's statx: of a file that is open, or of a path from the working folder. It says the kind of the file, whose bits
 * are the same on all systems, and the size, at Linux's places; the rest is 0. */
uint32_t ndef_host_statx(uint32_t file, unsigned char *path, uint32_t flags, uint32_t mask, unsigned char *answer) {
    const uint32_t said = 0x201, empty_path = 0x1000;
    int64_t size = 0;
    uint16_t mode = 0;
    (void)mask;
    if (look(file, (flags & empty_path) && *path == 0 ? NULL : (char *)path, &size, &mode) != 0) return UINT32_MAX;
    memset(answer, 0, 256);
    memcpy(answer, &said, sizeof said);
    memcpy(answer + 28, &mode, sizeof mode);
    memcpy(answer + 40, &size, sizeof size);
    return 0;
}
