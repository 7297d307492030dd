/* What the commands in this folder ask of the system besides the C library: memory, the words and the environment
 * that they were started with, and the number of the last error. Compile it with commands-MACHINE.s. The comment at
 * each call says what the code that calls it takes as given: no proof covers this file or the C library. */
#include <errno.h>
#include <stdbool.h>
#include <stddef.h>
#include <stdint.h>
#include <stdlib.h>
#include <string.h>
#include <sys/types.h>

/* Whether there is memory, and where. Where there is none, `block` points to a byte that nothing else uses, and
 * isn't NULL. */
typedef struct {
    bool is_there;
    void *block;
} memory;

memory rattle_alloc(size_t size, size_t align);
memory rattle_realloc(void *block, size_t kept, size_t size, size_t align);
void rattle_dealloc(void *block);
ssize_t rattle_arg(size_t index, uint8_t *room, size_t size);
ssize_t rattle_env(const char *name, uint8_t *room, size_t size);
ssize_t rattle_env_at(size_t index, uint8_t *room, size_t size);
int rattle_errno(void);
void rattle_set_errno(int number);
int ndef_commands(void);
extern char **environ;

static uint8_t nowhere;
static size_t count;
static char **words;

static memory found(void *block) {
    memory answer = { block != NULL, block != NULL ? block : &nowhere };
    return answer;
}

/* A new block of `size` bytes, which nothing else uses until it is freed, aligned to `align`, which divides 16; or
 * no memory. malloc aligns to 16 on the machines of this folder. It may give NULL for 0 bytes, so it is asked for 1
 * then. */
memory rattle_alloc(size_t size, size_t align) {
    (void)align;
    return found(malloc(size != 0 ? size : 1));
}

/* The block made one of `size` bytes, perhaps elsewhere, with the same first `kept` bytes, which are at most
 * `size`; or no memory, and the block is as it was. realloc keeps all bytes that fit. It may free the block for 0
 * bytes, so it is asked for 1 then. */
memory rattle_realloc(void *block, size_t kept, size_t size, size_t align) {
    (void)kept;
    (void)align;
    return found(realloc(block, size != 0 ? size : 1));
}

/* Frees a block that one of the two gave and that isn't freed yet. */
void rattle_dealloc(void *block) { free(block); }

/* Puts a text at the start of the room and gives its length; or -1 where there is none, or -2 where it doesn't fit,
 * and then the room is full. Nothing else is written. */
static ssize_t put(const char *text, uint8_t *room, size_t size) {
    size_t length;
    if (text == NULL) return -1;
    length = strlen(text);
    if (size != 0) memcpy(room, text, length < size ? length : size);
    return length <= size ? (ssize_t)length : -2;
}

/* The word with this number of those that the program was started with, its name first, as `put` gives it. It may
 * be called with any number. */
ssize_t rattle_arg(size_t index, uint8_t *room, size_t size) {
    return put(index < count ? words[index] : NULL, room, size);
}

/* The variable of the environment with this name, which ends with a 0, as `put` gives it. */
ssize_t rattle_env(const char *name, uint8_t *room, size_t size) { return put(getenv(name), room, size); }

/* The entry of the environment with this number, name and value, as `put` gives it. It may be called with any
 * number. */
ssize_t rattle_env_at(size_t index, uint8_t *room, size_t size) {
    size_t at = 0;
    while (environ != NULL && environ[at] != NULL && at < index) at++;
    return put(environ != NULL ? environ[at] : NULL, room, size);
}

/* The number of the error of the last call to the C library that failed. */
int rattle_errno(void) { return errno; }

/* Makes this the number that rattle_errno gives, until a call fails. */
void rattle_set_errno(int number) { errno = number; }

int main(int argc, char **argv) {
    count = argc > 0 ? (size_t)argc : 0;
    words = argv;
    return ndef_commands();
}
