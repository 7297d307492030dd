/* What packaging/c/join_archives links with the library for any x86-64 and the library for x86-64-v2, so that one archive holds both. Each call
   of the header is an indirect function (STT_GNU_IFUNC): where a program is loaded, the loader asks the chooser of the call once
   which of the two is called. `calls.h`, which packaging/c/join_archives writes, has a line CHOOSE(NAME) for each call. */
#include "has_v2.h"

typedef void call(void);

#define HIDDEN __attribute__((visibility("hidden")))
#define CHOOSE(name)                                                                                                       \
    HIDDEN call plain_##name, faster_##name;                                                                               \
    static call *chosen_##name(void) { return has_v2() ? faster_##name : plain_##name; }                                   \
    call name __attribute__((ifunc("chosen_" #name)));

#include "calls.h"
