/* What packaging/build/dist.sh compiles with the commands of dist/ where dist/ has their code for any x86-64 and for x86-64-v2: dist/runtime.c
   calls `chosen_commands` in the place of `ndef_commands` then, by -Dndef_commands=chosen_commands. The faster code is a module of its own:
   that for any x86-64, compiled again for x86-64-v2, is hardly faster, since its shuffles are loops already. */
#undef ndef_commands
#include "has_v2.h"

int ndef_commands(void), ndef_commands_v2(void), chosen_commands(void);

int chosen_commands(void) { return has_v2() ? ndef_commands_v2() : ndef_commands(); }
