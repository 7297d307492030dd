#include "steps.h"

uint64_t fuzz_steps;

void __sanitizer_cov_trace_pc(void) { fuzz_steps++; }
