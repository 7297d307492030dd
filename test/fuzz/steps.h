/* Counts steps: code that is compiled with -fsanitize-coverage=trace-pc adds 1 to `fuzz_steps` at each basic block. steps.c, which has the
 * counter, is compiled without. */
#ifndef STEPS_H
#define STEPS_H
#include <stdint.h>
#ifdef __cplusplus
extern "C" {
#endif
extern uint64_t fuzz_steps;
void __sanitizer_cov_trace_pc(void);
#ifdef __cplusplus
}
#endif
#endif
