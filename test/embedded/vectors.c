/* What a Cortex-M processor starts with: where the stack ends, and the first function. */
void _start(void);
__attribute__((section(".vectors"), used)) static void *const vectors[] = { (void *)0x00300000, (void *)_start };
