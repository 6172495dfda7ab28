/* The start of a Cortex-M3: the stack's top and the first address lie where the processor looks for them; then memory is set up. */
#include <stdint.h>

extern uint32_t data_from[], data_begins[], data_ends[], bss_begins[], bss_ends[], stack_top[];
int main(void);
void leave(int status);
void reset(void);

__attribute__((section(".vectors"), used)) static const void *const vectors[] = { stack_top, (const void *)reset };

void reset(void)
{
    uint32_t *to;
    const uint32_t *from = data_from;
    for (to = data_begins; to < data_ends; to++)
        *to = *from++;
    for (to = bss_begins; to < bss_ends; to++)
        *to = 0;
    leave(main());
    for (;;)
        ;
}
