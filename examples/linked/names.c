/* The tables of the headers, a line each: `names` prints the text of each status, the name of each rule and of each refusal, and the size
 * of a command by its first byte. */
#include "nanobot_machine.h"

#include <stdio.h>

static void print_names(const char *what, const char *(*name_of)(uint32_t), uint32_t last)
{
    for (uint32_t number = 0; number <= last; number++)
        printf("%s %u %s\n", what, (unsigned)number, name_of(number));
}

int main(void)
{
    print_names("status", nanobot_status_text, NANOBOT_NO_TRACE);
    print_names("rule", nanobot_rule_name, 16);
    print_names("refusal", nanobot_refusal_name, 13);
    for (unsigned first = 0; first < 256; first++)
        printf("size %u %zu\n", first, nanobot_command_size((uint8_t)first));
    return 0;
}
