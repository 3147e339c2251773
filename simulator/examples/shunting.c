/* One move and one refusal, from C. Fails where the answer is not the expected one. */
#include <stdio.h>
#include <string.h>

#include "zenturpa.h"

static zenturpa_move_answer carry_out(const char *line, uint8_t mode, uint64_t phase, uint8_t *buffer, size_t buffer_len,
                                      size_t len, uint8_t number) {
    return zenturpa_move((const uint8_t *)line, strlen(line), mode, phase, buffer, buffer_len, len, number);
}

int main(void) {
    const char *order = "(order 0 (0 1) (0 2 1) (3 0))";
    uint8_t buffer[4] = {1, 7, 9, 9};
    zenturpa_move_answer a = carry_out(order, 0, 7, buffer, sizeof buffer, 2, 0);
    printf("refusal %u, mode %u, phase %llu, lane %u %u %u, behind it %u\n", (unsigned)a.refusal, (unsigned)a.mode,
           (unsigned long long)a.phase, buffer[0], buffer[1], buffer[2], buffer[3]);
    if (a.refusal != 0 || a.mode != 0 || a.phase != 7 || a.len != 3 || memcmp(buffer, "\2\1\7\11", 4) != 0) {
        return 1;
    }
    a = carry_out(order, 0, 7, buffer, sizeof buffer, a.len, 9);
    printf("refusal %u at %zu\n", (unsigned)a.refusal, a.place);
    return a.refusal == 6 && a.place == 9 && a.len == 3 ? 0 : 1;
}
