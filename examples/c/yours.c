/* Plans the site file on standard input: prints what it costs and what each task does, or why it is
   refused. */
#include <stdio.h>
#include <towhepamu.h>

int main(void) {
    static uint8_t text[TOWHEPAMU_MOST_TEXT_BYTES + 1]; /* a byte too many is refused, not cut */
    static uint8_t plan[TOWHEPAMU_MOST_TASKS], table[TOWHEPAMU_MOST_TABLE_BYTES];
    size_t length = fread(text, 1, sizeof text, stdin);
    towhepamu_planned answer = towhepamu_plan(text, length, plan, sizeof plan, table, sizeof table);
    if (answer.refusal != TOWHEPAMU_ACCEPTED) {
        printf("refused %d %d\n", (int)answer.refusal, (int)answer.place);
        return 1;
    }
    printf("cost %llu, task 1 has choice %d\n", (unsigned long long)answer.cost, plan[0]);
    return 0;
}
