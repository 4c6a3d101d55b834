/* The four calls from C, on the files that the arguments name: PLANT PLAN SLOTS. Prints the profit, whether slots and plan are each
 * other's, and the length and the mounted product of the plant that is rolled on after the first week with the small plant's rates. */
#include <inttypes.h>
#include <stdio.h>
#include <string.h>

#include "doxkarin.h"

enum { ROOM = 65536 };

static size_t read_file(const char *path, uint8_t *bytes) {
    FILE *file = fopen(path, "rb");
    if (file == NULL) {
        return 0;
    }
    size_t length = fread(bytes, 1, ROOM, file);
    fclose(file);
    return length;
}

int main(int count, char **arguments) {
    static uint8_t plant[ROOM], plan[ROOM], slots[ROOM], out[ROOM];
    if (count != 4) {
        return 2;
    }
    size_t plant_length = read_file(arguments[1], plant);
    size_t plan_length = read_file(arguments[2], plan);
    size_t slots_length = read_file(arguments[3], slots);

    int64_t profit = 0;
    uint32_t refusal = doxkarin_check(plant, plant_length, plan, plan_length, &profit);
    printf("check %" PRIu32 " %" PRId64 "\n", refusal, profit);

    uint64_t length = 0;
    refusal = doxkarin_slots(plant, plant_length, plan, plan_length, out, ROOM, &length);
    int same = length == slots_length && memcmp(out, slots, slots_length) == 0;
    printf("slots %" PRIu32 " %s\n", refusal, same ? "same" : "different");

    length = 0;
    refusal = doxkarin_plan(plant, plant_length, slots, slots_length, out, ROOM, &length);
    same = length == plan_length && memcmp(out, plan, plan_length) == 0;
    printf("plan %" PRIu32 " %s\n", refusal, same ? "same" : "different");

    static const uint8_t rates[] = {100, 0, 0, 0, 50, 0, 0, 0};
    length = 0;
    refusal = doxkarin_roll(plant, plant_length, plan, plan_length, 1, rates, sizeof rates, out, ROOM, &length);
    printf("roll %" PRIu32, refusal);
    if (refusal == 0) {
        printf(" %" PRIu64 " bytes, %u mounted", length, (unsigned)out[length - 2]);
    }
    printf("\n");
    return 0;
}
