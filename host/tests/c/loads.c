/* Calls the three functions on files, with a list of so many entries, entry i holding 1000000 + i,
 * and prints what they return and the list: loads SURVEY VEHICLE YARD ENTRIES */
#include <inttypes.h>
#include <stdio.h>
#include <stdlib.h>
#include "tbr.h"

#define LONGEST 10000

struct file {
    uint8_t bytes[LONGEST];
    size_t length;
};

static struct file survey, vehicle, yard;
static uint64_t list[LONGEST];

static int read_file(const char *path, struct file *file) {
    FILE *stream = fopen(path, "rb");
    if (stream == NULL)
        return 0;
    file->length = fread(file->bytes, 1, LONGEST, stream);
    return fclose(stream) == 0;
}

static void print(const char *name, const struct tbr_numbers *numbers) {
    printf("%s %" PRIu64 " %" PRIu64 " %" PRIu64 " %" PRIu64 " %" PRIu64 "\n", name,
           numbers->refusal, numbers->place, numbers->figure, numbers->governing, numbers->passes);
}

static void lend(size_t entries) {
    for (size_t i = 0; i < entries; i++)
        list[i] = 1000000 + i;
}

static void print_list(size_t entries) {
    printf("list");
    for (size_t i = 0; i < entries; i++)
        printf(" %" PRIu64, list[i]);
    printf("\n");
}

int main(int count, char **words) {
    if (count != 5 || !read_file(words[1], &survey) || !read_file(words[2], &vehicle) ||
        !read_file(words[3], &yard))
        return 2;
    size_t entries = strtoul(words[4], NULL, 10);
    if (entries > LONGEST)
        return 2;
    lend(entries);
    struct tbr_numbers judged =
        tbr_judge(survey.bytes, survey.length, vehicle.bytes, vehicle.length);
    struct tbr_loads loads = tbr_member_loads(survey.bytes, survey.length, vehicle.bytes,
                                              vehicle.length, list, entries);
    print("judge", &judged);
    print("loads", &loads.judged);
    printf("members %" PRIu64 "\n", loads.members);
    print_list(entries);
    lend(entries);
    struct tbr_yard_numbers judged_yard =
        tbr_yard(survey.bytes, survey.length, yard.bytes, yard.length, list, entries);
    printf("yard %" PRIu64 " %" PRIu64 " %" PRIu64 " %" PRIu64 "\n", judged_yard.refusal,
           judged_yard.place, judged_yard.vehicles, judged_yard.passes);
    print_list(entries);
    return 0;
}
