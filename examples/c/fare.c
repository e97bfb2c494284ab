/* fare TARIFF PARAMS DRIVE: prints what a meter shows of a drive, by the static library. */
#include "c_meter.h"
#include <stdio.h>
#include <stdlib.h>

/* What was read of a file; no file may have more than 1 MiB here. */
struct text {
    uint8_t *bytes;
    size_t size;
};

enum { MOST = 1 << 20 };

static struct text read_file(const char *name) {
    struct text text = {malloc(MOST + 1), 0};
    FILE *file = fopen(name, "rb");
    if (!text.bytes || !file) {
        fprintf(stderr, "fare: %s can't be read\n", name);
        exit(7);
    }
    text.size = fread(text.bytes, 1, MOST + 1, file);
    if (ferror(file) || text.size > MOST) {
        fprintf(stderr, "fare: %s can't be read, or is too long\n", name);
        exit(7);
    }
    fclose(file);
    return text;
}

int main(int count, char **words) {
    static uint8_t shown[MOST];
    size_t used = 0;
    if (count != 4) return 1;
    struct text tariff = read_file(words[1]), params = read_file(words[2]), drive = read_file(words[3]);
    uint8_t status = c_meter_fare(tariff.bytes, tariff.size, params.bytes, params.size, drive.bytes, drive.size, shown,
                                  sizeof shown, &used);
    if (status != 0) return status;
    if (fwrite(shown, 1, used, stdout) != used || fflush(stdout) != 0) return 8;
    return 0;
}
