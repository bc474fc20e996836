#include <stdio.h>
#include <string.h>
#include <switchbr.h>

static const char scenario[] = "scenario 1\nport 1 p1 chip 1\nport 2 p2 chip 1\ncmd port up p1\ncmd port up p2\n"
                               "rx 1 02000000000b02000000000a88b50102\nend\n";

int main(void) {
    uint8_t told[4096];
    size_t len;
    switchbr_status status = switchbr_replay((const uint8_t *)scenario, strlen(scenario), told, sizeof told, &len);
    if (status != SWITCHBR_OK) return status;
    fwrite(told, 1, len, stdout);
    uint32_t line;
    return switchbr_check((const uint8_t *)scenario, strlen(scenario), told, len, &line);
}
