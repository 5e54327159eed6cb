/* Prints the map of the README: one ONU with one Alloc-ID at a fixed rate of ten words a frame. */
#include "sezhimow.h"

#include <inttypes.h>
#include <stdio.h>

int main(void) {
    sez_port port = SEZ_CLOSED_HANDLE;
    uint8_t room[SEZ_MAP_ROOM];
    sez_map_info map;
    if (sez_open(&port, 16, 0, 0) != SEZ_DONE) return 1;
    uint32_t told = sez_admit(&port, 5, 1024, 2560, 0, 2560, SEZ_CLASS_NONE);
    if (told == SEZ_DONE) told = sez_map(&port, room, sizeof room, &map);
    if (told == SEZ_DONE) {
        printf("map %" PRIu64 " ", map.frame);
        for (size_t index = 0; index < map.size; index++) printf("%02x", room[index]);
        printf("\n");
    } else fprintf(stderr, "refused: %" PRIu32 "\n", told);
    if (sez_close(&port) != SEZ_DONE) return 1;
    return told == SEZ_DONE ? 0 : 1;
}
