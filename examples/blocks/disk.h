/* The disk: a file or a device, and the fence. */
#pragma once
#include "wire.h"

struct disk {
    int fd, fence_fd;
    uint64_t boot, size;
    uint32_t fence; /* the generation: requests of an older one are refused. Only a barrier changes it */
};

/* Opens the disk. `boot` is what answers carry, or 0: that of this machine. Ends the program if it can't. */
void disk_open(struct disk *disk, const char *path, const char *state, uint64_t boot);

/* Does a request with its data; any thread may, but barriers are done alone. */
struct answer disk_do(struct disk *disk, const struct request *request, uint8_t *data);
