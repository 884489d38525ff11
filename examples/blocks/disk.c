/* The disk, and the fence in the state folder. */
#include "disk.h"
#include "common.h"
#include <fcntl.h>
#include <linux/falloc.h>

/* Each of these returns 0 or an errno. */
static int whole_read(int fd, uint8_t *at, size_t len, off_t offset) {
    for (ssize_t got; len > 0; at += got, len -= (size_t)got, offset += got)
        if ((got = pread(fd, at, len, offset)) <= 0) return got < 0 ? errno : EIO;
    return 0;
}

static int whole_write(int fd, const uint8_t *at, size_t len, off_t offset) {
    for (ssize_t put; len > 0; at += put, len -= (size_t)put, offset += put)
        if ((put = pwrite(fd, at, len, offset)) < 0) return errno;
    return 0;
}

static int deallocate(int fd, const struct request *it) {
    static const uint8_t ZEROES[65536];
    int mode = FALLOC_FL_KEEP_SIZE | (it->op == OP_ZERO ? FALLOC_FL_ZERO_RANGE : FALLOC_FL_PUNCH_HOLE), error = 0;
    if (it->length == 0 || fallocate(fd, mode, (off_t)it->offset, it->length) == 0) return 0;
    if (errno != EOPNOTSUPP && errno != ENOSYS) return errno;
    for (size_t done = 0, part; it->op == OP_ZERO && done < it->length && error == 0; done += part) {
        part = it->length - done < sizeof ZEROES ? it->length - done : sizeof ZEROES;
        error = whole_write(fd, ZEROES, part, (off_t)(it->offset + done));
    }
    return error;
}

/* Moves the fence, in the folder first: it is the length of a file, to which one octet is added. */
static int move_fence(struct disk *disk) {
    if (write(disk->fence_fd, "+", 1) != 1 || fsync(disk->fence_fd) != 0) return EIO;
    disk->fence++;
    return 0;
}

static int change_or_read(struct disk *disk, const struct request *it, uint8_t *data) {
    if (it->op == OP_TAKE_OVER) return move_fence(disk);
    if (it->op == OP_HELLO) return 0;
    if (it->generation < disk->fence) return EPERM;
    if (it->offset > disk->size || it->length > disk->size - it->offset) return it->op == OP_WRITE ? ENOSPC : EINVAL;
    if (it->op == OP_READ) return whole_read(disk->fd, data, it->length, (off_t)it->offset);
    if (it->op == OP_WRITE) return whole_write(disk->fd, data, it->length, (off_t)it->offset);
    return it->op == OP_FLUSH ? 0 : deallocate(disk->fd, it);
}

struct answer disk_do(struct disk *disk, const struct request *it, uint8_t *data) {
    int error = change_or_read(disk, it, data);
    if (it->syncs && it->op != OP_READ && error == 0 && fdatasync(disk->fd) != 0) error = errno;
    if (error && error != EPERM && error != ENOMEM && error != EINVAL && error != ENOSPC) error = EIO;
    return (struct answer){(uint32_t)error, disk->fence, disk->boot, disk->size};
}

/* 48 random bits, which the kernel draws when it starts. */
static uint64_t boot_of_machine(void) {
    unsigned long long boot = 0;
    FILE *file = fopen("/proc/sys/kernel/random/boot_id", "re");
    if (file == NULL || fscanf(file, "%*8c-%*4c-%*4c-%*4c-%llx", &boot) != 1) die_of_errno("the boot_id of /proc");
    fclose(file);
    return boot;
}

static int opened(int folder, const char *path, int flags, uint64_t *size) {
    int fd = openat(folder, path, flags | O_CLOEXEC, 0600);
    off_t end = fd < 0 ? -1 : lseek(fd, 0, SEEK_END);
    if (end < 0) die_of_errno(path);
    *size = (uint64_t)end;
    return fd;
}

void disk_open(struct disk *disk, const char *path, const char *state, uint64_t boot) {
    uint64_t fence;
    int folder = open(state, O_RDONLY | O_DIRECTORY | O_CLOEXEC);
    disk->fd = opened(AT_FDCWD, path, O_RDWR, &disk->size);
    disk->fence_fd = opened(folder, "fence", O_RDWR | O_CREAT | O_APPEND, &fence);
    if (folder < 0 || fsync(folder) != 0 || close(folder) != 0) die_of_errno(state);
    disk->fence = (uint32_t)fence;
    disk->boot = boot ? boot : boot_of_machine();
}
