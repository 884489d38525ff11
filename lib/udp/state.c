/* The state folder of a node: what has to outlive a program, so that the next start of its node is safe.
 * docs/formats.md has the form of its files. The driver keeps one for dt_udp_open, and programs that open their nodes
 * themselves keep one by the functions below, as deltat.State of Python does; tools/run-node keeps the same files.
 *
 * Nothing leaves the node, and nothing is passed to it, later than the moment in the file `last`, which is written
 * ahead of time: so a program that is killed at any instruction leaves a moment that is late enough. */
#include "udp.h"
#include <dirent.h>
#include <errno.h>
#include <fcntl.h>
#include <inttypes.h>
#include <stdarg.h>
#include <stdio.h>
#include <stdlib.h>
#include <string.h>
#include <sys/file.h>
#include <sys/random.h>
#include <sys/stat.h>
#include <time.h>
#include <unistd.h>

enum { TEXT = 512, LEAST_AHEAD_MS = 50, BOOT = 36, FIRST_FRESH = 65536 };

static const uint32_t DRAWN_FROM = UINT32_C(1)
                                   << 31; /* lives are counted from 1, and drawn from here on if the count is lost */
static const char NO_BOOT[] = "00000000-0000-0000-0000-000000000000";

/* --- octets of files */

static uint32_t crc32_of(const char *octets, size_t len) {
    uint32_t crc = UINT32_MAX;
    for (size_t i = 0; i < len; i++) {
        crc ^= (uint8_t)octets[i];
        for (int bit = 0; bit < 8; bit++) crc = crc >> 1 ^ (crc & 1 ? 0xedb88320u : 0);
    }
    return ~crc;
}

/* Adds the last line, the checksum of those before it. */
static size_t checked(char text[TEXT], int len) {
    return (size_t)(len +
                    snprintf(text + len, TEXT - (size_t)len, "check %08" PRIx32 "\n", crc32_of(text, (size_t)len)));
}

/* What the file `state` has. */
struct lives {
    uint32_t node, life, numbers[11];
};

static size_t lives_text(const struct lives *it, char text[TEXT]) {
    int len = snprintf(text, TEXT, "deltat state 1\nnode %" PRIu32 "\nparams", it->node);
    for (int i = 0; i < 11; i++) len += snprintf(text + len, TEXT - (size_t)len, " %" PRIu32, it->numbers[i]);
    return checked(text, len + snprintf(text + len, TEXT - (size_t)len, "\nlife %" PRIu32 "\n", it->life));
}

/* Whether the octets are a whole file `state`: exactly those that are written for what they say. */
static bool read_lives(const char *octets, size_t len, struct lives *it) {
    uint32_t *n = it->numbers;
    char text[TEXT];
    int found = sscanf(octets,
                       "deltat state 1\nnode %" SCNu32 "\nparams %" SCNu32 " %" SCNu32 " %" SCNu32 " %" SCNu32
                       " %" SCNu32 " %" SCNu32 " %" SCNu32 " %" SCNu32 " %" SCNu32 " %" SCNu32 " %" SCNu32
                       "\nlife %" SCNu32,
                       &it->node, n, n + 1, n + 2, n + 3, n + 4, n + 5, n + 6, n + 7, n + 8, n + 9, n + 10, &it->life);
    return found == 13 && lives_text(it, text) == len && memcmp(text, octets, len) == 0;
}

/* What the file `last` has. */
struct last {
    char boot[BOOT + 1];
    int64_t clock;
    uint64_t until;
};

static size_t last_text(const struct last *it, char text[TEXT]) {
    return checked(text, snprintf(text, TEXT, "deltat last 1\nboot %s\nclock %+020" PRId64 "\nuntil %020" PRIu64 "\n",
                                  it->boot, it->clock, it->until));
}

static bool read_last(const char *octets, size_t len, struct last *it) {
    char text[TEXT];
    int found = sscanf(octets, "deltat last 1\nboot %36[0-9a-f-]\nclock %" SCNd64 "\nuntil %" SCNu64, it->boot,
                       &it->clock, &it->until);
    return found == 3 && last_text(it, text) == len && memcmp(text, octets, len) == 0;
}

/* The first octets of a file, as text. -1: it isn't there, or can't be read, and errno says which. */
static ssize_t read_file(int folder, const char *name, char text[TEXT]) {
    int file = openat(folder, name, O_RDONLY | O_CLOEXEC | O_NONBLOCK);
    if (file < 0) return -1;
    ssize_t len = read(file, text, TEXT - 1);
    int why = errno;
    close(file);
    errno = why;
    if (len >= 0) text[len] = 0;
    return len;
}

/* Replaces a file as a whole; it is on the disk, with its name, when this returns. */
static bool replace_state(int folder, const char *octets, size_t len) {
    int file = openat(folder, "state.new", O_WRONLY | O_CREAT | O_TRUNC | O_CLOEXEC, 0600);
    if (file < 0) return false;
    bool done = write(file, octets, len) == (ssize_t)len && fsync(file) == 0;
    int why = errno;
    done = close(file) == 0 && done;
    errno = why;
    return done && renameat(folder, "state.new", folder, "state") == 0 && fsync(folder) == 0;
}

/* --- the machine */

static void read_boot(char boot[BOOT + 1]) {
    char text[TEXT];
    ssize_t len = read_file(AT_FDCWD, "/proc/sys/kernel/random/boot_id", text);
    bool known = len >= BOOT && strspn(text, "0123456789abcdef-") == BOOT;
    memcpy(boot, known ? text : NO_BOOT, BOOT);
    boot[BOOT] = 0;
}

/* How far this process's CLOCK_BOOTTIME is ahead of the machine's, in ns: a time namespace moves it. False: not
 * known. */
static bool read_clock(int64_t *ahead) {
    char own[64], children[64], text[TEXT];
    *ahead = 0;
    ssize_t len = readlink("/proc/self/ns/time", own, sizeof own),
            other = readlink("/proc/self/ns/time_for_children", children, sizeof children);
    if (len < 0 && errno == ENOENT) return true; /* (a kernel without time namespaces) */
    if (len <= 0 || len != other || memcmp(own, children, (size_t)len) != 0) return false;
    if (read_file(AT_FDCWD, "/proc/self/timens_offsets", text) < 0) return errno == ENOENT;
    const char *line = strstr(text, "boottime");
    int64_t seconds, nanoseconds;
    if (line == NULL || sscanf(line, "boottime %" SCNd64 " %" SCNd64, &seconds, &nanoseconds) != 2) return false;
    *ahead = seconds * 1000000000 + nanoseconds;
    return true;
}

/* By which start of the machine and which clock the caller reads the time. */
static void read_machine(struct last *it, const struct dt_udp_state_options *o) {
    if (o->boot == NULL) {
        read_boot(it->boot);
        if (!read_clock(&it->clock)) memcpy(it->boot, NO_BOOT, sizeof NO_BOOT);
    } else {
        memcpy(it->boot, o->boot, BOOT);
        it->boot[BOOT] = 0;
        it->clock = o->clock_ahead;
    }
}

struct dt_udp_state {
    struct dt_udp_keeper keeper;
    struct dt_udp_state_start start;
    struct lives own;
    struct last machine;
    uint64_t ended;        /* when the last life ended, in ms */
    int folder, lock, last; /* -1: none */
    int system_error;
    pid_t owner;
    bool known;      /* something in the folder is of an earlier life */
    bool has_state;  /* the file `state` was whole */
    bool ends_known; /* `ended` is */
    bool begun;
};

/* --- the folder */

/* Makes the folders of a path that aren't there; each name of it is on the disk then. */
static bool make_folders(const char *path) {
    char part[4096];
    size_t len = strlen(path);
    if (len == 0 || len >= sizeof part) return errno = ENAMETOOLONG, false;
    for (size_t i = 1; i <= len; i++) {
        if (path[i] != '/' && path[i] != 0) continue;
        memcpy(part, path, i);
        part[i] = 0;
        if (mkdir(part, 0700) != 0) {
            if (errno == EEXIST) continue;
            return false;
        }
        char *slash = strrchr(part, '/');
        if (slash) slash[slash == part] = 0;
        int parent = open(slash ? part : ".", O_RDONLY | O_DIRECTORY | O_CLOEXEC);
        bool done = parent >= 0 && fsync(parent) == 0;
        if (parent >= 0) close(parent);
        if (!done) return false;
    }
    return true;
}

static bool is_ours(const char *name) {
    static const char *const OURS[] = {"lock", "state", "state.new", "state.damaged", "last"};
    for (size_t i = 0; i < sizeof OURS / sizeof *OURS; i++)
        if (strcmp(name, OURS[i]) == 0) return true;
    size_t digits = strncmp(name, "node-", 5) == 0 ? strspn(name + 5, "0123456789") : 0;
    return digits > 0 && strcmp(name + 5 + digits, ".stamp") == 0;
}

/* Whether something in the folder is of an earlier life: 1, 0, or -1 if it can't be read. */
static int has_ours(int folder) {
    int copy = openat(folder, ".", O_RDONLY | O_DIRECTORY | O_CLOEXEC);
    DIR *all = copy < 0 ? NULL : fdopendir(copy);
    if (all == NULL) {
        if (copy >= 0) close(copy);
        return -1;
    }
    int found = 0;
    errno = 0;
    for (struct dirent *it; (it = readdir(all)) != NULL;) found |= is_ours(it->d_name);
    if (errno) found = -1;
    closedir(all);
    return found;
}

static dt_status take_lock(dt_udp_state *s, const char *path, struct dt_udp_error *error) {
    int found = has_ours(s->folder);
    s->lock = found < 0 ? -1 : openat(s->folder, "lock", O_RDWR | O_CREAT | O_CLOEXEC, 0600);
    if (s->lock < 0) return dtu_refuse(error, DT_NOT_OPEN, errno, "%s can't be used", path);
    s->known = found;
    if (flock(s->lock, LOCK_EX | LOCK_NB) != 0) {
        if (errno != EWOULDBLOCK) return dtu_refuse(error, DT_NOT_OPEN, errno, "%s can't be locked", path);
        char text[64] = "", by[32] = "another process";
        ssize_t len = pread(s->lock, text, sizeof text - 1, 0);
        if (len > 4 && atoi(text + 4) > 0) snprintf(by, sizeof by, "process %d", atoi(text + 4));
        return dtu_refuse(error, DT_EXISTS, 0,
                          "%s is in use by %s; one node number is one node: stop that one, or give this one a number "
                          "and a folder of its own",
                          path, by);
    }
    char text[32];
    int len = snprintf(text, sizeof text, "pid %d\n", (int)getpid());
    if (ftruncate(s->lock, 0) != 0 || pwrite(s->lock, text, (size_t)len, 0) != len)
        return dtu_refuse(error, DT_NOT_OPEN, errno, "%s/lock can't be written", path);
    return DT_OK;
}

/* --- the start */

static struct lives lives_of(const struct dt_udp_state_options *o) {
    const struct dt_params *p = o->params;
    return (struct lives){
        .node = o->node,
        .numbers = {p->mpl, p->r, p->a, p->rto, p->probe, p->seg, p->cap, p->rcap, p->window, p->run_limit, p->start}};
}

static uint64_t quiet_of(const struct lives *it) {
    return 3 * (uint64_t)it->numbers[0] + it->numbers[1] + it->numbers[2];
}

/* What is wrong with a file, for an operator. */
__attribute__((format(printf, 2, 3))) static void warn(dt_udp_state *s, const char *format, ...) {
    va_list words;
    va_start(words, format);
    vsnprintf(s->start.warning, sizeof s->start.warning, format, words);
    va_end(words);
}

static dt_status refuse_node(const char *path, uint32_t kept, uint32_t node, struct dt_udp_error *error) {
    return dtu_refuse(error, DT_INVALID, 0,
                      "%s is of node %u, and this is node %u; each node counts its own lives and has its own silence: "
                      "give it a folder of its own",
                      path, kept, node);
}

static dt_status refuse_params(const char *path, const struct lives *kept, const struct lives *own,
                               struct dt_udp_error *error) {
    static const char *const NAMES[] = {"mpl", "r",    "a",      "rto",       "probe", "seg",
                                        "cap", "rcap", "window", "run_limit", "start"};
    int i = 0;
    while (kept->numbers[i] == own->numbers[i]) i++;
    uint64_t quiet = quiet_of(kept) > quiet_of(own) ? quiet_of(kept) : quiet_of(own);
    return dtu_refuse(error, DT_INVALID, 0,
                      "%s: %s was %u and is %u; all nodes have equal parameters: stop all of them, wait %" PRIu64
                      " ms, and say once that they changed (params_changed, DT_UDP_FLAG_PARAMS_CHANGED)",
                      path, NAMES[i], kept->numbers[i], own->numbers[i], quiet);
}

/* Keeps a file that can't be read, for an operator to find. */
static dt_status put_aside(dt_udp_state *s, const struct dt_udp_state_options *o, const char *text,
                           struct dt_udp_error *error) {
    const char *line = strncmp(text, "node ", 5) == 0 ? text : strstr(text, "\nnode ");
    uint32_t node;
    if (line && sscanf(line + (*line == '\n'), "node %" SCNu32 "\n", &node) == 1 && node != o->node)
        return refuse_node(o->folder, node, o->node, error);
    if (renameat(s->folder, "state", s->folder, "state.damaged") != 0)
        return dtu_refuse(error, DT_NOT_OPEN, errno, "%s/state is damaged, and can't be put aside", o->folder);
    warn(s, "state can't be read, and is kept as state.damaged");
    return DT_OK;
}

/* Reads the file `state`. One that isn't whole is put aside. */
static dt_status look_at_state(dt_udp_state *s, const struct dt_udp_state_options *o, struct lives *kept,
                               struct dt_udp_error *error) {
    char text[TEXT];
    ssize_t len = read_file(s->folder, "state", text);
    if (len < 0 && errno != ENOENT)
        return dtu_refuse(error, DT_NOT_OPEN, errno, "%s/state can't be read", o->folder);
    if (len < 0) {
        if (s->known) warn(s, "the file state is gone");
        return DT_OK;
    }
    if (!read_lives(text, (size_t)len, kept)) return put_aside(s, o, text, error);
    if (kept->node != o->node) return refuse_node(o->folder, kept->node, o->node, error);
    s->has_state = true;
    if (memcmp(kept->numbers, s->own.numbers, sizeof kept->numbers) == 0 || o->params_changed) return DT_OK;
    return refuse_params(o->folder, kept, &s->own, error);
}

/* Finds out when the last life ended, and says what is known of it. */
static const char *look_at_last(dt_udp_state *s, const struct dt_udp_state_options *o, const struct lives *kept) {
    char text[TEXT];
    struct last last;
    if (o->start_as == DT_UDP_START_AGAIN) return "the whole silence was asked for";
    if (!s->has_state) return "the file state is gone or damaged";
    ssize_t len = pread(s->last, text, TEXT - 1, 0);
    if (len <= 0) return "nothing is known of the last life";
    text[len] = 0;
    if (!read_last(text, (size_t)len, &last)) {
        warn(s, "the file last is damaged");
        return "the file last is damaged";
    }
    if (strcmp(last.boot, NO_BOOT) == 0 || strcmp(last.boot, s->machine.boot) != 0 || last.clock != s->machine.clock)
        return "the last life was before the machine started, or by another clock";
    if (memcmp(kept->numbers, s->own.numbers, sizeof kept->numbers) != 0) return "the parameters were others";
    s->ends_known = true;
    s->ended = s->keeper.until = last.until;
    return "the file last has the end of the last life";
}

/* Counts a life: on the disk when this returns. */
static dt_status count_life(dt_udp_state *s, uint32_t before) {
    if (before == UINT32_MAX) return DT_FULL;
    struct lives next = s->own;
    next.life = before + 1;
    char text[TEXT];
    size_t len = lives_text(&next, text);
    if (!replace_state(s->folder, text, len)) {
        s->system_error = errno;
        return DT_NOT_OPEN;
    }
    s->own.life = s->start.life = next.life;
    return DT_OK;
}

/* The next life, or the one after one that is drawn if the count can't be believed. */
static dt_status count_first(dt_udp_state *s, const struct dt_udp_state_options *o, const struct lives *kept,
                             struct dt_udp_error *error) {
    uint32_t before = s->has_state ? kept->life : 0, drawn;
    if (s->start.start == DT_START_AGAIN && (!s->has_state || o->start_as == DT_UDP_START_AGAIN)) {
        if (getrandom(&drawn, sizeof drawn, 0) != sizeof drawn)
            return dtu_refuse(error, DT_NOT_OPEN, errno, "no random octets");
        before = DRAWN_FROM + drawn % (DRAWN_FROM / 2);
    }
    dt_status status = count_life(s, before);
    if (status == DT_FULL)
        return dtu_refuse(error, DT_INVALID, 0, "%s: node %u has no more lives; give it another number and folder",
                          o->folder, o->node);
    return status == DT_OK
               ? status
               : dtu_refuse(error, DT_NOT_OPEN, s->system_error, "%s/state can't be written", o->folder);
}

static bool promise(dt_udp_state *s, uint64_t until) {
    char text[TEXT];
    s->machine.until = until;
    size_t len = last_text(&s->machine, text);
    errno = EIO; /* (less than the whole was written) */
    /* in place and without a sync: what a process wrote outlives it, and after another start of the machine the file
     * isn't believed */
    if (pwrite(s->last, text, len, 0) != (ssize_t)len || ftruncate(s->last, (off_t)len) != 0) {
        s->system_error = errno;
        return false;
    }
    s->keeper.until = until;
    return true;
}

/* Promises more than this input, so that the next ones need no write. */
static bool extend(void *user, uint64_t at) {
    dt_udp_state *s = user;
    if (s->last < 0 || s->owner != getpid()) return errno = 0, false;
    uint64_t ahead = quiet_of(&s->own) / 4;
    return promise(s, at + (ahead > LEAST_AHEAD_MS ? ahead : LEAST_AHEAD_MS));
}

static void wait_ms(uint64_t ms) {
    struct timespec left = {(time_t)(ms / 1000), (long)(ms % 1000) * 1000000};
    while (nanosleep(&left, &left) != 0 && errno == EINTR) {}
}

static dt_status open_folder(dt_udp_state *s, const struct dt_udp_state_options *o, struct dt_udp_error *error) {
    struct lives kept;
    if (make_folders(o->folder)) s->folder = open(o->folder, O_RDONLY | O_DIRECTORY | O_CLOEXEC);
    if (s->folder < 0) return dtu_refuse(error, DT_NOT_OPEN, errno, "%s can't be opened", o->folder);
    dt_status status = take_lock(s, o->folder, error);
    if (status == DT_OK) status = look_at_state(s, o, &kept, error);
    if (status != DT_OK) return status;
    s->start.start = s->has_state || s->known ? DT_START_AGAIN : DT_START_FIRST;
    s->last = openat(s->folder, "last", O_RDWR | O_CREAT | O_CLOEXEC, 0600);
    if (s->last < 0) return dtu_refuse(error, DT_NOT_OPEN, errno, "%s/last can't be opened", o->folder);
    s->start.why = s->start.start == DT_START_FIRST ? "the folder is new" : look_at_last(s, o, &kept);
    if (s->has_state && quiet_of(&kept) > quiet_of(&s->own)) wait_ms(quiet_of(&kept) - quiet_of(&s->own));
    /* what isn't believed now must not be believed by the next start, if this one is killed */
    if (!s->ends_known && ftruncate(s->last, 0) != 0)
        return dtu_refuse(error, DT_NOT_OPEN, errno, "%s/last can't be written", o->folder);
    return count_first(s, o, &kept, error);
}

/* --- what programs call */

static dt_status check(const struct dt_udp_state_options *o, struct dt_udp_error *error) {
    if (o->size != sizeof *o)
        return dtu_refuse(error, DT_INVALID, 0, "size is %u; set it to sizeof(struct dt_udp_state_options)", o->size);
    if (o->folder == NULL || o->params == NULL || dtu_core_quiet_ms(o->params) == 0)
        return dtu_refuse(error, DT_INVALID, 0, "there is no folder, or the parameters aren't those of a network");
    if (o->start_as != DT_UDP_START_BY_STATE && o->start_as != DT_UDP_START_AGAIN)
        return dtu_refuse(error, DT_INVALID, 0, "start_as is %u; use DT_UDP_START_BY_STATE or DT_UDP_START_AGAIN",
                          o->start_as);
    if (o->boot && (strlen(o->boot) != BOOT || strspn(o->boot, "0123456789abcdef-") != BOOT))
        return dtu_refuse(error, DT_INVALID, 0, "boot isn't a name of 36 digits, letters a to f and hyphens");
    return DT_OK;
}

dt_udp_state *dt_udp_state_open(const struct dt_udp_state_options *o, struct dt_udp_error *error) {
    if (error) memset(error, 0, sizeof *error);
    if (check(o, error) != DT_OK) return NULL;
    dt_udp_state *s = calloc(1, sizeof *s);
    if (s == NULL) return (void)dtu_refuse(error, DT_NO_MEMORY, 0, "out of memory"), NULL;
    s->keeper.extend = extend;
    s->keeper.user = s;
    s->folder = s->lock = s->last = -1;
    s->owner = getpid();
    s->own = lives_of(o);
    read_machine(&s->machine, o);
    if (open_folder(s, o, error) == DT_OK) return s;
    dt_udp_state_free(s);
    return NULL;
}

dt_status dt_udp_state_begin(dt_udp_state *s, uint64_t now, uint64_t *at) {
    if (s->last < 0 || s->owner != getpid()) return DT_NOT_OPEN;
    if (s->begun) return DT_EXISTS;
    s->begun = true;
    *at = s->ends_known && s->ended < now ? s->ended : now;
    /* so a start that is killed in its silence doesn't have the next one begin it anew */
    if (!s->ends_known && !promise(s, *at)) return DT_NOT_OPEN;
    s->keeper.since = s->start.start == DT_START_AGAIN ? *at + quiet_of(&s->own) : 0;
    return DT_OK;
}

/* Has a keeper told of an input before it is done. False: it must not be done. */
bool dtu_keep(struct dt_udp_keeper *it, uint64_t at) {
    if (it == NULL || at < it->since) return true;
    errno = 0; /* (a folder that can't be written may be the program's to explain) */
    if (at > it->until && !it->extend(it->user, at)) return false;
    if (at > it->noted) it->noted = at;
    return true;
}

dt_status dt_udp_state_note(dt_udp_state *s, uint64_t at) {
    return s->last >= 0 && dtu_keep(&s->keeper, at) ? DT_OK : DT_NOT_OPEN;
}

dt_status dt_udp_state_next_life(dt_udp_state *s, uint32_t *life) {
    if (s->last < 0 || s->owner != getpid()) return DT_NOT_OPEN;
    dt_status status = count_life(s, s->own.life);
    *life = s->own.life;
    return status;
}

struct dt_udp_keeper *dt_udp_state_keeper(dt_udp_state *s) { return &s->keeper; }
const struct dt_udp_state_start *dt_udp_state_get_start(dt_udp_state *s) { return &s->start; }
int dt_udp_state_system_error(dt_udp_state *s) { return s->system_error; }

static void close_file(int *file) {
    if (*file >= 0) close(*file);
    *file = -1;
}

static void close_files(dt_udp_state *s) {
    s->keeper.since = s->keeper.until = 0; /* (each input is asked for, and refused) */
    close_file(&s->last);
    close_file(&s->lock);
    close_file(&s->folder);
}

dt_status dt_udp_state_close(dt_udp_state *s) {
    bool writes = s->last >= 0 && s->keeper.noted > 0 && s->owner == getpid();
    dt_status status = writes && !promise(s, s->keeper.noted) ? DT_NOT_OPEN : DT_OK;
    close_files(s);
    return status; /* (if it wasn't written, what was promised ahead holds) */
}

void dt_udp_state_free(dt_udp_state *s) {
    if (s == NULL) return;
    close_files(s);
    free(s);
}

uint32_t dt_udp_fresh_number(void) {
    uint32_t drawn = 0;
    do
        if (getrandom(&drawn, sizeof drawn, 0) != sizeof drawn && errno != EINTR) return 0;
    while (drawn < FIRST_FRESH);
    return drawn;
}
