/* Tries each fault of the link at each transfer of a session of dfu-flash with the stand-in's DfuSe device, and each pair of faults.
 * `dfuse_pairs WORD..` runs dfu-flash with these arguments, and `dfuse_pairs --singles WORD..` leaves out the pairs. It is linked with
 * dfu-flash, whose main is flash_main, and with the stand-in, and each run is a separate process. Its folder contains the old memory,
 * `old`, and the expected one, `expected`, of up to 1 MiB; the environment holds the settings of the device.
 *
 * If a run ends as verified, the memory must be the expected one, and the application must have started at most once. Other runs are
 * counted by their status. After them no page that is equal in both memories may have changed, and the front of the image may be there only
 * if all of it is. */
#define _POSIX_C_SOURCE 200809L
#include <fcntl.h>
#include <stdio.h>
#include <stdlib.h>
#include <string.h>
#include <sys/wait.h>
#include <unistd.h>

enum { MOST = 1048576, PAGE = 1024, FRONT = 32, MOST_TRANSFERS = 4000, STATUSES = 16, MOST_TOLD = 20 };
enum { STALL = 3, SHORT = 6, KINDS };

int flash_main(int count, char **words);

static const char *const kinds[KINDS] = {"lost-out %u", "lost-back %u", "twice %u", "stall %u", "leave %u", "cut %u", "short %u 3"};
static char **flash_words;
static int flash_count;
static unsigned char old[MOST], expected[MOST], saved[MOST];
static size_t size;
static long runs, wrong, counts[STATUSES];

/* Transfers of a run. is_long marks those whose answer can be cut to three bytes. is_answered marks each GETSTATE while the device has not
 * started a command, which no device may stall, as in the promises of crates/dfuse_link (specs/Reactions). */
struct sent {
    unsigned count;
    int started;
    char is_long[MOST_TRANSFERS], is_answered[MOST_TRANSFERS];
};

static size_t read_file(const char *name, unsigned char *bytes, size_t room)
{
    FILE *from = fopen(name, "rb");
    size_t count = from == NULL ? 0 : fread(bytes, 1, room, from);
    if (from != NULL)
        fclose(from);
    return count;
}

static void read_log(struct sent *sent)
{
    char line[256], request[16];
    unsigned number;
    FILE *log = fopen("log", "r");
    memset(sent, 0, sizeof *sent);
    while (log != NULL && fgets(line, sizeof line, log) != NULL) {
        sent->started += strncmp(line, "started ", 8) == 0;
        if (sscanf(line, "%u %15s", &number, request) != 2 || number >= MOST_TRANSFERS)
            continue;
        sent->count = number + 1;
        sent->is_long[number] = strcmp(request, "GETSTATUS") == 0 || strcmp(request, "UPLOAD") == 0;
        sent->is_answered[number] = strcmp(request, "GETSTATE") == 0 && strstr(line, "dfuDNLOAD-SYNC") != NULL;
    }
    if (log != NULL)
        fclose(log);
}

static void be_flash(const char *fate)
{
    int null = open("/dev/null", O_WRONLY);
    dup2(null, 1);
    dup2(null, 2);
    setenv("USB_FATE", fate, 1);
    setenv("USB_LOG", "log", 1);
    setenv("USB_SAVE", "saved", 1);
    alarm(60);
    exit(flash_main(flash_count, flash_words));
}

/* Runs dfu-flash with these faults. Returns its status, or more than 255 if a signal ended it. */
static int run(const char *fate, struct sent *sent)
{
    int status = 0;
    pid_t child;
    remove("saved");
    remove("log");
    fflush(NULL);
    child = fork();
    if (child == 0)
        be_flash(fate);
    if (child < 0 || waitpid(child, &status, 0) != child)
        exit(2);
    read_log(sent);
    return WIFEXITED(status) ? WEXITSTATUS(status) : 256 + status;
}

/* Returns 1 if each page that is equal in both memories is unchanged. */
static int others_stand(void)
{
    for (size_t page = 0; page < size; page += PAGE)
        if (memcmp(old + page, expected + page, PAGE) == 0 && memcmp(old + page, saved + page, PAGE) != 0)
            return 0;
    return 1;
}

/* Returns 1 if the front holds the new bytes: the 32 bytes from the first one in which the two memories differ. */
static int front_stands(void)
{
    size_t at = 0;
    while (at < size - FRONT && old[at] == expected[at])
        at++;
    return memcmp(saved + at, expected + at, FRONT) == 0;
}

static const char *fault_of(int status, const struct sent *sent)
{
    size_t kept = read_file("saved", saved, MOST);
    int is_right = kept == size && memcmp(saved, expected, size) == 0;
    if (status >= STATUSES || kept != size)
        return "it did not end by itself";
    if (status == 0 && !is_right)
        return "verified, and the memory isn't right";
    if (status == 0 && sent->started > 1)
        return "the application was started twice";
    if (!others_stand())
        return "another page has changed";
    return front_stands() && !is_right ? "the front stands without the rest" : NULL;
}

/* Returns 1 if a fault of this kind is possible at a transfer. */
static int can_come(const struct sent *sent, unsigned at, int kind)
{
    return kind == SHORT ? sent->is_long[at] : kind == STALL ? !sent->is_answered[at] : 1;
}

static void try(const char *fate, struct sent *sent)
{
    int status = run(fate, sent);
    const char *fault = fault_of(status, sent);
    runs++;
    if (status < STATUSES)
        counts[status]++;
    if (fault != NULL) {
        wrong++;
        printf("%s: %s, status %d\n", fate, fault, status);
    } else if (status != 0 && runs - counts[0] <= MOST_TOLD)
        printf("%s: status %d\n", fate, status);
}

/* Tries each fault at each transfer from number `from`, together with the fault `first`. */
static void try_behind(const char *first, unsigned from, const struct sent *before)
{
    static struct sent sent;
    char fates[64];
    for (unsigned at = from; at < before->count; at++)
        for (int kind = 0; kind < KINDS; kind++) {
            int used = snprintf(fates, sizeof fates, "%s,", first);
            if (!can_come(before, at, kind))
                continue;
            snprintf(fates + used, sizeof fates - (size_t)used, kinds[kind], at);
            try(fates, &sent);
        }
}

int main(int count, char **words)
{
    static struct sent clean, single;
    char fate[32];
    long singles = 0;
    int is_single = count > 1 && strcmp(words[1], "--singles") == 0;
    flash_words = words + is_single;
    flash_count = count -= is_single;
    size = read_file("old", old, MOST);
    if (count < 2 || size < PAGE || read_file("expected", expected, MOST) != size)
        return 2;
    try("", &clean);
    for (unsigned at = 0; at < clean.count; at++)
        for (int kind = 0; kind < KINDS; kind++) {
            if (!can_come(&clean, at, kind))
                continue;
            snprintf(fate, sizeof fate, kinds[kind], at);
            try(fate, &single);
            singles++;
            if (!is_single)
                try_behind(fate, at + 1, &single);
        }
    printf("%u transfers, %ld single faults, %ld pairs:", clean.count, singles, runs - singles - 1);
    for (int status = 0; status < STATUSES; status++)
        if (counts[status] > 0)
            printf(" %ld of status %d", counts[status], status);
    printf("; %ld wrong\n", wrong);
    return wrong != 0;
}
