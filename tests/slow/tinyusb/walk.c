/* Sends random DFU requests to a device through the kernel's usbfs, and prints a log of its answers for `dfu judge`:
 *
 *     walk DEVICE SEED COUNT TRANSFER [ABORTS]
 *
 * With ABORTS, one of that many requests is given up at a random moment, and one of that many is followed by a bus reset. After a request
 * that was given up raw-gadget itself stalls others until the device has finished it, so GETSTATE is repeated until there is an answer. */
#include <errno.h>
#include <fcntl.h>
#include <linux/usbdevice_fs.h>
#include <stdint.h>
#include <stdio.h>
#include <stdlib.h>
#include <string.h>
#include <sys/ioctl.h>
#include <unistd.h>

static const char *device;
static int file = -1, state = 2, aborts, stalls; /* stalls: number of stalls in a row, which shows that the device waits for a reset */
static unsigned transfer, block;
static uint8_t packet[8 + 65536];
#define setup packet
#define data (packet + 8)

static int number(const char *attribute)
{
    char path[128];
    int number = -1;
    snprintf(path, sizeof path, "/sys/bus/usb/devices/%s/%s", device, attribute);
    FILE *from = fopen(path, "r");
    if (from == NULL || fscanf(from, "%d", &number) != 1)
        number = -1;
    if (from != NULL)
        fclose(from);
    return number;
}

/* Waits for the device: after a reset it may return with another number, in its other mode. */
static void open_device(void)
{
    char path[64];
    for (int tries = 0; tries < 60; tries++) {
        if (file >= 0)
            close(file);
        usleep(50000);
        snprintf(path, sizeof path, "/dev/bus/usb/%03d/%03d", number("busnum"), number("devnum"));
        file = open(path, O_RDWR);
        if (file >= 0 && number("bNumInterfaces") == 1)
            return;
    }
    printf("\n# the device is gone\n");
    exit(1);
}

static unsigned any(unsigned below)
{
    return (unsigned)rand() % below;
}

/* Chooses mostly the next request of a download, or the way out of an error; else a random one. */
static void choose(void)
{
    static const uint8_t kinds[16] = {1, 1, 1, 1, 3, 3, 3, 3, 5, 2, 2, 4, 4, 6, 0, 7};
    const int is_guided = any(16) != 0;
    uint8_t kind = kinds[any(16)];
    unsigned length, value = 0;
    if (is_guided)
        kind = state == 0 ? 0 : state == 10 ? 4 : state == 2 || state == 5 ? 1 : state == 9 ? 6 : 3;
    length = kind == 3 ? 6 : kind == 5 ? 1 : 0;
    if (kind == 1) {
        length = state == 2 && is_guided ? transfer : any(6) == 0 ? 0 : any(40) == 0 ? transfer + 1 : 1 + any(transfer);
        block = state == 2 ? 0 : block + 1;
        value = block;
    } else if (kind == 2) {
        length = any(8) == 0 ? transfer + 1 : any(8) == 0 ? 0 : 1 + any(transfer);
        value = any(4);
    } else if (kind == 0) {
        value = 1000;
    }
    setup[0] = kind == 2 || kind == 3 || kind == 5 ? 0xa1 : 0x21;
    setup[1] = kind;
    setup[2] = (uint8_t)value, setup[3] = (uint8_t)(value >> 8);
    setup[4] = setup[5] = 0;
    setup[6] = (uint8_t)length, setup[7] = (uint8_t)(length >> 8);
    for (unsigned at = 0; at < length && setup[0] == 0x21; at++)
        data[at] = (uint8_t)rand();
}

static void print_hex(const uint8_t *bytes, unsigned length)
{
    for (unsigned at = 0; at < length; at++)
        printf("%02x", bytes[at]);
}

static void print_request(unsigned length)
{
    print_hex(setup, 8);
    printf(" ");
    if (setup[0] == 0xa1 || length == 0)
        printf("- ");
    else {
        print_hex(data, length);
        printf(" ");
    }
}

/* Makes a request and gives it up after some microseconds. Returns -1 if it was given up; else the number of bytes, or an error below -1.
 */
static int give_up(unsigned length, unsigned microseconds)
{
    struct usbdevfs_urb urb = {.type = USBDEVFS_URB_TYPE_CONTROL, .buffer = packet, .buffer_length = (int)(8 + length)}, *reaped;
    if (ioctl(file, USBDEVFS_SUBMITURB, &urb) != 0)
        return -errno - 1;
    usleep(microseconds);
    ioctl(file, USBDEVFS_DISCARDURB, &urb);
    if (ioctl(file, USBDEVFS_REAPURB, &reaped) != 0)
        return -errno - 1;
    return urb.status == 0 ? urb.actual_length : urb.status == -ENOENT ? -1 : urb.status - 1;
}

static void follow(int got)
{
    if (got == -EPIPE - 1)
        state = 10;
    else if (got >= 0 && setup[1] == 3 && got == 6)
        state = data[4];
    else if (got >= 0 && setup[1] == 5 && got == 1)
        state = data[0];
    else if (got >= 0 && setup[1] != 5)
        state = setup[1] == 1 ? 3 : setup[1] == 4 || setup[1] == 6 ? 2 : setup[1] == 2 ? 9 : state;
    else
        state = 3; /* unknown: the next GETSTATUS reports it */
}

static void print_answer(int got)
{
    if (got == -EPIPE - 1)
        puts("stall");
    else if (got < 0)
        puts("nothing");
    else if (setup[0] == 0x21 || got == 0)
        puts("ack");
    else {
        print_hex(data, (unsigned)got);
        puts("");
    }
}

static int transact(unsigned length)
{
    struct usbdevfs_ctrltransfer transfer = {setup[0], setup[1], (uint16_t)(setup[2] | setup[3] << 8), 0, (uint16_t)length, 6000, data};
    const int got = ioctl(file, USBDEVFS_CONTROL, &transfer);
    return got < 0 ? -errno - 1 : got;
}

static void settle(void)
{
    static const uint8_t getstate[8] = {0xa1, 5, 0, 0, 0, 0, 1, 0};
    int got = -EPIPE - 1;
    for (int tries = 0; tries < 8 && got == -EPIPE - 1; tries++) {
        memcpy(setup, getstate, 8);
        print_request(1);
        usleep(20000);
        got = transact(1);
        print_answer(got == -EPIPE - 1 && tries < 7 ? -1 : got);
    }
    follow(got);
}

static void reset(void)
{
    puts("reset");
    ioctl(file, USBDEVFS_RESET);
    open_device();
    state = state == 1 ? 2 : 0;
}

int main(int count, char **words)
{
    if (count < 5)
        return 2;
    device = words[1];
    srand((unsigned)atoi(words[2]));
    transfer = (unsigned)atoi(words[4]);
    aborts = count > 5 ? atoi(words[5]) : 0;
    open_device();
    for (int left = atoi(words[3]); left > 0; left--) {
        choose();
        const unsigned length = setup[6] | (unsigned)setup[7] << 8;
        print_request(length);
        const int is_given_up = aborts > 0 && any((unsigned)aborts) == 0;
        const int got = is_given_up ? give_up(length, any(1500)) : transact(length);
        print_answer(got);
        if (got < -1 && got != -EPIPE - 1) {
            printf("# %s\n", strerror(-got - 1));
            return 1;
        }
        follow(got);
        if (state == 0 && setup[1] == 0 && got == 0)
            state = 1;
        if (got == -1)
            settle();
        stalls = got == -EPIPE - 1 ? stalls + 1 : 0;
        if ((aborts > 0 && any((unsigned)aborts) == 0) || state == 1 || stalls > 4)
            reset();
    }
    return 0;
}
