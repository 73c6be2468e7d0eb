/* Makes one control transfer through the kernel's usbfs: `transfer DEVICE SETUP [BODY]`. DEVICE is a name in /sys/bus/usb/devices; the rest
 * is hexadecimal. BODY may be xN, for N zeros. It prints the answer, `ok`, `stall`, or the error. `transfer DEVICE reset` resets the bus,
 * and `transfer DEVICE alt N` selects setting N of interface 0. */
#include <errno.h>
#include <fcntl.h>
#include <linux/usbdevice_fs.h>
#include <stdint.h>
#include <stdio.h>
#include <stdlib.h>
#include <string.h>
#include <sys/ioctl.h>

static uint8_t data[65536];

static int bytes_of(const char *word, uint8_t *out, int most)
{
    unsigned one;
    int count = 0;
    if (word[0] == 'x')
        return atoi(word + 1);
    while (count < most && sscanf(word + 2 * count, "%2x", &one) == 1)
        out[count++] = (uint8_t)one;
    return count;
}

static int number(const char *device, const char *attribute)
{
    char path[128];
    int number = -1;
    snprintf(path, sizeof path, "/sys/bus/usb/devices/%s/%s", device, attribute);
    FILE *file = fopen(path, "r");
    if (file == NULL || fscanf(file, "%d", &number) != 1)
        number = -1;
    if (file != NULL)
        fclose(file);
    return number;
}

static int set_alternate(int file, const char *setting)
{
    unsigned interface = 0;
    struct usbdevfs_setinterface set = {0, (unsigned)atoi(setting)};
    ioctl(file, USBDEVFS_CLAIMINTERFACE, &interface);
    return ioctl(file, USBDEVFS_SETINTERFACE, &set);
}

static int transfer(int file, const uint8_t setup[8], const char *body)
{
    int length = body != NULL ? bytes_of(body, data, (int)sizeof data) : setup[6] | setup[7] << 8;
    struct usbdevfs_ctrltransfer transfer = {setup[0], setup[1], (uint16_t)(setup[2] | setup[3] << 8), (uint16_t)(setup[4] | setup[5] << 8),
                                       (uint16_t)length, 4000, data};
    return ioctl(file, USBDEVFS_CONTROL, &transfer);
}

int main(int count, char **words)
{
    uint8_t setup[8] = {0};
    char path[64];
    int answer, file;
    if (count < 3)
        return 2;
    snprintf(path, sizeof path, "/dev/bus/usb/%03d/%03d", number(words[1], "busnum"), number(words[1], "devnum"));
    file = open(path, O_RDWR);
    if (file < 0) {
        printf("%s: %s\n", path, strerror(errno));
        return 1;
    }
    if (strcmp(words[2], "reset") == 0)
        answer = ioctl(file, USBDEVFS_RESET);
    else if (strcmp(words[2], "alt") == 0 && count > 3)
        answer = set_alternate(file, words[3]);
    else {
        bytes_of(words[2], setup, 8);
        answer = transfer(file, setup, count > 3 ? words[3] : NULL);
    }
    if (answer < 0)
        puts(errno == EPIPE ? "stall" : strerror(errno));
    else if ((setup[0] & 0x80) == 0)
        puts("ok");
    else {
        for (int at = 0; at < answer; at++)
            printf("%02x", data[at]);
        puts("");
    }
    return 0;
}
