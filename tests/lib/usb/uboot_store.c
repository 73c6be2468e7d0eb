/* The rules of U-Boot 2023.01's DFU back end (its dfu_write, dfu_read and dfu_flush), written anew for these tests: a transaction begins
 * with the first block after the end of the previous one, counts blocks from 0, gathers them in a buffer, and ends at a fault or a flush.
 * It does not end when the host leaves.
 *
 * The medium is a file, which the flush replaces, or raw: a part of a disk, which each write overwrites, and whose image is always the
 * whole part. */
#include "uboot_store.h"
#include "settings.h"

#include <stdlib.h>
#include <string.h>

static struct {
    bool is_begun;
    uint16_t next;        /* number of the next block */
    uint32_t gathered;    /* bytes in the buffer */
    uint64_t offset;      /* offset of the next write */
    uint32_t left;        /* bytes that an upload has not read yet */
    uint32_t writes;      /* number of writes so far */
    uint32_t length;      /* bytes of the image */
    uint32_t file_length; /* bytes of the file that is being written */
} store;

static uint8_t *buffer, *medium, *file;

static void *memory(size_t size)
{
    void *found = calloc(1, size + 1);
    if (found == NULL)
        fail_loudly("no memory for %zu bytes", size);
    return found;
}

void store_make(void)
{
    struct part image = read_image(settings.image);
    if (image.size > settings.capacity)
        fail_loudly("the old image has no room");
    buffer = memory(settings.buffer);
    medium = memory(settings.capacity);
    file = memory(settings.capacity);
    memcpy(medium, image.at, image.size);
    store.length = settings.is_raw ? settings.capacity : (uint32_t)image.size;
}

void store_forget(void)
{
    store.is_begun = false;
    store.next = 0;
    store.gathered = store.left = store.file_length = 0;
    store.offset = 0;
}

/* Writes bytes of the buffer: to the medium if USB_STORE is raw, else to the file. Returns 0, or -1 on a failure. The write that USB_FAILS
 * selects stores half of its bytes. */
static int write_medium(uint32_t count)
{
    bool fails = (int)store.writes++ == settings.fails;
    uint8_t *target = settings.is_raw ? medium : file;
    if (store.offset + count > settings.capacity)
        return -1;
    memcpy(target + store.offset, buffer, fails ? count / 2 : count);
    if (fails)
        return -1;
    store.file_length = (uint32_t)(store.offset + count);
    return 0;
}

static int drain(void)
{
    uint32_t count = store.gathered;
    if (count == 0)
        return 0;
    int result = write_medium(count);
    store.gathered = 0;
    store.offset += count;
    return result;
}

static int fault(void)
{
    store_forget();
    return -1;
}

static void begin(bool reads)
{
    if (store.is_begun)
        return;
    store_forget();
    store.left = reads ? store.length : 0;
    store.is_begun = true;
}

int store_write(const uint8_t *bytes, size_t count, uint16_t number)
{
    begin(false);
    if (store.next != number)
        return fault();
    store.next++;
    if (store.gathered + count > settings.buffer && drain() != 0)
        return fault();
    if (store.gathered + count > settings.buffer)
        return fault();
    memcpy(buffer + store.gathered, bytes, count);
    store.gathered += (uint32_t)count;
    if ((count == 0 || store.gathered + count > settings.buffer) && drain() != 0)
        return fault();
    return 0;
}

int store_flush(void)
{
    if (drain() != 0)
        return -1;
    if (settings.flush_fails)
        return -1;
    if (!settings.is_raw) {
        memcpy(medium, file, store.file_length);
        store.length = store.file_length;
    }
    store_forget();
    return 0;
}

int store_read(uint8_t *out, size_t room, uint16_t number)
{
    begin(true);
    if (store.next != number)
        return -1;
    store.next++;
    size_t count = room < store.left ? room : store.left;
    memcpy(out, medium + store.offset, count);
    store.offset += count;
    store.left -= (uint32_t)count;
    if (count < room)
        store_forget();
    return (int)count;
}

struct part store_image(void)
{
    return (struct part){medium, store.length};
}

struct part store_keeps(unsigned number)
{
    const struct part parts[] = {
        {&store, sizeof store}, {buffer, settings.buffer}, {medium, settings.capacity}, {file, settings.capacity}, {NULL, 0},
    };
    return parts[number];
}
