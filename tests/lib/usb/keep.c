/* Files that a run reads and writes: the old image, the active image at the end (USB_SAVE), and the device's parts, one after the other
 * (USB_STATE). The latter file is for a run with the same settings. */
#include "keep.h"
#include "settings.h"

#include <stdio.h>
#include <stdlib.h>

struct part read_image(const char *name)
{
    static uint8_t one[1] = {0};
    if (name == NULL)
        return (struct part){one, sizeof one};
    FILE *file = fopen(name, "rb");
    if (file == NULL)
        fail_loudly("%s can't be read", name);
    fseek(file, 0, SEEK_END);
    size_t size = (size_t)ftell(file);
    rewind(file);
    void *bytes = malloc(size + 1);
    if (bytes == NULL || fread(bytes, 1, size, file) != size)
        fail_loudly("%s can't be read whole", name);
    fclose(file);
    return (struct part){bytes, size};
}

static FILE *made(const char *name)
{
    FILE *file = fopen(name, "wb");
    if (file == NULL)
        fail_loudly("%s can't be written", name);
    return file;
}

static void done(FILE *file, const char *name)
{
    if (ferror(file) != 0 || fclose(file) != 0)
        fail_loudly("%s can't be written whole", name);
}

void keep_image(const struct model *model)
{
    if (settings.save == NULL)
        return;
    struct part image = model->image();
    FILE *file = made(settings.save);
    fwrite(image.at, 1, image.size, file);
    done(file, settings.save);
}

void keep_write(const struct model *model)
{
    if (settings.state == NULL)
        return;
    FILE *file = made(settings.state);
    for (unsigned i = 0; model->keeps(i).size > 0; i++)
        fwrite(model->keeps(i).at, 1, model->keeps(i).size, file);
    done(file, settings.state);
}

void keep_read(const struct model *model)
{
    FILE *file = settings.state != NULL ? fopen(settings.state, "rb") : NULL;
    if (file == NULL)
        return;
    for (unsigned i = 0; model->keeps(i).size > 0; i++)
        if (fread(model->keeps(i).at, 1, model->keeps(i).size, file) != model->keeps(i).size)
            fail_loudly("%s is of other settings", settings.state);
    if (fgetc(file) != EOF)
        fail_loudly("%s is of other settings", settings.state);
    fclose(file);
}
