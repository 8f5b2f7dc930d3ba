/* What cetvm makes of a program: the image, the listing and the report. */
#define _POSIX_C_SOURCE 200809L
#include "cosim.h"

#include <fcntl.h>
#include <inttypes.h>
#include <stdio.h>
#include <stdlib.h>
#include <string.h>
#include <sys/wait.h>
#include <unistd.h>

struct file {
    char *bytes; /* with a 0 behind them */
    size_t size;
};

static void write_file(const char *path, const char *bytes, size_t size)
{
    FILE *file = fopen(path, "wb");
    if (!file || fwrite(bytes, 1, size, file) != size || fclose(file))
        fail("%s is not written", path);
}

static struct file read_file(const char *path)
{
    struct file read = {NULL, 0};
    FILE *file = fopen(path, "rb");
    if (!file || fseek(file, 0, SEEK_END))
        fail("%s is not read", path);
    read.size = (size_t)ftell(file);
    rewind(file);
    read.bytes = grown(NULL, read.size + 1);
    if (fread(read.bytes, 1, read.size, file) != read.size)
        fail("%s is not read", path);
    fclose(file);
    read.bytes[read.size] = 0;
    return read;
}

static void become(const char *cetvm, const char *command, const char *input, const char *output)
{
    int in = open(input, O_RDONLY), out = open(output, O_WRONLY | O_CREAT | O_TRUNC, 0600);
    if (in >= 0 && out >= 0 && dup2(in, 0) == 0 && dup2(out, 1) == 1)
        execl(cetvm, cetvm, command, (char *)NULL);
    _exit(127);
}

/* Runs a command of cetvm, and answers its exit status. */
static int command(const char *cetvm, const char *name, const char *input, const char *output)
{
    int status = 0;
    fflush(stdout);
    pid_t child = fork();
    if (child == 0)
        become(cetvm, name, input, output);
    if (child < 0 || waitpid(child, &status, 0) != child || !WIFEXITED(status) || WEXITSTATUS(status) == 127)
        fail("%s %s can't be run", cetvm, name);
    return WEXITSTATUS(status);
}

static uint64_t field(const struct guest *guest, size_t place)
{
    uint64_t value;
    if (place + sizeof value > guest->size)
        fail("the image has no field at %zu", place);
    memcpy(&value, guest->image + place, sizeof value);
    return value;
}

/* Reads the headers of an image that `asm` wrote: the text is the first segment, and the data the second. */
static void read_headers(struct guest *guest)
{
    enum { ENTRY = 24, HEADERS = 64, HEADER = 56, ADDRESS = 16, FILE_SIZE = 32 };
    guest->entry = field(guest, ENTRY);
    guest->text_size = field(guest, HEADERS + FILE_SIZE);
    guest->data = field(guest, HEADERS + HEADER + ADDRESS);
    guest->data_size = field(guest, HEADERS + HEADER + FILE_SIZE);
    if (field(guest, HEADERS + ADDRESS) != TEXT || guest->data < TEXT + guest->text_size ||
        guest->data - TEXT + guest->data_size + 4096 != guest->size)
        fail("an image isn't as asm writes it");
}

/* Takes a listing apart, and notes which instruction begins at which byte. */
static void read_listing(struct guest *guest, char *listing)
{
    size_t room = 0;
    guest->listing = listing;
    guest->note_at = calloc(guest->text_size + 1, sizeof *guest->note_at);
    if (!guest->note_at)
        fail("out of memory");
    for (char *line = strtok(listing, "\n"); line; line = strtok(NULL, "\n")) {
        if (guest->line_count == room) {
            room = 2 * room + 1024;
            guest->lines = grown(guest->lines, room * sizeof *guest->lines);
        }
        uint64_t address = strtoull(line, NULL, 16);
        guest->lines[guest->line_count++] = line;
        if (address - TEXT >= guest->text_size)
            fail("a listing has the line %s", line);
        guest->note_at[address - TEXT] = (uint32_t)guest->line_count;
    }
}

static void add_record(struct guest *guest, size_t *room, const struct record *record)
{
    if (guest->record_count == *room) {
        *room = 2 * *room + 1024;
        guest->records = grown(guest->records, *room * sizeof *record);
    }
    guest->records[guest->record_count++] = *record;
}

/* Reads the records of thread 0, which are the lines that begin by its number, and the end of the process. */
static void read_report(struct guest *guest, char *report)
{
    size_t room = 0;
    struct record record;
    for (char *line = strtok(report, "\n"); line; line = strtok(NULL, "\n")) {
        if (line[0] == '0') {
            if (sscanf(line, "0 %11s %" SCNx64 " %" SCNu64 " %" SCNx64 " %" SCNx64, record.name, &record.rip,
                       &record.code, &record.a, &record.b) != 5)
                fail("a report has the line %s", line);
            add_record(guest, &room, &record);
        }
        if (!strcmp(line, "process exit 0"))
            guest->exited = true;
    }
}

/* Assembles, lists and runs a program, by files of that number in the folder. */
struct guest guest_of(const char *cetvm, const char *folder, size_t number, const struct program *program)
{
    struct guest guest = {0};
    char source[4096], image[4096], output[4096];
    snprintf(source, sizeof source, "%s/%zu.s", folder, number);
    snprintf(image, sizeof image, "%s/%zu.image", folder, number);
    snprintf(output, sizeof output, "%s/%zu.output", folder, number);
    write_file(source, program->text, program->length);
    if (command(cetvm, "asm", source, image))
        fail("asm refuses a program");
    struct file bytes = read_file(image);
    guest.image = (uint8_t *)bytes.bytes;
    guest.size = bytes.size;
    read_headers(&guest);
    if (command(cetvm, "dis", image, output))
        fail("dis refuses an image");
    read_listing(&guest, read_file(output).bytes);
    command(cetvm, "run", image, output);
    char *report = read_file(output).bytes;
    read_report(&guest, report);
    free(report);
    unlink(source);
    unlink(image);
    unlink(output);
    return guest;
}

void drop_guest(struct guest *guest)
{
    free(guest->image);
    free(guest->note_at);
    free(guest->listing);
    free(guest->lines);
    free(guest->records);
}
