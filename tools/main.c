/* dergamoyne-heap looks into a saved heap: the image that Save wrote. It loads the image and asks the library; docs/dergamoyne-heap.1 is
   its manual page. MIT licence, see LICENSE.

       main.c     the commands by name                 check.c, list.c, why.c, page.c, picture.c   the commands
       options.c  what stands behind a command         ask.c    State, Read and Why of the heap
       image.c    a file, and the heap that it is      map.c    every block as a square
       fault.c    what is wrong with a bad image       say.c    messages, exit status, output */
#include "commands.h"
#include "fault.h"
#include <string.h>

static const char help[] =
    "usage: " PROGRAM " check FILE\n"
    "       " PROGRAM " list [--state STATE] FILE\n"
    "       " PROGRAM " why FILE BLOCK\n"
    "       " PROGRAM " page [-o PAGE] FILE\n"
    "       " PROGRAM " picture [--why BLOCK] [-o PICTURE] FILE\n"
    "       " PROGRAM " --help | --version\n"
    "\n"
    "Looks into a saved heap. FILE is the image that Save wrote, \"-\" for standard input.\n"
    "\n"
    "  check     is it accepted? If not: is it the length, the registers or the contents?\n"
    "  list      the registers, how many blocks have each state, and a line for each block\n"
    "  why       why a block is still here, with the shortest path from the root\n"
    "  page      a page for the browser, with a map of the blocks to click on\n"
    "  picture   the map as a picture, in SVG\n"
    "\n"
    "  --state STATE       only the lines of blocks in this state: live-white, doomed, grey, black, free\n"
    "  --why BLOCK         draws the path from the root to this block\n"
    "  -o, --output NAME   writes to this file, not to standard output\n"
    "\n"
    "Exit status: 0 if it was done; 1 if the image is not accepted, or the heap has no such block;\n"
    "2 for wrong usage, or if a file can't be read or written.\n";

static const struct command {
    const char *name;
    struct takes takes;
    enum status (*run)(const struct dergamoyne_heap *heap, const struct options *options); /* NULL: check */
} commands[] = {
    {"check", {1, ""}, NULL},
    {"list", {1, "s"}, list_heap},
    {"why", {2, ""}, tell_why},
    {"page", {1, "o"}, write_page},
    {"picture", {1, "ow"}, draw_picture},
};

static const struct command *command_of(const char *name)
{
    for (size_t i = 0; i < sizeof commands / sizeof *commands; i++)
        if (strcmp(name, commands[i].name) == 0)
            return &commands[i];
    return NULL;
}

static enum status run(const struct command *command, const struct options *options)
{
    static struct image image;
    struct dergamoyne_heap heap;
    enum status status;
    if (options->output != NULL && strcmp(options->output, "-") != 0 && strcmp(options->output, options->operands[0]) == 0)
        return say(STATUS_TROUBLE, "%s: it is the image; the output needs another name", options->output);
    status = image_read(&image, options->operands[0]);
    if (status == STATUS_YES)
        status = image_load(&image, &heap);
    if (status == STATUS_TROUBLE)
        return status;
    if (command->run == NULL)
        return check_image(&image, status == STATUS_YES ? &heap : NULL);
    return status == STATUS_YES ? command->run(&heap, options) : fault_say(&image);
}

/* Whether one of the words before "--" is this. */
static int is_among(char **words, const char *word)
{
    for (; *words != NULL && strcmp(*words, "--") != 0; words++)
        if (strcmp(*words, word) == 0)
            return 1;
    return 0;
}

/* What these words ask for, the command first. */
static enum status answer(char **words)
{
    const struct command *command;
    struct options options;
    if (is_among(words, "--help") || is_among(words, "-h")) {
        fputs(help, stdout);
        return output_close(stdout, NULL);
    }
    if (strcmp(words[0], "--version") == 0) {
        puts(PROGRAM " " DERGAMOYNE_VERSION_TEXT);
        return output_close(stdout, NULL);
    }
    command = command_of(words[0]);
    if (command == NULL)
        return say(STATUS_TROUBLE, "%s: there is no such command; see " PROGRAM " --help", words[0]);
    if (options_read(&options, &command->takes, words + 1) != STATUS_YES)
        return STATUS_TROUBLE;
    return run(command, &options);
}

int main(int count, char **words)
{
    if (count < 2) {
        fputs(help, stderr);
        return (int)STATUS_TROUBLE;
    }
    return (int)answer(words + 1);
}
