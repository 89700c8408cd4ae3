/* The words behind the command. See options.h. */
#include "options.h"
#include <string.h>

static const struct option {
    char letter;       /* by which a command takes it */
    const char *small; /* a "-" and a letter; NULL where it has no short name */
    const char *name;
} known[] = {{'s', NULL, "--state"}, {'o', "-o", "--output"}, {'w', NULL, "--why"}};

/* Where the value of an option is kept. */
static const char **place_of(struct options *options, char letter)
{
    return letter == 's' ? &options->state : letter == 'o' ? &options->output : &options->why;
}

/* The option that a word is. It may have its value in it, behind "=" or right behind the short name; else *value is NULL. NULL where it
   is none that the command takes. */
static const struct option *option_of(const char *word, const char *letters, const char **value)
{
    *value = NULL;
    for (size_t i = 0; i < sizeof known / sizeof *known; i++) {
        const struct option *o = &known[i];
        size_t length = strlen(o->name);
        if (strchr(letters, o->letter) == NULL)
            continue;
        if (o->small != NULL && strncmp(word, o->small, 2) == 0) {
            *value = word[2] == '\0' ? NULL : word + 2;
            return o;
        }
        if (strncmp(word, o->name, length) == 0 && (word[length] == '\0' || word[length] == '=')) {
            *value = word[length] == '\0' ? NULL : word + length + 1;
            return o;
        }
    }
    return NULL;
}

/* Reads one option, at *words or in the two words from there on, and goes to the last of them. */
static enum status read_option(struct options *options, const struct takes *takes, char ***words)
{
    const char *word = **words, *value;
    const struct option *o = option_of(word, takes->letters, &value);
    if (o == NULL)
        return say(STATUS_TROUBLE, "%s: there is no such option here; see " PROGRAM " --help", word);
    if (value == NULL && (*words)[1] == NULL)
        return say(STATUS_TROUBLE, "%s: a value has to follow", word);
    if (value == NULL)
        value = *++*words;
    if (*place_of(options, o->letter) != NULL)
        return say(STATUS_TROUBLE, "%s: it is given twice", o->name);
    *place_of(options, o->letter) = value;
    return STATUS_YES;
}

enum status options_read(struct options *options, const struct takes *takes, char **words)
{
    int count = 0, ended = 0;
    memset(options, 0, sizeof *options);
    for (; *words != NULL; words++) {
        const char *word = *words;
        if (!ended && strcmp(word, "--") == 0)
            ended = 1;
        else if (!ended && word[0] == '-' && word[1] != '\0') {
            if (read_option(options, takes, &words) != STATUS_YES)
                return STATUS_TROUBLE;
        } else if (count == takes->operands)
            return say(STATUS_TROUBLE, "%s: that is one word too many; see " PROGRAM " --help", word);
        else
            options->operands[count++] = word;
    }
    if (count < takes->operands)
        return say(STATUS_TROUBLE, "%s is missing; see " PROGRAM " --help", count == 0 ? "FILE" : "BLOCK");
    return STATUS_YES;
}

int number_read(const char *text, uint32_t *number)
{
    uint64_t sum = 0;
    if (*text == '\0')
        return 0;
    for (; *text != '\0'; text++) {
        if (*text < '0' || *text > '9')
            return 0;
        sum = 10 * sum + (uint64_t)(*text - '0');
        if (sum > UINT32_MAX)
            sum = UINT32_MAX;
    }
    *number = (uint32_t)sum;
    return 1;
}
