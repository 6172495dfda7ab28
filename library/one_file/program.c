/* The program, written by hand: its words, its files, and how it ends. */
enum { DONE = 0, FILE_FAULT = 1, WRONG_WORD = 2, NO_MEMORY = 5, OUTSIDE_MEMORY = 6, MOST_WORDS = 1000, TEXT_ROOM = 128, NO_ROOM = 11 };
enum { LEAST_MEMORY = 1 << 24, WORDS_CANNOT_BE_READ = 7, NO_TEXT = 15 };
static const u64 MOST_MEMORY = 0xC0000000u;

/* What a command came to: its exit number, the text of a refusal, and what it wrote. */
struct answer {
    unsigned exit;
    char text[TEXT_ROOM + 1];
    struct file outputs[MOST_OUTPUTS];
    unsigned count;
};

/* The value that a word gives to one of these keys, or NULL. */
static const char *value_of(const char *word, const char *const *keys) {
    for (; *keys != NULL; keys++) {
        const size_t length = strlen(*keys);
        if (strncmp(word, *keys, length) == 0 && word[length] == '=')
            return word + length + 1;
    }
    return NULL;
}

static const char *input_of(const char *word) {
    static const char *const keys[] = { "in", "plan", "script", "streams", "fields", NULL };
    return value_of(word, keys);
}

static const char *output_of(const char *word, unsigned which) {
    static const char *const keys[][2] = { { "out", NULL }, { "report", NULL } };
    return value_of(word, keys[which]);
}

/* Bytes in the memory of the generated part, or 0. */
static u32 handed(u8 *m, u32 last, const void *bytes, size_t length) {
    const u32 at = length > (u32)1 << MOST_POWER ? (wanted = true, 0u) : taken(m, last, length);
    if (at != 0 && length != 0)
        memcpy(place(at), bytes, length);
    return at;
}

/* What is kept under a name, copied. */
static bool got(u8 *m, u32 last, u32 handle, u32 told, struct file *to) {
    const u32 name = handed(m, last, to->name, strlen(to->name)), none = taken(m, last, 0);
    u32 at;
    if (name == 0 || none == 0)
        return false;
    if (code_pocket_get(m, last, handle, name, strlen(to->name), none, 0, told) != NO_ROOM)
        return true; /* no byte */
    to->length = (size_t)get64(place(told));
    at = taken(m, last, to->length);
    to->bytes = malloc(to->length);
    if (at == 0 || to->bytes == NULL || code_pocket_get(m, last, handle, name, strlen(to->name), at, to->length, told) != DONE)
        return false;
    memcpy(to->bytes, place(at), to->length);
    return true;
}

static void refuse(struct answer *answer, unsigned exit, const char *text) {
    answer->exit = exit;
    strcpy(answer->text, text);
}

/* Keeps the inputs at the desk of a handle. */
static void keep_inputs(u8 *m, u32 last, u32 handle) {
    unsigned at;
    for (at = 0; at < input_count && !wanted; at++) {
        const u32 name = handed(m, last, inputs[at].name, strlen(inputs[at].name));
        const u32 bytes = handed(m, last, inputs[at].bytes, inputs[at].length);
        if (name != 0 && bytes != 0)
            code_pocket_put(m, last, handle, name, strlen(inputs[at].name), bytes, inputs[at].length);
        if (bytes != 0)
            heap_dealloc(m, last, bytes);
    }
}

/* Hands the words over; gives whether all are text. */
static bool hands_words(u8 *m, u32 last, u32 handle, char **words, unsigned count) {
    unsigned at;
    for (at = 0; at < count && !wanted; at++) {
        const u32 word = handed(m, last, words[at], strlen(words[at]));
        if (word != 0 && code_pocket_word(m, last, handle, word, strlen(words[at])) == NO_TEXT)
            return false;
    }
    return true;
}

/* Runs the command of the words in a memory; gives whether there was room for it. Words that are right have each key once. */
static bool run_in(u8 *m, u32 last, char **words, unsigned count, struct answer *answer) {
    const u32 handle = handed(m, last, "\0\0\0\0\0\0\0\0\0\0\0\0\0\0\0\0", 16), told = taken(m, last, 8), exit = taken(m, last, 1),
              text = taken(m, last, TEXT_ROOM);
    unsigned at, which;
    u32 length;
    code_pocket_desk_open(m, last, handle);
    keep_inputs(m, last, handle);
    if (!hands_words(m, last, handle, words, count)) {
        refuse(answer, WORDS_CANNOT_BE_READ, "words cannot be read");
        return true;
    }
    if (wanted)
        return false;
    code_pocket_run(m, last, handle, text, TEXT_ROOM, told, exit);
    length = (u32)get64(place(told));
    answer->exit = get8(place(exit));
    memcpy(answer->text, place(text), length < TEXT_ROOM ? length : TEXT_ROOM);
    for (which = 0; which < MOST_OUTPUTS && answer->exit == DONE && !wanted; which++)
        for (at = 0; at < count && answer->count < MOST_OUTPUTS; at++)
            if (output_of(words[at], which) != NULL) {
                struct file *const to = &answer->outputs[answer->count++];
                to->name = output_of(words[at], which);
                if (!got(m, last, handle, told, to))
                    return false;
            }
    return !wanted;
}

/* Runs a command: in more and more memory, until there is room for it or no more. */
static struct answer ran(char **words, unsigned count) {
    struct answer answer;
    u64 bytes = LEAST_MEMORY;
    unsigned at;
    memset(&answer, 0, sizeof answer);
    for (at = 0; at < input_count; at++)
        while (bytes < 4 * (u64)inputs[at].length)
            bytes *= 2;
    for (; bytes <= MOST_MEMORY; bytes *= 2) {
        u8 *const memory = bytes + HEAD_BYTES > SIZE_MAX ? NULL : calloc(1, (size_t)bytes + HEAD_BYTES), *m;
        const u32 last = (u32)bytes - SLACK;
        if (memory == NULL)
            break;
        m = memory + HEAD_BYTES;
        memset(free_places, 0, sizeof free_places);
        memcpy(place(STACK_TOP), constants, CONSTANT_BYTES);
        set_head(m, STACK_AT, STACK_TOP);
        set_head(m, FREE_AT, ROUNDED(HEAP_BASE, 16u));
        wanted = false;
        memset(&answer, 0, sizeof answer);
        at = run_in(m, last, words, count, &answer);
        if (head_of(m, BROKEN_AT))
            refuse(&answer, OUTSIDE_MEMORY, "an access outside the memory");
        else if (!at) {
            free(memory);
            continue;
        }
        free(memory);
        return answer;
    }
    refuse(&answer, NO_MEMORY, "out of memory");
    return answer;
}

/* Whether words name a file as an output that was read. */
static bool write_over_input(char **words, unsigned count) {
    struct stat standing;
    unsigned at, which;
    for (at = 0; at < count; at++)
        for (which = 0; which < MOST_OUTPUTS; which++) {
            const char *const name = output_of(words[at], which);
            if (name != NULL && !is_standard_output(name) && stat(name, &standing) == 0 && S_ISREG(standing.st_mode) && was_read(&standing))
                return true;
        }
    return false;
}

/* Whether a word is one of two. */
static bool is_either(const char *word, const char *one, const char *other) {
    return strcmp(word, one) == 0 || strcmp(word, other) == 0;
}

/* Prints what the words ask of the program itself; gives whether they ask anything. */
static bool asked(int count, char **words) {
    const bool is_of_verb = count == 2 && is_either(words[1], "--help", "-h");
    const char *const *line;
    size_t at;
    if (count == 1 && is_either(words[0], "--version", "-V")) {
        printf("pocket %s, compiled from C, compared; files are read whole, there is no live pass\n", VERSION);
        return true;
    }
    if (!is_of_verb && (count != 1 || !(is_either(words[0], "--help", "-h") || strcmp(words[0], "help") == 0)))
        return false;
    for (at = 0; at < sizeof helps / sizeof *helps; at++)
        if (is_of_verb ? strcmp(words[0], helps[at].verb) == 0 : *helps[at].verb == 0) {
            for (line = helps[at].lines; *line != NULL; line++)
                puts(*line);
            return true;
        }
    return false;
}

int main(int count, char **words) {
    struct answer answer;
    int at;
    words += count > 0, count -= count > 0;
    stand_in();
    signal(SIGPIPE, SIG_IGN);
    if (asked(count, words)) {
        if (fflush(stdout) == 0)
            return DONE;
        fputs("pocket: writing failed\n", stderr);
        return FILE_FAULT;
    }
    count = count > MOST_WORDS ? MOST_WORDS : count;
    answer = ran(words, (unsigned)count);
    if (answer.exit == FILE_FAULT) {
        for (at = 0; at < count; at++)
            if (input_of(words[at]) != NULL)
                read_input(input_of(words[at]));
        if (write_over_input(words, (unsigned)count))
            refuse(&answer, FILE_FAULT, "writing failed");
        else if (input_count > 0)
            answer = ran(words, (unsigned)count);
    }
    if (answer.exit == DONE && !hands_over(answer.outputs, answer.count))
        refuse(&answer, FILE_FAULT, "writing failed");
    if (answer.exit != DONE)
        fprintf(stderr, "pocket: %s\n", answer.text);
    return (int)answer.exit;
}
