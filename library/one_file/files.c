/* The files of the program, written by hand: inputs are read whole, outputs are written when a command is done. */
enum { MOST_FILES = 5, MOST_OUTPUTS = 2 };

/* The bytes of a name. */
struct file {
    const char *name;
    u8 *bytes;
    size_t length;
    struct stat of;
};

static struct file inputs[MOST_FILES];
static unsigned input_count;

/* Reads an open file to its end; gives whether all was read. */
static bool read_whole(int from, struct file *file) {
    size_t room = 0;
    ssize_t count = 1;
    while (count > 0) {
        if (file->length == room) {
            u8 *more = realloc(file->bytes, room = room ? 2 * room : 65536);
            if (more == NULL)
                return false;
            file->bytes = more;
        }
        do
            count = read(from, file->bytes + file->length, room - file->length);
        while (count < 0 && errno == EINTR);
        file->length += count > 0 ? (size_t)count : 0u;
    }
    return count == 0;
}

/* Reads the input of a name, if it can be read and was not yet; otherwise the command finds nothing under it. */
static void read_input(const char *name) {
    struct file file = { name, NULL, 0, { 0 } };
    const bool is_standard = strcmp(name, "-") == 0;
    unsigned at;
    int from;
    for (at = 0; at < input_count; at++)
        if (strcmp(inputs[at].name, name) == 0)
            return;
    from = is_standard ? 0 : open(name, O_RDONLY);
    if (from < 0 || input_count == MOST_FILES)
        return;
    if (fstat(from, &file.of) == 0 && read_whole(from, &file))
        inputs[input_count++] = file;
    if (!is_standard)
        close(from);
}

static bool are_one(const struct stat *one, const struct stat *other) {
    return one->st_dev == other->st_dev && one->st_ino == other->st_ino;
}

/* Whether a file is one that was read. */
static bool was_read(const struct stat *of) {
    unsigned at;
    for (at = 0; at < input_count; at++)
        if (are_one(&inputs[at].of, of))
            return true;
    return false;
}

static bool is_standard_output(const char *name) {
    return strcmp(name, "-") == 0 || strcmp(name, "/dev/stdout") == 0 || strcmp(name, "/dev/fd/1") == 0 || strcmp(name, "/proc/self/fd/1") == 0;
}

static bool write_whole(int to, const u8 *bytes, size_t length) {
    while (length > 0) {
        const ssize_t count = write(to, bytes, length);
        if (count < 0 && errno == EINTR)
            continue;
        if (count <= 0)
            return false;
        bytes += count;
        length -= (size_t)count;
    }
    return true;
}

/* An output that was opened: what it is written to, and the part beside its name that takes the name, if it has one. While an earlier
   part stands that is still to be replaced, nothing is open. `of` is that of the part or of standard output, and else zeros. */
struct sink {
    int to;
    bool has_mode;
    mode_t mode;
    char *part, *target;
    struct stat of;
};

/* Whether a file is the part of an output, or the one that the part will replace. */
static bool concerns(const struct sink *other, const struct stat *of) {
    struct stat standing;
    if (other == NULL || other->part == NULL)
        return false;
    return are_one(&other->of, of) || (stat(other->target, &standing) == 0 && are_one(&standing, of));
}

/* Whether a file under the name of a part is an earlier part, which may be replaced. */
static bool is_earlier(const struct stat *standing, const struct sink *other) {
    struct stat standard;
    if (!S_ISREG(standing->st_mode) || was_read(standing) || concerns(other, standing))
        return false;
    return fstat(1, &standard) != 0 || !are_one(&standard, standing);
}

/* Makes the part, with the mode of what stands under the name of the output. */
static bool makes_part(struct sink *sink) {
    sink->to = open(sink->part, O_WRONLY | O_CREAT | O_EXCL, 0666);
    if (sink->to < 0 || fstat(sink->to, &sink->of) != 0)
        return false;
    return !sink->has_mode || fchmod(sink->to, sink->mode) == 0;
}

/* Opens the part beside the name of an output. An earlier part stays until all outputs are opened. */
static bool opens_part(const char *name, const struct stat *stands, const struct sink *other, struct sink *sink) {
    struct stat standing;
    sink->to = -1;
    sink->has_mode = stands != NULL;
    sink->mode = stands == NULL ? 0 : stands->st_mode & 07777;
    sink->target = lstat(name, &standing) == 0 && S_ISLNK(standing.st_mode) ? realpath(name, NULL) : strdup(name);
    sink->part = sink->target == NULL ? NULL : malloc(strlen(sink->target) + sizeof ".part");
    if (sink->part == NULL)
        return false;
    strcpy(sink->part, sink->target);
    strcat(sink->part, ".part");
    if (lstat(sink->part, &sink->of) == 0)
        return is_earlier(&sink->of, other);
    if (errno != ENOENT || !makes_part(sink))
        return false;
    if (concerns(other, &sink->of)) {
        unlink(sink->part);
        return false;
    }
    return true;
}

/* Replaces an earlier part that still stands. */
static bool begins(struct sink *sink) {
    return sink->to >= 0 || (unlink(sink->part) == 0 && makes_part(sink));
}

/* Opens what an output is written to: standard output, which is not that of both, a pipe or a device, or a part beside its name. */
static bool opens(const char *name, const struct sink *other, struct sink *sink) {
    struct stat standing;
    memset(sink, 0, sizeof *sink);
    if (is_standard_output(name)) {
        sink->to = 1;
        return fstat(1, &sink->of) == 0 && (other == NULL || other->to != 1) && !concerns(other, &sink->of);
    }
    sink->to = open(name, O_WRONLY);
    if (sink->to < 0)
        return errno == ENOENT && opens_part(name, NULL, other, sink);
    if (fstat(sink->to, &standing) != 0)
        return false;
    if (!S_ISREG(standing.st_mode))
        return true;
    close(sink->to);
    return !was_read(&standing) && (other == NULL || !are_one(&other->of, &standing)) && opens_part(name, &standing, other, sink);
}

static bool takes_name(const struct sink *sink) {
    struct stat standing;
    return lstat(sink->part, &standing) == 0 && are_one(&standing, &sink->of) && rename(sink->part, sink->target) == 0;
}

/* Writes outputs, and then gives their parts their names. If the second can't be opened, no new part of the first is left. */
static bool hands_over(const struct file *outputs, unsigned count) {
    struct sink sinks[MOST_OUTPUTS];
    unsigned at;
    for (at = 0; at < count; at++)
        if (!opens(outputs[at].name, at ? &sinks[0] : NULL, &sinks[at])) {
            if (at && sinks[0].part != NULL && sinks[0].to >= 0)
                unlink(sinks[0].part);
            return false;
        }
    for (at = 0; at < count; at++)
        if (!begins(&sinks[at]))
            return false;
    for (at = 0; at < count; at++)
        if (!write_whole(sinks[at].to, outputs[at].bytes, outputs[at].length) || (sinks[at].part != NULL && fsync(sinks[at].to) != 0))
            return false;
    for (at = 0; at < count; at++)
        if (sinks[at].part != NULL && !takes_name(&sinks[at]))
            return false;
    return true;
}

/* Something in the place of a standard stream that is closed, so that no file is taken for it. */
static void stand_in(void) {
    int stream;
    for (stream = 0; stream < 3; stream++)
        if (fcntl(stream, F_GETFD) < 0)
            (void)open("/", O_RDONLY);
}
