// ------------------------------------------------------------ the host
//
// The arguments, the text, the backing file and the lines of one command, on a POSIX system. The machine above is proved; the host isn't.
#ifdef __GNUC__
#pragma GCC diagnostic pop
#endif
#include <errno.h>
#include <fcntl.h>
#include <poll.h>
#include <signal.h>
#include <sys/file.h>
#include <sys/stat.h>
#include <time.h>
#include <unistd.h>

enum { FEW_SECTORS = 1024, EXERCISE_SECTORS = 4096, SECTORS = 65536, SECTOR_BYTES = 240, FILE_BYTES = SECTORS * SECTOR_BYTES, MOST_ARGUMENTS = 5 };
enum { DECK_BYTES = 4194304, IMAGE_BYTES = 67108864 }; // the machine refuses a longer text
enum { PART = 1000000, LEAST_PART = 1000 }; // operators of the first part of a long run, and of the shortest one
enum { USAGE = 1, HALTED = 3, BACKING_FULL = 5, BACKING_FAULT = 6, READING_FAULT = 7, NOT_PRINTED = 8, NO_MEMORY = 9, CANT = 10 };

typedef struct {
    char *bytes;
    size_t count;
} Text;

// The result of a call: its status, and where its lines and its sectors lie in the memory. It may print `may_print` bytes.
typedef struct {
    int status;
    u64 lines, printed, may_print, at;
    u32 sectors;
} Made;

// The backing file, open, and the content of its sectors before the call; or why it can't be used.
typedef struct {
    int file;
    u8 *held;
    const char *why;
} Device;

// ------------------------------------------------------------ calls of the machine

static u64 room_for(Z_b67_instance_t *machine, u64 bytes) {
    u64 at = w2c_room(machine, bytes);
    if (!at) ends(NO_MEMORY, "NO MEMORY\n", NULL);
    return at;
}

static u64 lent(Z_b67_instance_t *machine, Text text) {
    u64 at = room_for(machine, text.count);
    memcpy(memory + at, text.bytes, text.count);
    return at;
}

static void begin(Z_b67_instance_t *machine) {
    init_globals(machine);
    init_memories(machine);
}

// A word in the file has its highest byte first. Written out so that gcc makes one load of it.
static u64 word_at(const u8 *bytes) {
    u64 high = (u64)bytes[0] << 56 | (u64)bytes[1] << 48 | (u64)bytes[2] << 40 | (u64)bytes[3] << 32;
    return high | (u64)bytes[4] << 24 | (u64)bytes[5] << 16 | (u64)bytes[6] << 8 | (u64)bytes[7];
}
static void put_word(u8 *bytes, u64 word) {
    for (int k = 8; k-- > 0; word >>= 8) bytes[k] = (u8)word;
}

// Carries out the command of the arguments over a text and the first `sectors` sectors of what a file held, or of zeros.
static Made called(int count, char **arguments, Text text, u32 sectors, const u8 *held) {
    Z_b67_instance_t machine;
    Made made = {.sectors = sectors};
    u64 at[MOST_ARGUMENTS], bytes[MOST_ARGUMENTS];
    begin(&machine);
    for (int k = 0; k < MOST_ARGUMENTS; k++) {
        char *argument = k < count ? arguments[k] : "";
        bytes[k] = strlen(argument);
        at[k] = lent(&machine, (Text){argument, strlen(argument)});
    }
    u64 deck = lent(&machine, text), printed = room_for(&machine, 8);
    made.may_print = (u64)(room_pages + 1) * PAGE / 4; // the machine takes as much again
    made.at = room_for(&machine, (u64)sectors * SECTOR_BYTES);
    made.lines = room_for(&machine, made.may_print);
    for (u32 k = 0; held && k < sectors * SECTOR_BYTES; k += 8) i64_store(made.at + k, word_at(held + k));
    made.status = w2c_b67_web_serve(&machine, at[0], bytes[0], at[1], bytes[1], at[2], bytes[2], at[3], bytes[3], at[4], bytes[4],
                                    (u64)count, deck, text.count, made.at, sectors, made.lines, made.may_print, printed) & 255;
    made.printed = i64_load(printed);
    return made;
}

// Makes so many operators from an image on, over the sectors that belong to it, as the machine has them.
static Made stepped(Text image, u64 most, u32 sectors, const u8 *held) {
    Z_b67_instance_t machine;
    Made made = {.sectors = sectors};
    begin(&machine);
    u64 at = lent(&machine, image), printed = room_for(&machine, 8);
    made.may_print = (u64)(room_pages + 1) * PAGE / 4;
    made.at = room_for(&machine, (u64)sectors * SECTOR_BYTES);
    made.lines = room_for(&machine, made.may_print);
    memcpy(memory + made.at, held, (size_t)sectors * SECTOR_BYTES);
    made.status = w2c_b67_web_step(&machine, at, image.count, most, made.at, sectors, made.lines, made.may_print, printed) & 255;
    made.printed = i64_load(printed);
    return made;
}

// The status of opening a deck in a core: 1 if that can be done, otherwise that of a run.
static int opening(Text text, u32 core) {
    Z_b67_instance_t machine;
    begin(&machine);
    u64 deck = lent(&machine, text), none = room_for(&machine, 8);
    return w2c_b67_web_find(&machine, core, 1, none, 0, 0, 0, deck, text.count, SECTORS, none) & 255;
}

// ------------------------------------------------------------ the system

// Whether to repeat a call on a stream that failed; waits if the stream was told not to block.
static int again(int stream, short event) {
    struct pollfd it = {.fd = stream, .events = event};
    if (errno == EAGAIN || errno == EWOULDBLOCK) poll(&it, 1, -1);
    else if (errno != EINTR) return 0;
    return 1;
}

// Reads standard input up to the first byte past a limit. Of the memory that is asked for the system provides what is used.
static int input(size_t limit, Text *text) {
    *text = (Text){malloc(limit + 1), 0};
    if (!text->bytes) ends(NO_MEMORY, "NO MEMORY\n", NULL);
    while (text->count <= limit) {
        ssize_t many = read(STDIN_FILENO, text->bytes + text->count, limit + 1 - text->count);
        if (many == 0) break;
        if (many > 0) text->count += (size_t)many;
        else if (!again(STDIN_FILENO, POLLIN)) return 0;
    }
    return 1;
}

static int prints(const void *bytes, u64 count) {
    for (u64 done = 0; done < count;) {
        ssize_t many = write(STDOUT_FILENO, (const u8 *)bytes + done, count - done < 1 << 20 ? (size_t)(count - done) : 1 << 20);
        if (many > 0) done += (u64)many;
        else if (many == 0 || !again(STDOUT_FILENO, POLLOUT)) return 0;
    }
    return 1;
}

static int reads(int file, u8 *bytes) {
    for (size_t done = 0; done < FILE_BYTES;) {
        ssize_t many = pread(file, bytes + done, FILE_BYTES - done, (off_t)done);
        if (many > 0) done += (size_t)many;
        else if (many == 0 || errno != EINTR) return 0;
    }
    return 1;
}

static int writes(int file, const u8 *sector, off_t at) {
    for (size_t done = 0; done < SECTOR_BYTES;) {
        ssize_t many = pwrite(file, sector + done, SECTOR_BYTES - done, at + (off_t)done);
        if (many > 0) done += (size_t)many;
        else if (many == 0 || errno != EINTR) return 0;
    }
    return 1;
}

// Opens the file at a path, locks it and reads it. A missing file is created; a file of another length is left as it is.
static Device opened(const char *path) {
    struct stat its, printed;
    Device device = {open(path, O_RDWR | O_CREAT | O_CLOEXEC, 0666), calloc(SECTORS, SECTOR_BYTES), NULL};
    int file = device.file;
    if (!device.held) ends(NO_MEMORY, "NO MEMORY\n", NULL);
    if (file < 0 || fstat(file, &its)) device.why = strerror(errno);
    else if (!S_ISREG(its.st_mode)) device.why = "it is not a regular file";
    else if (!fstat(STDOUT_FILENO, &printed) && its.st_dev == printed.st_dev && its.st_ino == printed.st_ino)
        device.why = "standard output goes into it";
    else if (flock(file, LOCK_EX | LOCK_NB)) device.why = errno == EWOULDBLOCK ? "another run uses it" : strerror(errno);
    else if (fstat(file, &its)) device.why = strerror(errno);
    else if (its.st_size != 0 && its.st_size != FILE_BYTES) device.why = "a backing file has 15,728,640 bytes";
    else if (its.st_size == 0 ? ftruncate(file, FILE_BYTES) : !reads(file, device.held)) device.why = strerror(errno);
    return device;
}

// Writes each sector that a call has changed; NULL, or why that can't be done.
static const char *kept(Device device, Made made) {
    for (u32 at = 0; at < made.sectors * SECTOR_BYTES; at += SECTOR_BYTES) {
        u8 *held = device.held + at;
        int same = 1;
        for (u32 k = 0; k < SECTOR_BYTES; k += 8) {
            u64 word = i64_load(made.at + at + k);
            if (word == word_at(held + k)) continue;
            put_word(held + k, word);
            same = 0;
        }
        if (!same && !writes(device.file, held, at)) return strerror(errno);
    }
    return close(device.file) ? strerror(errno) : NULL;
}

// ------------------------------------------------------------ the program

static int is(const char *argument, const char *other) { return strcmp(argument, other) == 0; }

// Whether an argument is a pair, as 2=3.
static int is_pair(const char *argument) {
    size_t first = strspn(argument, "0123456789"), last = argument[first] == '=' ? strspn(argument + first + 1, "0123456789") : 0;
    return first && last && !argument[first + 1 + last];
}

static int says(const char *line, int status) { return prints(line, strlen(line)) ? status : NOT_PRINTED; }

static int answered(Made made) {
    if (made.status == NO_MEMORY && !made.printed) return says("NO MEMORY\n", NO_MEMORY);
    if (made.status == NOT_PRINTED && made.printed)
        fprintf(stderr, "b67: more than %llu bytes are printed: this is the beginning\n", (unsigned long long)made.may_print);
    return prints(memory + made.lines, made.printed) ? made.status : NOT_PRINTED;
}

static int without_backing(const char *path, const char *why) {
    fprintf(stderr, "b67: %s: %s\n", path, why);
    return says("BACKING FAULT\n", BACKING_FAULT);
}

// The words of core that the arguments of `run` and `image` name.
static u32 core_of(int count, char **arguments) {
    for (int k = 1; k + 1 < count; k++)
        if (is(arguments[k], "--core")) return (u32)strtoul(arguments[k + 1], NULL, 10);
    return 0;
}

// Carries out a command whose file can't be used: BACKING FAULT, unless it is no `resume` and its text is refused, or its core or the device is
// too small for the opening. A deck without a job uses no sector, so it is no fault.
static int judged(int count, char **arguments, Text text, const char *path, const char *why) {
    if (is(arguments[0], "resume")) return without_backing(path, why);
    if (opening(text, core_of(count, arguments)) != 1) return answered(called(count, arguments, text, SECTORS, NULL));
    Made made = called(1, (char *[]){"check"}, text, 1, NULL);
    return made.status != 0 || made.printed == 0 ? answered(made) : without_backing(path, why);
}

// Carries out a run of a deck: it begins with few sectors, since they are copied, and takes all if those don't suffice. An image names them all.
static Made over(int count, char **arguments, Text text, const u8 *held) {
    if (is(arguments[0], "run")) {
        Made made = called(count, arguments, text, FEW_SECTORS, held);
        if (made.status != BACKING_FULL) return made;
    }
    return called(count, arguments, text, SECTORS, held);
}

// A part of a run that has halted: its image, and its sectors as the machine has them. Both are kept outside of the memory, which the next call
// clears.
typedef struct {
    Text image;
    u8 *held;
} Part;

// Prints the lines of a part that has halted, and keeps the rest; 0 if they can't be printed.
static int passes_on(Made made, u64 *told, Part *part) {
    char *bytes = (char *)memory + made.lines;
    u64 lines = 0; // an image begins with the first ? of all
    while (lines < made.printed && bytes[lines] != '?') lines++;
    *told += lines;
    if (!prints(bytes, lines)) return 0;
    free(part->image.bytes);
    part->image = (Text){malloc((size_t)(made.printed - lines)), (size_t)(made.printed - lines)};
    if (!part->held) part->held = malloc((size_t)made.sectors * SECTOR_BYTES);
    if (!part->image.bytes || !part->held) ends(NO_MEMORY, "NO MEMORY\n", NULL);
    memcpy(part->image.bytes, bytes + lines, part->image.count);
    memcpy(part->held, memory + made.at, (size_t)made.sectors * SECTOR_BYTES);
    return 1;
}

static int has_halt(Text text) {
    for (size_t at = 0; at + 5 <= text.count; at++)
        if (text.bytes[at] == '?' && (at == 0 || text.bytes[at - 1] == '\n') && !memcmp(text.bytes + at, "?HALT", 5)) return 1;
    return 0;
}

enum { WHOLE, MADE, LONGER }; // what the first part of a run shows: it is to be made as a whole, it is made, or it is longer

static Made unprinted(Made made) { return (Made){.status = NOT_PRINTED, .sectors = made.sectors, .at = made.at}; }

// The first part of a run of a deck: its lines are printed if the run is longer.
static int begun_run(int count, char **arguments, Text text, const u8 *held, u64 *told, Made *made, Part *part) {
    char card[32], *image[MOST_ARGUMENTS] = {"image"};
    size_t length = (size_t)snprintf(card, sizeof card, "?HALT %d\n", PART);
    Text halting = {malloc(length + text.count), length + text.count};
    if (has_halt(text) || !halting.bytes) return free(halting.bytes), WHOLE;
    memcpy(halting.bytes, card, length);
    memcpy(halting.bytes + length, text.bytes, text.count);
    for (int k = 1; k < count; k++) image[k] = arguments[k];
    *made = called(count, arguments, halting, FEW_SECTORS, held);
    int ran = made->status;
    if (ran == HALTED) *made = called(count, image, halting, FEW_SECTORS, held);
    free(halting.bytes);
    if (ran != HALTED || made->status != HALTED) return ran == 0 ? MADE : WHOLE;
    if (passes_on(*made, told, part)) return LONGER;
    *made = unprinted(*made);
    return MADE;
}

// An image that is resumed, and its sectors as the machine has them.
static Part resumed(Text text, const u8 *held) {
    Part part = {{malloc(text.count + 1), text.count}, calloc(SECTORS, SECTOR_BYTES)};
    if (!part.image.bytes || !part.held) ends(NO_MEMORY, "NO MEMORY\n", NULL);
    memcpy(part.image.bytes, text.bytes, text.count);
    for (u32 k = 0; held && k < FILE_BYTES; k += 8) {
        u64 word = lowest_first(word_at(held + k), 8);
        memcpy(part.held + k, &word, 8);
    }
    return part;
}

// How many operators the next part has: as many as take half a second, or eight times as long as an image and the sectors, which a part of one
// operator tells.
static u64 next_most(u64 most, clock_t took, clock_t *least) {
    if (most == 1) *least = took ? took : 1;
    if (most == 1) return PART;
    if (!*least) return 1;
    double wanted = CLOCKS_PER_SEC / 2.0 > 8.0 * *least ? CLOCKS_PER_SEC / 2.0 : 8.0 * *least, times = wanted / (took > *least ? took - *least : 1);
    u64 next = (u64)((double)most * (times < 8 ? times : 8));
    return next > LEAST_PART ? next : LEAST_PART;
}

// Whether a long run was made in parts, from image to image by the machine's own steps, so that its lines are printed as they come: then `made` is
// its last part, whose lines are left. Otherwise it is to be made as a whole, without the first `told` bytes of its lines.
static int in_parts(int count, char **arguments, Text text, const u8 *held, u64 *told, Made *made) {
    int resumes = is(arguments[0], "resume"), shown = LONGER;
    u64 most = resumes ? PART : 1;
    clock_t least = 0;
    Part part = {{NULL, 0}, NULL};
    if (resumes) part = resumed(text, held);
    else shown = begun_run(count, arguments, text, held, told, made, &part);
    while (shown == LONGER) {
        clock_t begun = clock();
        *made = stepped(part.image, most, resumes ? SECTORS : FEW_SECTORS, part.held);
        most = next_most(most, clock() - begun, &least);
        if (made->status != HALTED) return made->status == 0 || made->status == NOT_PRINTED || (made->status == BACKING_FULL && resumes);
        if (passes_on(*made, told, &part)) continue;
        *made = unprinted(*made);
        shown = MADE;
    }
    return shown == MADE;
}

// Carries out the command of the arguments, over the file at a path unless it is NULL.
static int carries_out(int count, char **arguments, const char *path) {
    const char *name = count ? arguments[0] : "";
    int resumes = is(name, "resume"), runs = resumes || is(name, "run") || is(name, "image");
    if (is(name, "exercise")) return answered(called(count, arguments, (Text){"", 0}, EXERCISE_SECTORS, NULL));
    Made made = called(count, arguments, (Text){"?", 1}, 1, NULL);
    if (made.status == USAGE) return answered(made); // then nothing is opened or read
    static Text text; // both live as long as the program
    static Device device = {-1, NULL, NULL};
    if (!input(resumes || is(name, "dump") ? IMAGE_BYTES : DECK_BYTES, &text)) return says("READING FAULT\n", READING_FAULT);
    if (path) device = opened(path);
    if (device.why) return judged(count, arguments, text, path, device.why);
    u64 told = 0;
    if (!runs) made = called(count, arguments, text, 1, NULL);
    else if (!is(name, "image") && in_parts(count, arguments, text, device.held, &told, &made)) told = 0;
    else made = over(count, arguments, text, device.held);
    const char *why = path ? kept(device, made) : NULL;
    if (why) return without_backing(path, why);
    made.lines += told;
    made.printed -= told;
    return answered(made);
}

int main(int count, char **arguments) {
    const char *path = NULL;
    int pairs = 0;
    // A stream that is closed must fail, and must never become the backing file.
    for (int stream = 0; stream < 3; stream++)
        if (fcntl(stream, F_GETFD) < 0 && open("/dev/null", stream ? O_RDONLY : O_WRONLY) < 0) return CANT;
    signal(SIGPIPE, SIG_IGN); // then the call fails instead
    if (count > 0) count--, arguments++;
    const char *name = count ? arguments[0] : "";
    while (pairs + 1 < count && is_pair(arguments[pairs + 1])) pairs++;
    if (is(name, "bind") && pairs + 1 == count && count > MOST_ARGUMENTS)
        ends(CANT, "", "bind takes at most four pairs here: bind four, then bind the result with the others");
    for (int k = 1; k + 1 < count && !path && (is(name, "run") || is(name, "image") || is(name, "resume")); k++)
        if (is(arguments[k], "--backing")) path = arguments[k + 1];
    return carries_out(count > MOST_ARGUMENTS ? 0 : count, arguments, path);
}
