/* The other end of the controller's serial line (docs/CONTROLLER.md): starts the board's emulator, answers its questions with the lines of a
 * script, keeps its journal, and resets it at random moments. When the journal has its end field the board is reset once more, and must come
 * back with the end field and the same LEDs.
 *
 *     sensor SCRIPT JOURNAL EVERY EMULATOR [WORD...]
 *
 * EVERY: after so many bytes from the board, more or less, it is reset; 0 for never; -1 for a board that resets itself, of which the LEDs
 * are not looked at. The emulator has its serial line at its standard input and output, and its monitor at file descriptor 10. One line is
 * printed, which says what was seen; the status is 0 if all is well. */
#define _XOPEN_SOURCE 700
#include <poll.h>
#include <signal.h>
#include <stdint.h>
#include <stdio.h>
#include <stdlib.h>
#include <string.h>
#include <sys/socket.h>
#include <sys/wait.h>
#include <unistd.h>

enum { MONITOR = 10, TEXT_MAX = 64, SCRIPT_MAX = 20000, RECORD_MAX = 8, END = 0x1F, PATIENCE = 10000 /* ms */, STARTS_MAX = 1000 };

static struct {
    unsigned long time;
    char text[TEXT_MAX];
} script[SCRIPT_MAX];
static size_t scripted;
static FILE *journal;
static int to_board, from_board, monitor;
static pid_t emulator;
static long every;
static struct {
    uint8_t bytes[RECORD_MAX];
    size_t at, size;
} last; /* the last record */
static char refused[TEXT_MAX]; /* what the board says when it stops */
static unsigned leds, looks;   /* leds: at the end; looks: how often they were looked at */
static unsigned long records, repeated, torn, starts, starts_then, resets; /* then: at the last new record */

static void finish(const char *fault) /* null: all is well */
{
    kill(emulator, SIGKILL);
    waitpid(emulator, NULL, 0);
    if (fault)
        printf("%s: ", fault);
    printf("%lu records, %lu sent again, %lu lines torn, %lu starts, %lu resets from outside", records, repeated, torn, starts, resets);
    printf(looks > 0 ? ", LEDs %u\n" : "\n", leds);
    exit(fclose(journal) != 0 || fault ? 1 : 0);
}

static int load_script(const char *path)
{
    FILE *file = fopen(path, "r");
    while (file && scripted < SCRIPT_MAX && fgets(script[scripted].text, TEXT_MAX, file))
        if (sscanf(script[scripted].text, "%*s %lu", &script[scripted].time) == 1)
            scripted++;
    if (file)
        fclose(file);
    return scripted > 0;
}

static int start_emulator(char **words)
{
    int in[2], out[2], control[2]; /* pipes, since a socket is full after some hundred single bytes, and the board would wait */
    if (pipe(in) != 0 || pipe(out) != 0 || socketpair(AF_UNIX, SOCK_STREAM, 0, control) != 0 || (emulator = fork()) < 0)
        return 0;
    if (emulator == 0) {
        if (dup2(in[0], STDIN_FILENO) >= 0 && dup2(out[1], STDOUT_FILENO) >= 0 && dup2(control[1], MONITOR) >= 0)
            execvp(words[0], words);
        _exit(2);
    }
    to_board = in[1];
    from_board = out[0];
    monitor = control[0];
    close(in[0]);
    close(out[1]);
    close(control[1]);
    return 1;
}

/* ---- The monitor ---- */

static void command(const char *text)
{
    if (write(monitor, text, strlen(text)) < 0)
        finish("the monitor does not listen");
}

static void reset_board(void)
{
    command("system_reset\n");
    resets++;
}

static void look_at_leds(void)
{
    looks++;
    command("xp /1wx 0x4002f004\n");
}

static void judge_leds(unsigned now)
{
    if (looks == 1) {
        leds = now;
        if (*refused)
            finish(refused);
        reset_board();
    } else {
        finish(now == leds ? NULL : "the LEDs are not the same after a reset");
    }
}

static void hear_monitor(void) /* what it says before the LEDs are looked at is dropped */
{
    static char text[4096];
    static size_t size;
    unsigned now;
    ssize_t more = read(monitor, text + size, sizeof text - 1 - size);
    if (more <= 0)
        finish("the emulator has ended");
    size = looks > 0 ? size + (size_t)more : 0;
    text[size] = '\0';
    const char *told = strstr(text, "4002f004: 0x");
    if (told && strchr(told, '\n') && sscanf(told, "4002f004: %x", &now) == 1) {
        size = 0;
        judge_leds(now);
    }
}

static void reset_sometimes(void)
{
    static long left;
    if (every <= 0 || looks > 0 || --left > 0)
        return;
    if (left == 0)
        reset_board();
    left = 1 + rand() % (2 * every);
}

/* ---- The serial line ---- */

static void answer(unsigned long from) /* with the first line that is not earlier */
{
    size_t k = 0;
    while (k < scripted && script[k].time < from)
        k++;
    if (k < scripted && write(to_board, script[k].text, strlen(script[k].text)) < 0)
        finish("the board does not listen");
}

/* A record is the next one, or the last one again; anything else is no journal that goes on. */
static void keep(size_t at, const uint8_t *bytes, size_t size)
{
    if (records > 0 && at == last.at && size == last.size && memcmp(bytes, last.bytes, size) == 0) {
        repeated++;
    } else if (at == last.at + last.size) {
        fwrite(bytes, 1, size, journal);
        records++;
        starts_then = starts;
        memcpy(last.bytes, bytes, size);
        last.at = at;
        last.size = size;
    } else {
        finish("a record is not in its place");
    }
    if (bytes[0] != END)
        return;
    if (every < 0)
        finish(NULL);
    if (looks < 2)
        look_at_leds();
}

/* `at PLACE HEX`, if it is a whole record by the length that it says. */
static int is_record(const char *text)
{
    size_t at, size = 0;
    int behind = 0;
    unsigned byte;
    uint8_t bytes[RECORD_MAX];
    if (sscanf(text, "at %zu %n", &at, &behind) != 1 || behind == 0)
        return 0;
    for (text += behind; size < RECORD_MAX && strlen(text) >= 2 && sscanf(text, "%2x", &byte) == 1; text += 2)
        bytes[size++] = (uint8_t)byte;
    if (*text != '\0' || size < 3 || size != 3u + bytes[2])
        return 0;
    keep(at, bytes, size);
    return 1;
}

static void hear(const char *text)
{
    unsigned long from;
    if (strcmp(text, "start") == 0) {
        if (++starts > starts_then + STARTS_MAX)
            finish("the run does not go on");
    } else if (strncmp(text, "refused ", 8) == 0) {
        strcpy(refused, text);
        look_at_leds();
    } else if (sscanf(text, "from %lu", &from) == 1) {
        answer(from);
    } else if (!is_record(text) && *text != '\0') {
        torn++;
    }
}

static void hear_byte(char byte)
{
    static char text[TEXT_MAX];
    static size_t size;
    if (byte != '\n') {
        text[size] = byte;
        size += size < TEXT_MAX - 1;
        return;
    }
    text[size] = '\0';
    size = 0;
    hear(text);
}

int main(int count, char **words)
{
    char bytes[4096];
    if (count < 5 || !load_script(words[1]) || !(journal = fopen(words[2], "wb")) || !start_emulator(words + 4))
        return fprintf(stderr, "usage: sensor SCRIPT JOURNAL EVERY EMULATOR [WORD...]\n"), 2;
    every = atol(words[3]);
    struct pollfd both[2] = { { .fd = from_board, .events = POLLIN }, { .fd = monitor, .events = POLLIN } };
    while (poll(both, 2, PATIENCE) > 0) {
        if (both[1].revents != 0)
            hear_monitor();
        ssize_t size = both[0].revents != 0 ? read(from_board, bytes, sizeof bytes) : 0;
        for (ssize_t k = 0; k < size; k++) {
            hear_byte(bytes[k]);
            reset_sometimes();
        }
    }
    finish("the board is silent");
}
