#include "lines.h"
#include "board.h"

enum { BAUD = 460800, LONGEST = 24 };

/* When it returns, all bytes before this one are out: of a record that was sent no more than the newline can be lost in a reset. */
static void send(char byte)
{
    UART0->data = (uint8_t)byte;
    while (UART0->state & UART_SENDING)
        ;
}

static void send_text(const char *text)
{
    while (*text != '\0')
        send(*text++);
}

static void send_number(uint32_t number)
{
    if (number >= 10)
        send_number(number / 10);
    send((char)('0' + number % 10));
}

void lines_open(void)
{
    UART0->divider = CLOCK_HZ / BAUD;
    UART0->control = UART_SENDS | UART_RECEIVES;
    send_text("\nstart\n"); /* the first byte ends a line that a reset has torn */
}

void lines_send_record(uint32_t at, const uint8_t *record, uint32_t size)
{
    static const char digits[] = "0123456789abcdef";
    send_text("at ");
    send_number(at);
    send(' ');
    for (uint32_t k = 0; k < size; k++) {
        send(digits[record[k] >> 4]);
        send(digits[record[k] & 15]);
    }
    send('\n');
}

void lines_send_refusal(uint32_t number, uint32_t place)
{
    send_text("refused ");
    send_number(number);
    send_text(" at ");
    send_number(place);
    send('\n');
}

/* The text behind the word, or null if it does not begin with it. */
static const char *behind(const char *text, const char *word)
{
    while (text && *word != '\0')
        text = *text == *word++ ? text + 1 : 0;
    return text;
}

/* The text behind the number, or null if it does not begin with one. */
static const char *behind_number(const char *text, uint32_t *number)
{
    if (!text || *text < '0' || *text > '9')
        return 0;
    for (*number = 0; *text >= '0' && *text <= '9' && *number < 400000000; text++)
        *number = 10 * *number + (uint32_t)(*text - '0');
    return text;
}

/* `input TIME INPUT` or `end TIME`. Of a line that a reset has torn its last part arrives, and that begins with neither word. */
static int understood(const char *text, struct line *line)
{
    const char *rest = behind_number(behind(text, "end "), &line->time);
    line->ends = rest != 0;
    line->input = 255;
    if (!rest)
        rest = behind_number(behind(behind_number(behind(text, "input "), &line->time), " "), &line->input);
    return rest && *rest == '\0';
}

/* A line without its end; empty ones are passed over, and one that is too long is spoilt. */
static void receive(char *text)
{
    uint32_t count = 0;
    for (;;) {
        while (!(UART0->state & UART_RECEIVED))
            ;
        char byte = (char)UART0->data;
        if (byte == '\n' || byte == '\r') {
            if (count > 0)
                break;
        } else if (count < LONGEST) {
            text[count++] = byte;
        } else {
            text[0] = '?';
        }
    }
    text[count] = '\0';
}

static void ask(uint32_t from)
{
    send_text("from ");
    send_number(from);
    send('\n');
}

struct line lines_next(uint32_t from)
{
    char text[LONGEST + 1];
    struct line line;
    ask(from);
    for (;;) {
        receive(text);
        if (!understood(text, &line))
            ask(from);
        else if (line.time >= from)
            return line; /* an earlier one answers a question from before a reset */
    }
}
