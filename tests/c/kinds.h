/* Included, after lent.h, by the programs that make texts of both kinds: a text, record by record, and what a load returned. */
enum { INTEL, SRECORDS };
static int kind;
static char text[8000];

/* puts a line into the text: what it begins with, and bytes with their checksum */
static void say(const char *front, const uint8_t *bytes, size_t n)
{
    char *at = text + strlen(text);
    unsigned sum = 0;
    size_t i;
    at += sprintf(at, "%s", front);
    for (i = 0; i < n; i++) {
        at += sprintf(at, "%02X", bytes[i]);
        sum += bytes[i];
    }
    sprintf(at, "%02X\n", ((kind == INTEL ? 256 : 255) - sum) & 255);
}

static void begin_text(int of)
{
    kind = of;
    text[0] = 0;
}

/* puts a data record of n bytes: of Intel HEX a base and data, else an S3 */
static void data_of(uint32_t address, const void *bytes, size_t n)
{
    uint8_t line_[300] = {0}, base[] = {2, 0, 0, 4, (uint8_t)(address >> 24), (uint8_t)(address >> 16)};
    size_t head = kind == INTEL ? 4 : 5, i;
    line_[0] = (uint8_t)(kind == INTEL ? n : n + 5);
    for (i = 1; i < head; i++)
        line_[i] = (uint8_t)(kind == INTEL ? (i < 3 ? address >> 8 * (2 - i) : 0) : address >> 8 * (4 - i));
    memcpy(line_ + head, bytes, n);
    if (kind == INTEL)
        say(":", base, sizeof base);
    say(kind == INTEL ? ":" : "S3", line_, head + n);
}

static void end(void)
{
    strcat(text, kind == INTEL ? ":00000001FF\n" : "S9030000FC\n");
}

/* the line of the data record with this number, the first being 1 */
static size_t line_of(size_t record)
{
    return kind == INTEL ? 2 * record : record;
}

/* what a load returned */
struct answer {
    uint32_t code;
    size_t line;
    uint8_t start;
    uint64_t values[3];
};

static struct answer answered(uint32_t code)
{
    struct answer found = {code, line.value, started.value, {a.value, b.value, c.value}};
    return found;
}

static int alike(struct answer x, struct answer y)
{
    return x.code == y.code && x.line == y.line && x.start == y.start && x.values[0] == y.values[0] && x.values[1] == y.values[1] &&
           x.values[2] == y.values[2];
}
