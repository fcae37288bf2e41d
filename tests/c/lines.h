/* Included, after lent.h, by the programs that call a reader of a line or a writer: what is lent to them, and what they leave. */
LENT(pool_, MOST);
LENT(out_, MOST);

/* what reads a line: ihex_read_record, or ihex_read_srecord */
static uint32_t (*reader)(const uint8_t *line, size_t line_len, uint8_t *pool, size_t pool_len, size_t at, uint64_t *a, uint64_t *b,
                          uint64_t *c);

static uint32_t read_bytes(const char *l, size_t n, size_t pool_len, size_t at)
{
    const uint8_t *bytes = given(&text_, l, n);
    uint8_t *pool = lend(&pool_, pool_len);
    uint32_t r;
    fresh();
    r = reader(bytes, n, pool, pool_len, at, &a.value, &b.value, &c.value);
    CHECK(same(&text_, l));
    return r;
}

static uint32_t read_line(const char *l, size_t pool_len, size_t at)
{
    return read_bytes(l, strlen(l), pool_len, at);
}

/* what a writer returned and left in the output: a text, or a value and nothing */
static int wrote(const char *text)
{
    return a.value == strlen(text) && holds(&out_, 0, text, strlen(text));
}

static int wrote_nothing(uint64_t value)
{
    return a.value == value && untouched(&out_);
}
