/* Included, after lent.h, by the programs that make many calls: what is lent with short guards, copies of it, and numbers of 4 bytes between
 * guards. */
struct four_bytes {
    uint32_t before, value, after;
};

#define FOUR_EDGE 0xA5A5A5A5u

/* the same bytes and guards in another place */
static void copy(struct lent *to, const struct lent *from)
{
    to->len = from->len;
    to->room = from->room;
    memcpy(to->all, from->all, from->room);
}

/* the same bytes, and the same guards */
static int equal(const struct lent *x, const struct lent *y)
{
    return x->len == y->len && x->room == y->room && memcmp(x->all, y->all, x->room) == 0;
}

/* the place of what is lent; null where there is none */
static uint8_t *bytes_of(const struct lent *l)
{
    return l->len ? l->all + EDGE : NULL;
}

/* lends so many bytes, each this one, with one EDGE on both sides and no more, so that many dumps take little time */
static void lend_close(struct lent *l, size_t len, uint8_t byte)
{
    l->room = EDGE + len + EDGE;
    lend(l, len);
    memset(l->all + EDGE, byte, len);
}
