/* protobuf_c.c: protobuf-c, the library that sudo uses. */
#include "bench.h"
#include "sudo_logsrv.pb-c.h"

#include <string.h>

INLINE void hear_io(const IoBuffer *io, struct listener *to)
{
    hear_time(to, io->delay->tv_sec, io->delay->tv_nsec);
    hear_bytes(to, io->data.data, io->data.len);
}

INLINE void hear_text(const char *text, struct listener *to)
{
    hear_bytes(to, text, strlen(text));
}

INLINE void hear_entry(const InfoMessage *entry, struct listener *to)
{
    size_t i;
    hear_text(entry->key, to);
    hear(to, (uint64_t)entry->value_case);
    if (entry->value_case == INFO_MESSAGE__VALUE_NUMVAL)
        hear(to, (uint64_t)entry->numval);
    else if (entry->value_case == INFO_MESSAGE__VALUE_STRVAL)
        hear_text(entry->strval, to);
    else if (entry->value_case == INFO_MESSAGE__VALUE_STRLISTVAL)
        for (i = 0; i < entry->strlistval->n_strings; i++)
            hear_text(entry->strlistval->strings[i], to);
    else if (entry->value_case == INFO_MESSAGE__VALUE_NUMLISTVAL)
        for (i = 0; i < entry->numlistval->n_numbers; i++)
            hear(to, (uint64_t)entry->numlistval->numbers[i]);
}

INLINE void hear_accept(const AcceptMessage *accept, struct listener *to)
{
    size_t i;
    for (i = 0; i < accept->n_info_msgs; i++)
        hear_entry(accept->info_msgs[i], to);
    hear_time(to, accept->submit_time->tv_sec, accept->submit_time->tv_nsec);
    hear(to, (uint64_t)accept->expect_iobufs);
}

INLINE void unpack(struct message m, struct listener *to, bool values)
{
    ClientMessage *c = client_message__unpack(NULL, m.n, m.bytes);
    if (c == NULL) {
        hear_refusal(to);
        return;
    }
    hear(to, (uint64_t)c->type_case);
    if (c->type_case >= CLIENT_MESSAGE__TYPE_TTYIN_BUF && c->type_case <= CLIENT_MESSAGE__TYPE_STDERR_BUF)
        hear_io(c->ttyin_buf, to); /* a union: each of the five members is this one */
    if (values && c->type_case == CLIENT_MESSAGE__TYPE_ACCEPT_MSG)
        hear_accept(c->accept_msg, to);
    client_message__free_unpacked(c, NULL);
}

INLINE void unpack_members(struct message m, struct listener *to)
{
    unpack(m, to, false);
}

INLINE void unpack_values(struct message m, struct listener *to)
{
    unpack(m, to, true);
}

READER(unpack_members)
READER(unpack_values)

static size_t pack(const struct point *point, uint8_t *out)
{
    ServerMessage message = SERVER_MESSAGE__INIT;
    TimeSpec time = TIME_SPEC__INIT;
    size_t n;
    time.tv_sec = (int64_t)point->seconds;
    time.tv_nsec = (int32_t)point->nanoseconds;
    message.type_case = SERVER_MESSAGE__TYPE_COMMIT_POINT;
    message.commit_point = &time;
    n = server_message__get_packed_size(&message);
    out[0] = (uint8_t)(n >> 24);
    out[1] = (uint8_t)(n >> 16);
    out[2] = (uint8_t)(n >> 8);
    out[3] = (uint8_t)n;
    return 4 + server_message__pack(&message, out + 4);
}

static uint64_t pack_pass(const struct work *w)
{
    size_t round, i, at = 0;
    for (round = 0; round < w->rounds; round++)
        for (i = 0; i < w->points_n; i++)
            at += pack(&w->points[i], w->area + at);
    return at;
}

const struct contender protobuf_c[] = {
    { "protobuf-c", READS, "protobuf-c, unpack", MEMBERS, false, false, unpack_members_pass, unpack_members_digest },
    { "protobuf-c-values", READS_ALL, "protobuf-c, unpack", VALUES, true, false, unpack_values_pass,
      unpack_values_digest },
    { "protobuf-c-pack", WRITES, "protobuf-c, pack", WRITTEN, false, false, pack_pass, NULL },
    { NULL, NULL, NULL, MEMBERS, false, false, NULL, NULL },
};
