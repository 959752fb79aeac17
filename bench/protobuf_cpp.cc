// protobuf_cpp.cc: Google's C++ library. Each message is made on an arena with a block of its own, which is reset after it.
#include "bench.h"
#include "sudo_logsrv.pb.h"

#include <google/protobuf/arena.h>

#include <string>

namespace {

alignas(64) char block[65536];

google::protobuf::ArenaOptions options()
{
    google::protobuf::ArenaOptions o;
    o.initial_block = block;
    o.initial_block_size = sizeof block;
    return o;
}

google::protobuf::Arena arena(options());

INLINE void hear_string(const std::string &s, listener *to)
{
    hear_bytes(to, s.data(), s.size());
}

INLINE void hear_io(const IoBuffer &io, listener *to)
{
    hear_time(to, io.delay().tv_sec(), io.delay().tv_nsec());
    hear_string(io.data(), to);
}

INLINE void hear_entry(const InfoMessage &entry, listener *to)
{
    hear_string(entry.key(), to);
    hear(to, static_cast<uint64_t>(entry.value_case()));
    if (entry.value_case() == InfoMessage::kNumval)
        hear(to, static_cast<uint64_t>(entry.numval()));
    else if (entry.value_case() == InfoMessage::kStrval)
        hear_string(entry.strval(), to);
    else if (entry.value_case() == InfoMessage::kStrlistval)
        for (const std::string &s : entry.strlistval().strings())
            hear_string(s, to);
    else if (entry.value_case() == InfoMessage::kNumlistval)
        for (int64_t number : entry.numlistval().numbers())
            hear(to, static_cast<uint64_t>(number));
}

INLINE void hear_accept(const AcceptMessage &accept, listener *to)
{
    for (const InfoMessage &entry : accept.info_msgs())
        hear_entry(entry, to);
    hear_time(to, accept.submit_time().tv_sec(), accept.submit_time().tv_nsec());
    hear(to, accept.expect_iobufs());
}

const IoBuffer *io_of(const ClientMessage &c)
{
    switch (c.type_case()) {
    case ClientMessage::kTtyinBuf: return &c.ttyin_buf();
    case ClientMessage::kTtyoutBuf: return &c.ttyout_buf();
    case ClientMessage::kStdinBuf: return &c.stdin_buf();
    case ClientMessage::kStdoutBuf: return &c.stdout_buf();
    case ClientMessage::kStderrBuf: return &c.stderr_buf();
    default: return nullptr;
    }
}

INLINE void parse(message m, listener *to, bool values)
{
    ClientMessage *c = google::protobuf::Arena::CreateMessage<ClientMessage>(&arena);
    if (c->ParseFromArray(m.bytes, static_cast<int>(m.n))) {
        hear(to, static_cast<uint64_t>(c->type_case()));
        if (const IoBuffer *io = io_of(*c))
            hear_io(*io, to);
        if (values && c->type_case() == ClientMessage::kAcceptMsg)
            hear_accept(c->accept_msg(), to);
    } else {
        hear_refusal(to);
    }
    arena.Reset();
}

INLINE void parse_members(message m, listener *to)
{
    parse(m, to, false);
}

INLINE void parse_values(message m, listener *to)
{
    parse(m, to, true);
}

READER(parse_members)
READER(parse_values)

// One message for all points, as a server would keep it.
size_t serialize(ServerMessage *message, const point &p, uint8_t *out)
{
    TimeSpec *time = message->mutable_commit_point();
    time->set_tv_sec(static_cast<int64_t>(p.seconds));
    time->set_tv_nsec(static_cast<int32_t>(p.nanoseconds));
    size_t n = message->ByteSizeLong();
    out[0] = static_cast<uint8_t>(n >> 24);
    out[1] = static_cast<uint8_t>(n >> 16);
    out[2] = static_cast<uint8_t>(n >> 8);
    out[3] = static_cast<uint8_t>(n);
    message->SerializeWithCachedSizesToArray(out + 4);
    return 4 + n;
}

uint64_t serialize_pass(const work *w)
{
    ServerMessage *message = google::protobuf::Arena::CreateMessage<ServerMessage>(&arena);
    size_t at = 0;
    for (size_t round = 0; round < w->rounds; round++)
        for (size_t i = 0; i < w->points_n; i++)
            at += serialize(message, w->points[i], w->area + at);
    arena.Reset();
    return at;
}

} // namespace

const contender protobuf_cpp[] = {
    { "arena", READS, "protobuf C++ with arena, parse", MEMBERS, false, false, parse_members_pass, parse_members_digest },
    { "arena-values", READS_ALL, "protobuf C++ with arena, parse", VALUES, true, false, parse_values_pass,
      parse_values_digest },
    { "arena-serialize", WRITES, "protobuf C++, serialize", WRITTEN, false, false, serialize_pass, nullptr },
    { nullptr, nullptr, nullptr, MEMBERS, false, false, nullptr, nullptr },
};
