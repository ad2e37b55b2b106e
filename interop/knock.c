#include "knock.h"

ngtcp2_cid id_of(const struct bytes *id)
{
    ngtcp2_cid made;
    ngtcp2_cid_init(&made, id->at, id->length);
    return made;
}

struct knock knock_of(uint32_t version, size_t destination, size_t source, size_t token)
{
    struct knock knock;
    knock.version = version;
    knock.destination = pattern(0x83, destination);
    knock.source = pattern(0xc1, source);
    knock.token = pattern(0x11, token);
    knock.datagram.length = 0;
    return knock;
}

static int make_client(struct peer *client, const struct knock *knock)
{
    ngtcp2_cid destination = id_of(&knock->destination);
    ngtcp2_cid source = id_of(&knock->source);
    return peer_client(client, knock->version, &destination, &source, knock->token.at, knock->token.length) == 0;
}

static int write_knock(struct peer *client, struct knock *knock)
{
    knock->datagram.length = peer_write(client, knock->datagram.at, sizeof knock->datagram.at);
    return knock->datagram.length >= 1200;
}

int knock_first(struct peer *client, struct knock *knock)
{
    return make_client(client, knock) && write_knock(client, knock);
}

int knock_resuming(struct peer *client, struct knock *knock, const struct kept *kept, const struct bytes *data)
{
    return make_client(client, knock) && peer_resume(client, kept, data->at, data->length) == 0 &&
           write_knock(client, knock);
}

int knock_again(struct peer *client, struct knock *knock, const struct header *retry_header,
                const struct bytes *retry)
{
    if (peer_read(client, retry->at, retry->length) != 0 || client->retries != 1)
        return 0;
    knock->destination = retry_header->source;
    knock->token = retry_header->token;
    return write_knock(client, knock);
}

int answer_knock(struct peer *server, const struct knock *knock, const struct bytes *original)
{
    struct bytes own_id = pattern(0x51, 8);
    ngtcp2_cid own = id_of(&own_id);
    ngtcp2_cid client = id_of(&knock->source);
    ngtcp2_cid first_id = id_of(original);
    ngtcp2_cid now_id = id_of(&knock->destination);
    struct first_initial first;
    first.client = &client;
    first.original = &first_id;
    first.retry = same_bytes(&knock->destination, original) ? NULL : &now_id;
    return peer_server(server, knock->version, &own, &first) == 0;
}

int keys_of(const struct knock *knock, enum sender sender, uint8_t keys[DW_KEYS_SIZE])
{
    return dw_initial_keys(knock->version, knock->destination.at, knock->destination.length, sender, keys) == 0;
}
