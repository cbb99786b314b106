/* The calls without an image that several files make, each with a check of what it leaves in memory. */
#include "calls.h"

#include "check.h"

uint64_t open_all(const uint8_t *candidates, size_t candidates_size, const uint8_t *codes, size_t codes_size,
                  uint64_t host_size, struct ondristela_layout *layout)
{
    struct ondristela_range keys;
    uint64_t answer, keys_answer;
    int is_right;

    fill(layout, sizeof *layout);
    fill(&keys, sizeof keys);
    answer = ondristela_open(candidates, candidates_size, codes, codes_size, host_size, layout);
    keys_answer = ondristela_keys(candidates, candidates_size, codes, codes_size, host_size, &keys);
    if (answer == ONDRISTELA_ACCEPTED)
        is_right = keys.offset == layout->candidate * 512 + 256 && keys.size == 256;
    else
        is_right = is_filled(layout, sizeof *layout) && is_filled(&keys, sizeof keys);
    return is_right && keys_answer == answer ? answer : CHANGED;
}

uint64_t open_one(const struct fields *fields, uint8_t code, uint64_t host_size,
                  struct ondristela_layout *layout)
{
    uint8_t header[ONDRISTELA_HEADER_SIZE];

    make_header(header, fields);
    return open_all(header, sizeof header, &code, 1, host_size, layout);
}

int maps(const struct ondristela_layout *layout, uint64_t user, uint64_t host)
{
    uint64_t stored_host, stored_user;

    fill(&stored_host, sizeof stored_host);
    fill(&stored_user, sizeof stored_user);
    return ondristela_host_sector(layout, user, &stored_host) == ONDRISTELA_ACCEPTED
           && ondristela_user_sector(layout, host, &stored_user) == ONDRISTELA_ACCEPTED
           && stored_host == host && stored_user == user;
}

int refuses_user(const struct ondristela_layout *layout, uint64_t user, uint64_t refusal)
{
    uint64_t host;
    uint8_t block[16];

    fill(&host, sizeof host);
    fill(block, sizeof block);
    return ondristela_host_sector(layout, user, &host) == refusal && is_filled(&host, sizeof host)
           && ondristela_tweak(layout, user, block) == refusal && is_filled(block, sizeof block);
}

int refuses_host(const struct ondristela_layout *layout, uint64_t host, uint64_t refusal)
{
    uint64_t user;

    fill(&user, sizeof user);
    return ondristela_user_sector(layout, host, &user) == refusal && is_filled(&user, sizeof user);
}

int refuses_pair(const struct ondristela_layout *outer, const struct ondristela_layout *hidden,
                 uint64_t refusal)
{
    struct ondristela_view view;

    fill(&view, sizeof view);
    return ondristela_view_protected(outer, hidden, &view) == refusal && is_filled(&view, sizeof view);
}
