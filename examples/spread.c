/* Packs the spread list of document 01's image, unpacks the image again, and shows refusals; each line is what a call answered and what the room holds then. */
#include <stdio.h>

#include "cumbwael.h"

enum { ROOM = 21, MARK = 77 };

static uint32_t room[ROOM];

static void fill(void)
{
    for (int i = 0; i < ROOM; i++) room[i] = MARK;
}

/* The answer, then the room up to the last word that is not as it was, and how many are as they were. */
static void show(const char *call, struct cumbwael_answer a, const char *format)
{
    int written = ROOM;
    while (written > 0 && room[written - 1] == MARK) written--;
    printf("%s: refusal %u position %u outcome %u slot %u count %u:", call, a.refusal, a.position, a.outcome, a.slot, a.count);
    for (int i = 0; i < written; i++) printf(format, room[i]);
    printf(" and %d as they were\n", ROOM - written);
}

int main(void)
{
    uint32_t list[] = {1, 1, 6, 1, 0, 2, 2, 8, 0, 0, 2, 2, 5, 8, 0, 0, 2, 2, 6};
    uint32_t image[] = {0x10040006, 0x10040002, 0x80000002, 0x20000005, 0x80000002, 0x20000006};
    fill();
    show("pack", cumbwael_pack(list, 19, room, ROOM), " %08x");
    fill();
    show("pack, room just enough", cumbwael_pack(list, 19, room, 6), " %08x");
    fill();
    show("pack, room one short", cumbwael_pack(list, 19, room, 5), " %08x");
    fill();
    show("pack, list one short", cumbwael_pack(list, 18, room, ROOM), " %08x");
    fill();
    show("pack, no list", cumbwael_pack(NULL, 0, room, ROOM), " %08x");
    list[4] = 2;
    show("pack, a value too wide", cumbwael_pack(list, 19, room, ROOM), " %08x");
    list[4] = 0;
    list[7] = 3;
    show("pack, an unknown op", cumbwael_pack(list, 19, room, ROOM), " %08x");
    list[7] = 8;
    list[10] = 3;
    show("pack, a clause length wrong", cumbwael_pack(list, 19, room, ROOM), " %08x");
    fill();
    show("unpack", cumbwael_unpack(image, 6, room, ROOM), " %u");
    fill();
    show("unpack, room one short", cumbwael_unpack(image, 6, room, 18), " %u");
    image[2] = 0x80000003;
    show("unpack, a clause length wrong", cumbwael_unpack(image, 6, room, ROOM), " %u");
    return 0;
}
