/* Reads frames, as frames.py does, in C99: a parser as it may go into a device, and a main for the desk that reads lines
   of hexadecimal digits and writes for each what the frame says, or its fault (README.md, "Frames"). It is written from
   docs/formats.md alone.

       cc -std=c99 -o frames conformance/frames.c
       conformance/run.py --kind frames ./frames

   frame_read takes no memory, calls nothing, and reads no octet that isn't there. With -DDEVICE it stands alone. */
#include <stddef.h>
#include <stdint.h>

enum frame_kind { DATA = 1, ACK = 2, RENDEZVOUS = 3, CLOSING = 4 };
enum frame_flag { RUN = 1, BEGIN = 2, END = 4 };
/* the first test that fails, and the text of formats.md */
enum frame_fault { NO_FAULT, SHORT, VERSION, LENGTH, DEAD, PROTOCOL, KIND, FLAGS, WINDOW, SIZE };

struct frame {
    uint32_t life, from, to;        /* of the Deltagram: the node that made it, and the one that it goes to */
    uint32_t number, window;        /* of the packet */
    uint16_t from_port, to_port;
    uint8_t kind, flags;
    const uint8_t *octets;          /* of data: they lie in what was read */
    size_t size;
    uint32_t told;                  /* of a fault: its number, and of LENGTH the octets that are there too */
    size_t there;
};

enum { HEADER = 16, PACKET = 14, MOST_BODY_1 = 1038, MOST_BODY_2 = 8206, MOST_DATA_1 = 1024, MOST_DATA_2 = 8192, MOST_WINDOW = 65536 };

static uint32_t two(const uint8_t *at) { return (uint32_t)at[0] << 8 | at[1]; }
static uint32_t four(const uint8_t *at) { return two(at) << 16 | two(at + 2); }

static enum frame_fault failed(struct frame *it, enum frame_fault fault, uint32_t told) {
    it->told = told;
    return fault;
}

static enum frame_fault read_packet(const uint8_t *body, size_t len, uint8_t version, struct frame *it) {
    if (len < PACKET) return failed(it, SHORT, (uint32_t)len);
    it->kind = body[0];
    it->flags = body[1];
    it->from_port = (uint16_t)two(body + 2);
    it->to_port = (uint16_t)two(body + 4);
    it->number = four(body + 6);
    it->window = four(body + 10);
    it->octets = body + PACKET;
    it->size = len - PACKET;
    int first = version == 1 && it->kind >= DATA && it->kind <= RENDEZVOUS, second = version == 2 && (it->kind == DATA || it->kind == CLOSING);
    if (!first && !second) return failed(it, KIND, it->kind);
    if (it->flags > (it->kind == DATA ? RUN + BEGIN + END : 0)) return failed(it, FLAGS, it->flags);
    if (it->window > (it->kind == ACK ? MOST_WINDOW : 0)) return failed(it, WINDOW, it->window);
    size_t least = it->kind != DATA ? 0 : version == 1 ? 1 : MOST_DATA_1 + 1, most = it->kind != DATA ? 0 : version == 1 ? MOST_DATA_1 : MOST_DATA_2;
    if (it->size < least || it->size > most) return failed(it, SIZE, (uint32_t)it->size);
    return NO_FAULT;
}

/* The tests in their order: those of the Deltagram, which a relay makes, and then those of the packet. */
enum frame_fault frame_read(const uint8_t *octets, size_t len, struct frame *it) {
    if (len < HEADER) return failed(it, SHORT, (uint32_t)len);
    uint8_t version = octets[0];
    if (version != 1 && version != 2) return failed(it, VERSION, version);
    it->there = len - HEADER;
    if (two(octets + 2) != it->there || it->there > (version == 1 ? MOST_BODY_1 : MOST_BODY_2)) return failed(it, LENGTH, two(octets + 2));
    it->life = four(octets + 4);
    it->from = four(octets + 8);
    it->to = four(octets + 12);
    if (it->life == 0) return failed(it, DEAD, 0);
    if (octets[1] != 1) return failed(it, PROTOCOL, octets[1]);
    return read_packet(octets + HEADER, it->there, version, it);
}

#ifndef DEVICE
#include <stdio.h>
#include <stdlib.h>
#include <string.h>

static void write_frame(const struct frame *it) {
    static const char *const names[] = {"", "data", "ack", "rendezvous", "closing"};
    printf("%s %lu %lu:%u>%lu:%u %lu", names[it->kind], (unsigned long)it->life, (unsigned long)it->from, (unsigned)it->from_port, (unsigned long)it->to,
           (unsigned)it->to_port, (unsigned long)it->number);
    if (it->kind == ACK) printf(" %lu", (unsigned long)it->window);
    if (it->kind == DATA) {
        printf(" %s%s%s%s ", it->flags & RUN ? "d" : "", it->flags & BEGIN ? "b" : "", it->flags & END ? "e" : "", it->flags == 0 ? "-" : "");
        for (size_t i = 0; i < it->size; i++) printf("%02x", it->octets[i]);
    }
    putchar('\n');
}

static void write_fault(enum frame_fault fault, const struct frame *it) {
    static const char *const texts[] = {"", "short", "version", "length", "dead", "protocol", "kind", "flags", "window", "size"};
    printf("bad %s", texts[fault]);
    if (fault != DEAD) printf(" %lu", (unsigned long)it->told);
    if (fault == LENGTH) printf(" %lu", (unsigned long)it->there);
    putchar('\n');
}

static unsigned digit(char it) { return it <= '9' ? (unsigned)(it - '0') : (unsigned)(it - 'a') + 10; }

int main(int argc, char **words) {
    static char line[1 << 18];
    if (argc != 2 || strcmp(words[1], "frames") != 0) return fprintf(stderr, "usage: frames frames\n"), 2;
    while (fgets(line, sizeof line, stdin) != NULL) {
        size_t len = strcspn(line, "\n") / 2;
        /* exactly as many octets as there are, so that a sanitizer sees who reads beyond */
        uint8_t *octets = malloc(len > 0 ? len : 1);
        struct frame it;
        if (octets == NULL) return 4;
        for (size_t i = 0; i < len; i++) octets[i] = (uint8_t)(digit(line[2 * i]) << 4 | digit(line[2 * i + 1]));
        enum frame_fault fault = frame_read(octets, len, &it);
        if (fault == NO_FAULT) write_frame(&it);
        else write_fault(fault, &it);
        free(octets);
    }
    return 0;
}
#endif
