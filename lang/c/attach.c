/*
 * Attaches a built program to a socket of Linux and shows which frames arrive:
 *
 *     attach
 *
 * The socket is a local datagram socket, whose filter sees exactly the bytes that are sent; no root
 * is needed. For a packet socket (AF_PACKET, SOCK_RAW: root) the call that attaches is the same.
 * Ends with 0, or with 1 where a call is refused or what arrives is not what pft_run says.
 */
#define _DEFAULT_SOURCE /* SO_ATTACH_FILTER */
#include <errno.h>
#include <linux/filter.h>
#include <stdio.h>
#include <string.h>
#include <sys/socket.h>
#include <unistd.h>

#include "pft.h"

static uint8_t program[PFT_PROGRAM_MAX];
static struct sock_filter filter[PFT_COUNT_MAX];

/* The program of "tcp dst port 80 and not src net 192.168.0.0/16"; its count, or 0 if refused. */
static size_t build(void)
{
    static const uint8_t guests[4] = {192, 168, 0, 0};
    struct pft_tree tree;
    uint32_t answer;

    pft_start(&tree, PFT_ETHERNET);
    pft_add_and(&tree);
    pft_add_port(&tree, PFT_DESTINATION, PFT_TCP, 80);
    pft_add_not(&tree);
    pft_add_net(&tree, PFT_SOURCE, guests, 16);
    answer = pft_build(tree.bytes, tree.length, program, sizeof program);
    if (pft_build_refusal(answer) != 0)
        fprintf(stderr, "refused %u, %s\n", pft_build_refusal(answer), pft_refusal_word(pft_build_refusal(answer)));
    return pft_build_count(answer);
}

/* Gives the program's 8 bytes for each instruction to Linux; 0 where it does not take them. */
static int attach(int receiver, size_t count)
{
    struct sock_fprog all;
    size_t i;

    for (i = 0; i < count; i++) {
        const uint8_t *b = program + 8 * i;

        filter[i].code = (uint16_t)(b[0] | b[1] << 8);
        filter[i].jt = b[2];
        filter[i].jf = b[3];
        filter[i].k = b[4] | (uint32_t)b[5] << 8 | (uint32_t)b[6] << 16 | (uint32_t)b[7] << 24;
    }
    all.len = (unsigned short)count;
    all.filter = filter;
    return setsockopt(receiver, SOL_SOCKET, SO_ATTACH_FILTER, &all, sizeof all) == 0;
}

/* A TCP or UDP packet to a port, over IPv4 and Ethernet. */
static void make_frame(uint8_t frame[78], const uint8_t source[4], uint8_t protocol, uint8_t port)
{
    memset(frame, 0, 78);
    frame[12] = 0x08; /* ethertype 0x0800 */
    frame[14] = 0x45; /* IPv4, a header of 20 bytes */
    frame[23] = protocol;
    memcpy(frame + 26, source, 4);
    frame[37] = port; /* the second byte of the destination port */
}

/* Sends a frame and prints its verdict and whether it arrives; 0 where the two differ. */
static int judge(const int sockets[2], size_t count, const char *what, const uint8_t *frame, size_t length)
{
    uint8_t received[PFT_FRAME_MAX];
    unsigned verdict = pft_run_verdict(pft_run(program, 8 * count, frame, length));
    int arrives;

    if (send(sockets[0], frame, length, 0) != (ssize_t)length) {
        perror("send");
        return 0;
    }
    arrives = recv(sockets[1], received, sizeof received, MSG_DONTWAIT) == (ssize_t)length;
    printf("%s: %s, %s\n", what, pft_verdict_word(verdict), arrives ? "arrives" : "does not arrive");
    return arrives == (verdict == PFT_ACCEPTED);
}

static int judge_all(const int sockets[2], size_t count)
{
    static const uint8_t drive[4] = {10, 20, 0, 5}, guest[4] = {192, 168, 7, 9};
    uint8_t frame[78];
    int good = 1;

    make_frame(frame, drive, 6, 80);
    good &= judge(sockets, count, "TCP from 10.20.0.5 to port 80", frame, sizeof frame);
    good &= judge(sockets, count, "its first 37 bytes", frame, 37);
    make_frame(frame, drive, 6, 22);
    good &= judge(sockets, count, "TCP from 10.20.0.5 to port 22", frame, sizeof frame);
    make_frame(frame, drive, 17, 80);
    good &= judge(sockets, count, "UDP from 10.20.0.5 to port 80", frame, sizeof frame);
    make_frame(frame, guest, 6, 80);
    good &= judge(sockets, count, "TCP from 192.168.7.9 to port 80", frame, sizeof frame);
    return good;
}

int main(void)
{
    int sockets[2], good;
    size_t count;

    if (!pft_serves()) {
        fprintf(stderr, "libpft.a has version %u, at least %u is needed\n", (unsigned)pft_version(), PFT_VERSION);
        return 1;
    }
    count = build();
    if (count == 0)
        return 1;
    if (socketpair(AF_UNIX, SOCK_DGRAM, 0, sockets) != 0 || !attach(sockets[1], count)) {
        fprintf(stderr, "Linux does not take the program: %s\n", strerror(errno));
        return 1;
    }
    printf("%u instructions attached\n", (unsigned)count);
    good = judge_all(sockets, count);
    close(sockets[0]);
    close(sockets[1]);
    return !good;
}
