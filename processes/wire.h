/* The datagrams between the radio and a station, all on the loopback address. Each starts with its kind and the number of the call that
 * it belongs to, four bytes, low first; a number is given to one call only. Two-byte numbers have the low byte first.
 *
 *   radio to station   'F'  a frame heard: its bytes follow
 *                      'C'  the clock: modulo B in two bytes, in two how many 'F' came for this call, and in four the clock that is not
 *                           reduced. It asks for the call
 *                      'P'  a pause: asks for a 'P' back, so that a flood fits the machine's buffers
 *                      'E'  the end
 *   station to radio   'H'  hello: its board's number in one byte, n for an observer; the call's number is 0
 *                      'S'  the frame that the call sent: its bytes follow. It comes before its 'D'
 *                      'D'  the call is done: mend, length of the frame sent, and in two bytes the datagrams dropped
 *                      'A'  again: not all 'F' came; no call was made
 *                      'P'  as asked for
 */
#ifndef WIRE_H
#define WIRE_H

#include <arpa/inet.h>
#include <netinet/in.h>
#include <stdbool.h>
#include <stdint.h>
#include <string.h>
#include <sys/socket.h>
#include <sys/time.h>

enum { HEADER = 5, LONGEST = HEADER + 512 }; /* bytes of a datagram's head, and of the longest datagram */
enum { ENTRY = 255, ENTRIES = 255 };         /* a bundle's longest entry, and its most entries */

static inline void put_two(uint8_t *at, unsigned number) {
    at[0] = (uint8_t)(number & 0xff);
    at[1] = (uint8_t)(number >> 8 & 0xff);
}

static inline unsigned two_at(const uint8_t *at) { return at[0] + 256u * at[1]; }

static inline void put_four(uint8_t *at, uint32_t number) {
    put_two(at, number & 0xffff);
    put_two(at + 2, number >> 16);
}

static inline uint32_t four_at(const uint8_t *at) { return two_at(at) + 65536u * two_at(at + 2); }

static inline void put_head(uint8_t *datagram, char kind, uint32_t call) {
    datagram[0] = (uint8_t)kind;
    put_four(datagram + 1, call);
}

static inline uint32_t call_of(const uint8_t *datagram) { return four_at(datagram + 1); }

static inline struct sockaddr_in loopback(uint16_t port) {
    struct sockaddr_in address;
    memset(&address, 0, sizeof address);
    address.sin_family = AF_INET;
    address.sin_addr.s_addr = htonl(INADDR_LOOPBACK);
    address.sin_port = htons(port);
    return address;
}

static inline bool same_address(const struct sockaddr_in *a, const struct sockaddr_in *b) {
    return a->sin_port == b->sin_port && a->sin_addr.s_addr == b->sin_addr.s_addr;
}

/* A socket on the loopback address, at a port that the system chooses, where no wait is longer than so many milliseconds; -1 where
 * there is none. */
static inline int loopback_socket(int milliseconds) {
    int made = socket(AF_INET, SOCK_DGRAM | SOCK_CLOEXEC, 0);
    struct sockaddr_in address = loopback(0);
    struct timeval wait = {milliseconds / 1000, milliseconds % 1000 * 1000};
    int room = 1 << 20; /* asked for; the system may give less */
    if (made < 0) return -1;
    setsockopt(made, SOL_SOCKET, SO_RCVBUF, &room, sizeof room);
    if (setsockopt(made, SOL_SOCKET, SO_RCVTIMEO, &wait, sizeof wait) != 0) return -1;
    return bind(made, (struct sockaddr *)&address, sizeof address) == 0 ? made : -1;
}

#endif
