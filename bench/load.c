/* Plays switches that send a controller PACKET_INs as fast as it takes them: see load.sh, which builds and calls it.
 *
 * load PORT CONNECTIONS SECONDS HOSTS KIND
 *
 * Connects CONNECTIONS times to 127.0.0.1:PORT, answers what a controller of OpenFlow 1.3 asks while it sets a switch up (features of the
 * datapath 1 and up, four ports that are up, barriers, echoes), and says a message of each of HOSTS hosts of a connection. Then it sends
 * blocks of a hundred PACKET_INs, each with an ECHO_REQUEST behind it, whose reply says that the block was taken; at most WINDOW blocks of
 * a connection wait for theirs. KIND is `known`, where the packets are of those hosts at their places, or `new`, where each is of a host
 * that wasn't heard before. What the controller says is read and thrown away, and each barrier is answered at once.
 *
 * Prints the packets whose block was taken, the seconds, and packets a second. Ends by itself after SECONDS, or once NEW_MOST new hosts
 * were sent, and with status 1 where a connection ends before.
 */
#include <arpa/inet.h>
#include <errno.h>
#include <fcntl.h>
#include <netinet/tcp.h>
#include <stdint.h>
#include <stdio.h>
#include <stdlib.h>
#include <string.h>
#include <sys/epoll.h>
#include <sys/socket.h>
#include <time.h>
#include <unistd.h>

enum { HELLO = 0, ECHO_REQUEST = 2, ECHO_REPLY = 3, FEATURES_REQUEST = 5, FEATURES_REPLY = 6, CONFIG_REQUEST = 7, CONFIG_REPLY = 8, PACKET_IN = 10 };
enum { MULTIPART_REQUEST = 18, MULTIPART_REPLY = 19, BARRIER_REQUEST = 20, BARRIER_REPLY = 21, ROLE_REQUEST = 24, ROLE_REPLY = 25 };
enum { PORTS = 4, BLOCK = 100, WINDOW = 8, NEW_MOST = 12000, ROOM = 1 << 20, PACKET = 8 + 16 + 16 + 2 + 64 };

struct conn {
  int fd, number, set_up;
  uint32_t sent, taken, fresh;
  uint8_t in[ROOM], out[ROOM];
  size_t in_len, out_at, out_len;
  int writes;
};

static int epoll_fd;
static unsigned hosts, is_new;

static void put16(uint8_t *at, unsigned value) { at[0] = value >> 8, at[1] = value; }
static void put32(uint8_t *at, uint32_t value) { put16(at, value >> 16), put16(at + 2, value & 0xffff); }
static uint32_t get32(const uint8_t *at) { return (uint32_t)at[0] << 24 | at[1] << 16 | at[2] << 8 | at[3]; }

static double now(void) {
  struct timespec t;
  clock_gettime(CLOCK_MONOTONIC, &t);
  return t.tv_sec + t.tv_nsec / 1e9;
}

static void fail(const char *why) {
  fprintf(stderr, "load: %s: %s\n", why, strerror(errno));
  exit(1);
}

/* Adds a message with so many bytes of body, zeros at first, and gives its first byte. */
static uint8_t *add(struct conn *c, unsigned kind, size_t body, uint32_t xid) {
  if (c->out_len + 8 + body > ROOM) {
    memmove(c->out, c->out + c->out_at, c->out_len - c->out_at);
    c->out_len -= c->out_at, c->out_at = 0;
    if (c->out_len + 8 + body > ROOM) fail("no room for what is to be sent");
  }
  uint8_t *at = c->out + c->out_len;
  memset(at, 0, 8 + body);
  at[0] = 4, at[1] = kind;
  put16(at + 2, 8 + body), put32(at + 4, xid);
  c->out_len += 8 + body;
  return at;
}

static void add_ports(struct conn *c, uint32_t xid) {
  uint8_t *at = add(c, MULTIPART_REPLY, 8 + 64 * PORTS, xid) + 8;
  put16(at, 13);
  for (unsigned port = 1; port <= PORTS; port++) {
    uint8_t *it = at + 8 + 64 * (port - 1);
    put32(it, port);
    it[8] = 2, it[13] = port;
    it[16] = 'p', it[17] = '0' + port;
  }
}

/* The address of a host of a connection: each connection has its own. */
static void put_mac(uint8_t *at, const struct conn *c, uint32_t host) {
  at[0] = 2, at[1] = c->number;
  put32(at + 2, host + 1);
}

static void add_packet(struct conn *c, uint32_t host, uint32_t to) {
  uint8_t *at = add(c, PACKET_IN, PACKET - 8, 0) + 8;
  put32(at, 0xffffffff), put16(at + 4, 64);
  at[6] = 1, at[7] = 3;
  put32(at + 12, 0x5adc15c0);
  put16(at + 16, 1), put16(at + 18, 12), put32(at + 20, 0x80000004), put32(at + 24, 1 + host % PORTS);
  uint8_t *frame = at + 34;
  put_mac(frame, c, to), put_mac(frame + 6, c, host);
  put16(frame + 12, 0x8100), put16(frame + 14, 100), put16(frame + 16, 0x88b5);
}

/* Sends blocks as long as fewer than WINDOW wait. */
static void add_blocks(struct conn *c) {
  while (c->set_up == 2 && c->sent - c->taken < WINDOW && (!is_new || c->fresh < NEW_MOST)) {
    for (unsigned k = 0; k < BLOCK; k++) {
      uint32_t host = is_new ? hosts + c->fresh++ : (c->sent * BLOCK + k) % hosts;
      add_packet(c, host, is_new ? host - 1 : (host + 1) % hosts);
    }
    add(c, ECHO_REQUEST, 0, ++c->sent);
  }
}

/* Behind the first barrier the hosts are said, then one echo, behind which the blocks begin. */
static void set_up(struct conn *c) {
  for (uint32_t host = 0; host < hosts; host++) add_packet(c, host, (host + 1) % hosts);
  add(c, ECHO_REQUEST, 0, 0);
  c->set_up = 1;
}

static void answer(struct conn *c, const uint8_t *m, size_t len) {
  uint32_t xid = get32(m + 4);
  if (m[1] == FEATURES_REQUEST) {
    uint8_t *at = add(c, FEATURES_REPLY, 24, xid) + 8;
    put32(at + 4, c->number + 1), put32(at + 8, 256);
    at[12] = 254, put32(at + 16, 0x4f);
  } else if (m[1] == CONFIG_REQUEST) {
    add(c, CONFIG_REPLY, 4, xid);
  } else if (m[1] == MULTIPART_REQUEST && len >= 10 && m[8] == 0 && m[9] == 13) {
    add_ports(c, xid);
  } else if (m[1] == BARRIER_REQUEST) {
    add(c, BARRIER_REPLY, 0, xid);
    if (!c->set_up) set_up(c);
  } else if (m[1] == ROLE_REQUEST) {
    memcpy(add(c, ROLE_REPLY, len - 8, xid) + 8, m + 8, len - 8);
  } else if (m[1] == ECHO_REQUEST) {
    memcpy(add(c, ECHO_REPLY, len - 8, xid) + 8, m + 8, len - 8);
  } else if (m[1] == ECHO_REPLY && c->set_up) {
    if (xid) c->taken = xid;
    c->set_up = 2;
  }
}

static void hear(struct conn *c) {
  ssize_t got = read(c->fd, c->in + c->in_len, ROOM - c->in_len);
  if (got == 0 || (got < 0 && errno != EAGAIN)) fail("a connection ended");
  if (got < 0) return;
  c->in_len += got;
  size_t at = 0;
  while (c->in_len - at >= 8) {
    size_t len = c->in[at + 2] << 8 | c->in[at + 3];
    if (len < 8) fail("a length below 8");
    if (c->in_len - at < len) break;
    answer(c, c->in + at, len);
    at += len;
  }
  memmove(c->in, c->in + at, c->in_len - at);
  c->in_len -= at;
}

static void flush(struct conn *c) {
  while (c->out_at < c->out_len) {
    ssize_t took = write(c->fd, c->out + c->out_at, c->out_len - c->out_at);
    if (took < 0 && errno != EAGAIN) fail("a connection ended");
    if (took < 0) break;
    c->out_at += took;
  }
  if (c->out_at == c->out_len) c->out_at = c->out_len = 0;
  int writes = c->out_at < c->out_len;
  if (writes != c->writes) {
    struct epoll_event e = {.events = EPOLLIN | (writes ? EPOLLOUT : 0), .data.ptr = c};
    epoll_ctl(epoll_fd, EPOLL_CTL_MOD, c->fd, &e);
    c->writes = writes;
  }
}

static void open_conn(struct conn *c, int port, int waits_for_barrier) {
  struct sockaddr_in to = {.sin_family = AF_INET, .sin_port = htons(port), .sin_addr.s_addr = htonl(INADDR_LOOPBACK)};
  int one = 1;
  c->fd = socket(AF_INET, SOCK_STREAM, 0);
  if (connect(c->fd, (struct sockaddr *)&to, sizeof to)) fail("no connection");
  setsockopt(c->fd, IPPROTO_TCP, TCP_NODELAY, &one, sizeof one);
  fcntl(c->fd, F_SETFL, O_NONBLOCK);
  struct epoll_event e = {.events = EPOLLIN, .data.ptr = c};
  epoll_ctl(epoll_fd, EPOLL_CTL_ADD, c->fd, &e);
  add(c, HELLO, 0, 1);
  if (!waits_for_barrier) set_up(c);
}

int main(int argc, char **argv) {
  if (argc != 7) return fprintf(stderr, "load PORT CONNECTIONS SECONDS HOSTS known|new barrier|none\n"), 2;
  int port = atoi(argv[1]), count = atoi(argv[2]);
  double seconds = atof(argv[3]);
  hosts = atoi(argv[4]), is_new = !strcmp(argv[5], "new");
  epoll_fd = epoll_create1(0);
  struct conn **conns = calloc(count, sizeof *conns);
  for (int at = 0; at < count; at++) {
    conns[at] = calloc(1, sizeof **conns);
    conns[at]->number = at;
    open_conn(conns[at], port, !strcmp(argv[6], "barrier"));
    flush(conns[at]);
  }
  double limit = now() + 60, start = 0, end = 0;
  uint64_t before = 0, taken = 0;
  int is_done = 0;
  while (!is_done) {
    struct epoll_event events[64];
    int found = epoll_wait(epoll_fd, events, 64, 100);
    for (int at = 0; at < found; at++) {
      struct conn *c = events[at].data.ptr;
      if (events[at].events & (EPOLLIN | EPOLLHUP | EPOLLERR)) hear(c);
      add_blocks(c), flush(c);
    }
    int ready = 0, all = 1;
    taken = 0;
    for (int at = 0; at < count; at++) {
      ready += conns[at]->set_up == 2, taken += conns[at]->taken;
      all = all && is_new && conns[at]->fresh >= NEW_MOST && conns[at]->taken == conns[at]->sent;
    }
    end = now();
    if (!start && ready == count) start = end, before = taken;
    if (!start && end > limit) fail("the switches weren't set up in a minute");
    is_done = start && (all || end - start >= seconds);
  }
  uint64_t packets = (taken - before) * BLOCK;
  printf("%llu packets in %.2f s, %.0f a second\n", (unsigned long long)packets, end - start, packets / (end - start));
  return 0;
}
