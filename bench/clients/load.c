/* A plain load for bench/serve.sh: load PORT PROTOCOL WHAT CONNECTIONS SECONDS. A thread for each connection asks, waits for the answer
 * and asks again. Prints how many a second, and the median and the 99th percentile in microseconds. PROTOCOL is `zk`, a ZooKeeper
 * server, or `etcd`, a JSON gateway that is asked for what a proxy asks of it. WHAT is get, set, create (with a delete: two requests),
 * sequence, multi; or watch: a set that so many connections watch, and the time until they were told. */
#include <arpa/inet.h>
#include <endian.h>
#include <netinet/in.h>
#include <netinet/tcp.h>
#include <pthread.h>
#include <stdint.h>
#include <stdio.h>
#include <stdlib.h>
#include <string.h>
#include <sys/socket.h>
#include <time.h>
#include <unistd.h>

#define MOST 400000

static int port, is_etcd, connections;
static double seconds;
static const char *what;
static volatile int is_over;
static pthread_barrier_t ready;

typedef struct {
  int number, socket, xid;
  uint32_t *times;
  int count;
  char room[65536], key[64];
  long revision;
  int is_first;
} worker;

static double now(void) {
  struct timespec time;
  clock_gettime(CLOCK_MONOTONIC, &time);
  return time.tv_sec + time.tv_nsec * 1e-9;
}

static void die(const char *why) {
  perror(why);
  exit(1);
}

static int dial(void) {
  int it = socket(AF_INET, SOCK_STREAM, 0), on = 1;
  struct sockaddr_in address = {.sin_family = AF_INET, .sin_port = htons(port), .sin_addr.s_addr = htonl(INADDR_LOOPBACK)};
  if (connect(it, (struct sockaddr *)&address, sizeof address) != 0) die("connect");
  setsockopt(it, IPPROTO_TCP, TCP_NODELAY, &on, sizeof on);
  return it;
}

static void put(int it, const char *bytes, int count) {
  while (count > 0) {
    int sent = write(it, bytes, count);
    if (sent <= 0) die("write");
    bytes += sent;
    count -= sent;
  }
}

static void take(int it, char *bytes, int count) {
  while (count > 0) {
    int got = read(it, bytes, count);
    if (got <= 0) die("read");
    bytes += got;
    count -= got;
  }
}

/* ---- ZooKeeper */

typedef struct {
  char bytes[4096];
  int count;
} packet;

static void integer(packet *p, int32_t n) {
  uint32_t big = htonl(n);
  memcpy(p->bytes + p->count, &big, 4);
  p->count += 4;
}

static void buffer(packet *p, const char *bytes, int count) {
  integer(p, count);
  memcpy(p->bytes + p->count, bytes, count);
  p->count += count;
}

static void text(packet *p, const char *bytes) { buffer(p, bytes, strlen(bytes)); }

static void flag(packet *p, int holds) { p->bytes[p->count++] = holds; }

static void content(packet *p) {
  char hundred[100];
  memset(hundred, 'x', sizeof hundred);
  buffer(p, hundred, sizeof hundred);
}

static void open_acl(packet *p) {
  integer(p, 1);
  integer(p, 31);
  text(p, "world");
  text(p, "anyone");
}

static void header(packet *p, int xid, int type) {
  p->count = 4;
  integer(p, xid);
  integer(p, type);
}

static void send_packet(worker *w, packet *p) {
  uint32_t length = htonl(p->count - 4);
  memcpy(p->bytes, &length, 4);
  put(w->socket, p->bytes, p->count);
}

static int receive(worker *w) {
  uint32_t length;
  take(w->socket, (char *)&length, 4);
  length = ntohl(length);
  if (length > sizeof w->room) die("long");
  take(w->socket, w->room, length);
  return length;
}

static int32_t integer_at(worker *w, int place) {
  uint32_t big;
  memcpy(&big, w->room + place, 4);
  return ntohl(big);
}

/* Sends, and waits for the reply; its error. */
static int ask(worker *w, packet *p) {
  send_packet(w, p);
  receive(w);
  return integer_at(w, 12);
}

static void create(worker *w, const char *path, int flags, int may_exist) {
  packet p;
  header(&p, ++w->xid, 1);
  text(&p, path);
  content(&p);
  open_acl(&p);
  integer(&p, flags);
  int error = ask(w, &p);
  if (error != 0 && !(may_exist && error == -110)) die("create");
}

static void join(worker *w) {
  packet p = {.count = 4};
  w->socket = dial();
  memset(p.bytes + p.count, 0, 12);
  p.count += 12;
  integer(&p, 40000);
  memset(p.bytes + p.count, 0, 8);
  p.count += 8;
  char none[16] = {0};
  buffer(&p, none, 16);
  flag(&p, 0);
  send_packet(w, &p);
  receive(w);
}

static void read_node(worker *w, const char *path, int watch) {
  packet p;
  header(&p, ++w->xid, 4);
  text(&p, path);
  flag(&p, watch);
  if (ask(w, &p) != 0) die("get");
}

static void set_node(worker *w, const char *path) {
  packet p;
  header(&p, ++w->xid, 5);
  text(&p, path);
  content(&p);
  integer(&p, -1);
  if (ask(w, &p) != 0) die("set");
}

static void delete_node(worker *w, const char *path) {
  packet p;
  header(&p, ++w->xid, 2);
  text(&p, path);
  integer(&p, -1);
  if (ask(w, &p) != 0) die("delete");
}

static void part(packet *p, int type, int is_done) {
  integer(p, type);
  flag(p, is_done);
  integer(p, -1);
}

static void multi(worker *w, const char *path) {
  packet p;
  header(&p, ++w->xid, 14);
  part(&p, 13, 0);
  text(&p, path);
  integer(&p, -1);
  part(&p, 5, 0);
  text(&p, path);
  content(&p);
  integer(&p, -1);
  part(&p, -1, 1);
  if (ask(w, &p) != 0) die("multi");
}

static void zk_turn(worker *w) {
  char path[80];
  snprintf(path, sizeof path, "%s/x", w->key);
  if (!strcmp(what, "get")) read_node(w, w->key, 0);
  if (!strcmp(what, "set")) set_node(w, w->key);
  if (!strcmp(what, "multi")) multi(w, w->key);
  if (!strcmp(what, "sequence")) create(w, path, 2, 0);
  if (!strcmp(what, "create")) {
    w->is_first = !w->is_first;
    if (w->is_first) create(w, path, 0, 0);
    else delete_node(w, path);
  }
}

/* ---- etcd */

static const char alphabet[] = "ABCDEFGHIJKLMNOPQRSTUVWXYZabcdefghijklmnopqrstuvwxyz0123456789+/";

static const char *base64(const char *from, int count, char *to) {
  char *at = to;
  for (int i = 0; i < count; i += 3) {
    int left = count - i;
    uint32_t three = (uint8_t)from[i] << 16 | (left > 1 ? (uint8_t)from[i + 1] << 8 : 0) | (left > 2 ? (uint8_t)from[i + 2] : 0);
    *at++ = alphabet[three >> 18];
    *at++ = alphabet[three >> 12 & 63];
    *at++ = left > 1 ? alphabet[three >> 6 & 63] : '=';
    *at++ = left > 2 ? alphabet[three & 63] : '=';
  }
  *at = 0;
  return to;
}

static long post(worker *w, const char *body) {
  char head[256];
  char whole[8192];
  int count = snprintf(head, sizeof head, "POST /v3/kv/txn HTTP/1.1\r\nhost: 127.0.0.1\r\ncontent-type: application/json\r\ncontent-length: %zu\r\n\r\n", strlen(body));
  memcpy(whole, head, count);
  memcpy(whole + count, body, strlen(body));
  put(w->socket, whole, count + strlen(body));
  int have = 0;
  char *end = NULL;
  while (!end) {
    int got = read(w->socket, w->room + have, sizeof w->room - 1 - have);
    if (got <= 0) die("read");
    have += got;
    w->room[have] = 0;
    end = strstr(w->room, "\r\n\r\n");
  }
  char *length = strstr(w->room, "Content-Length: ");
  if (!length || strncmp(w->room, "HTTP/1.1 200", 12)) die(w->room);
  int want = end + 4 - w->room + atoi(length + 16);
  if (want > have) take(w->socket, w->room + have, want - have);
  w->room[want] = 0;
  char *revision = strstr(end, "\"revision\":\"");
  if (!revision || !strstr(end, "\"succeeded\":true")) die("answer");
  return atol(revision + 12);
}

#define RANGE(k) "{\"request_range\":{\"key\":\"%s\"}}"
#define PUT "{\"request_put\":{\"key\":\"%s\",\"value\":\"%s\"}}"
#define COMPARE "{\"key\":\"%s\",\"mod_revision\":\"%ld\",\"result\":\"EQUAL\",\"target\":\"MOD\"}"
#define BODY 4096

/* A setData, by its guards. */
static long update(worker *w, char *body, const char *life, const char *data, const char *counts, const char *head, const char *value) {
  snprintf(body, BODY,
           "{\"compare\":[" COMPARE "," COMPARE "," COMPARE "],\"failure\":[" RANGE(0) "," RANGE(0) "," RANGE(0) "," RANGE(0) "],"
           "\"success\":[" PUT "," PUT "," RANGE(0) "]}",
           life, 0L, data, w->revision, counts, 0L, life, data, counts, head, data, value, head, "AQAAAAEDAAAAAy9iMQ==", head);
  return post(w, body);
}

/* A create, by its guards. */
static long make(worker *w, char *body, const char *life, const char *data, const char *counts, const char *x, const char *xc, const char *head,
                 const char *value) {
  snprintf(body, BODY,
           "{\"compare\":[" COMPARE "," COMPARE "," COMPARE "," COMPARE "],\"failure\":[" RANGE(0) "," RANGE(0) "," RANGE(0) "," RANGE(0) "," RANGE(0) "],"
           "\"success\":[" PUT "," PUT "," PUT "," PUT "," RANGE(0) "]}",
           life, 0L, data, 0L, counts, w->revision, x, 0L, life, data, counts, x, head, x, value, xc, "AQAAAAAAAAAA", counts,
           "AQAAAAEAAAAB", head, "AQAAAAIBAAAABS9iMS94BAAAAAMvYjE=", head);
  return post(w, body);
}

static void etcd_turn(worker *w) {
  char body[BODY], name[128], data[160], counts[160], life[160], x[160], xc[160], head[40], value[256];
  char hundred[160];
  memset(hundred, 'x', sizeof hundred);
  base64(hundred, 146, value);
  snprintf(name, sizeof name, "zk/d/0001%s", w->key);
  base64(name, strlen(name), data);
  snprintf(name, sizeof name, "zk/c/0001%s", w->key);
  base64(name, strlen(name), counts);
  snprintf(name, sizeof name, "zk/l/%08d%08d", (int)getpid(), w->number);
  base64(name, strlen(name), life);
  snprintf(name, sizeof name, "zk/d/0002%s/x", w->key);
  base64(name, strlen(name), x);
  snprintf(name, sizeof name, "zk/c/0002%s/x", w->key);
  base64(name, strlen(name), xc);
  base64("zk/head", 7, head);
  if (!strcmp(what, "get")) {
    snprintf(body, sizeof body, "{\"success\":[" RANGE(0) "," RANGE(0) "," RANGE(0) "," RANGE(0) "]}", head, life, data, counts);
    post(w, body);
  }
  if (!strcmp(what, "set")) {
    w->revision = update(w, body, life, data, counts, head, value);
  }
  if (!strcmp(what, "multi")) {
    /* A check and a setData: what both read, and then one update. */
    snprintf(body, sizeof body, "{\"success\":[" RANGE(0) "," RANGE(0) "," RANGE(0) "," RANGE(0) "]}", head, life, data, counts);
    post(w, body);
    w->revision = update(w, body, life, data, counts, head, value);
  }
  if (!strcmp(what, "sequence")) {
    /* The number, and then the update: that the node is not there is guarded, and not read before. */
    snprintf(name, sizeof name, "zk/d/0002%s/x%010d", w->key, w->count);
    base64(name, strlen(name), x);
    snprintf(name, sizeof name, "zk/c/0002%s/x%010d", w->key, w->count);
    base64(name, strlen(name), xc);
    snprintf(body, sizeof body, "{\"success\":[" RANGE(0) "," RANGE(0) "," RANGE(0) "," RANGE(0) "]}", head, life, data, counts);
    post(w, body);
    w->revision = make(w, body, life, data, counts, x, xc, head, value);
  }
  if (!strcmp(what, "create")) {
    w->is_first = !w->is_first;
    if (w->is_first) {
      snprintf(body, sizeof body, "{\"success\":[" RANGE(0) "," RANGE(0) "," RANGE(0) "," RANGE(0) "," RANGE(0) "]}", head, life, data, counts, x);
      post(w, body);
      w->revision = make(w, body, life, data, counts, x, xc, head, value);
    } else {
      snprintf(body, sizeof body,
               "{\"compare\":[" COMPARE "," COMPARE "," COMPARE "," COMPARE "],\"failure\":[" RANGE(0) "," RANGE(0) "," RANGE(0) "," RANGE(0) "," RANGE(0) "],"
               "\"success\":[{\"request_delete_range\":{\"key\":\"%s\"}},{\"request_delete_range\":{\"key\":\"%s\"}}," PUT "," PUT "," RANGE(0) "]}",
               life, 0L, x, w->revision, xc, w->revision, counts, w->revision, life, x, xc, counts, head, x, xc, counts, "AQAAAAEAAAAA",
               head, "AQAAAAICAAAABS9iMS94BAAAAAMvYjE=", head);
      w->revision = post(w, body);
    }
  }
}

/* ---- the load */

static void *work(void *context) {
  worker *w = context;
  snprintf(w->key, sizeof w->key, "/%s-%d-%d", what, (int)getpid(), w->number);
  if (is_etcd) w->socket = dial();
  else {
    join(w);
    create(w, w->key, 0, 1);
  }
  pthread_barrier_wait(&ready);
  while (!is_over && w->count < MOST) {
    double since = now();
    if (is_etcd) etcd_turn(w);
    else zk_turn(w);
    w->times[w->count++] = (now() - since) * 1e6;
  }
  return NULL;
}

static int compare(const void *a, const void *b) {
  uint32_t x = *(const uint32_t *)a, y = *(const uint32_t *)b;
  return x < y ? -1 : x > y;
}

static void watchers(void) {
  worker *all = calloc(connections + 1, sizeof *all);
  uint32_t *times = malloc(MOST * sizeof *times);
  int count = 0;
  for (int i = 0; i <= connections; i++) join(&all[i]);
  create(&all[connections], "/watched", 0, 1);
  double end = now() + seconds;
  while (now() < end) {
    for (int i = 0; i < connections; i++) read_node(&all[i], "/watched", 1);
    usleep(20000);
    double since = now();
    packet p;
    header(&p, ++all[connections].xid, 5);
    text(&p, "/watched");
    content(&p);
    integer(&p, -1);
    send_packet(&all[connections], &p);
    for (int i = 0; i < connections; i++) {
      receive(&all[i]);
      if (integer_at(&all[i], 0) != -1) die("notice");
      times[count++] = (now() - since) * 1e6;
    }
    receive(&all[connections]);
  }
  qsort(times, count, sizeof *times, compare);
  printf("%d %u %u\n", count, times[count / 2], times[count * 99 / 100]);
}

static void hold(void) {
  worker *all = calloc(connections, sizeof *all);
  for (int i = 0; i < connections; i++) {
    join(&all[i]);
    create(&all[i], "/held", 0, 1);
    read_node(&all[i], "/held", 1);
  }
  printf("held\n");
  fflush(stdout);
  usleep(seconds * 1e6);
}

int main(int count, char **words) {
  port = atoi(words[1]);
  is_etcd = !strcmp(words[2], "etcd");
  what = words[3];
  connections = atoi(words[4]);
  seconds = atof(words[5]);
  if (!strcmp(what, "watch")) return watchers(), 0;
  if (!strcmp(what, "hold")) return hold(), 0;
  worker *all = calloc(connections, sizeof *all);
  pthread_t *threads = calloc(connections, sizeof *threads);
  pthread_barrier_init(&ready, NULL, connections + 1);
  for (int i = 0; i < connections; i++) {
    all[i].number = i;
    all[i].times = malloc(MOST * sizeof(uint32_t));
    pthread_create(&threads[i], NULL, work, &all[i]);
  }
  pthread_barrier_wait(&ready);
  double since = now();
  usleep(seconds * 1e6);
  is_over = 1;
  for (int i = 0; i < connections; i++) pthread_join(threads[i], NULL);
  double lasted = now() - since;
  int total = 0;
  for (int i = 0; i < connections; i++) total += all[i].count;
  uint32_t *times = malloc((total + 1) * sizeof *times);
  int at = 0;
  for (int i = 0; i < connections; i++) {
    memcpy(times + at, all[i].times, all[i].count * sizeof *times);
    at += all[i].count;
  }
  qsort(times, total, sizeof *times, compare);
  printf("%.0f %u %u\n", total / lasted, times[total / 2], times[total * 99 / 100]);
  return 0;
}
