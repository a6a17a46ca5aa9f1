/* ZooKeeper's C client, for bench/clients.sh: clients ONE OTHER, clients failover HOSTS, or clients roam HOSTS SECONDS. Prints `ok`, or says what was wrong and ends with status 1. */
#include <stdio.h>
#include <stdlib.h>
#include <string.h>
#include <time.h>
#include <unistd.h>
#include <zookeeper/zookeeper.h>

static volatile int last_type;

static void check(const char *what, int holds) {
  if (!holds) {
    printf("wrong: %s\n", what);
    exit(1);
  }
}

static void watched(zhandle_t *zh, int type, int state, const char *path, void *context) {
  if (type != ZOO_SESSION_EVENT) last_type = type;
}

static zhandle_t *connect_to(const char *hosts) {
  zhandle_t *zh = zookeeper_init(hosts, watched, 10000, 0, 0, 0);
  check("init", zh != NULL);
  for (int turn = 0; turn < 500 && zoo_state(zh) != ZOO_CONNECTED_STATE; turn++) usleep(20000);
  check("connect", zoo_state(zh) == ZOO_CONNECTED_STATE);
  return zh;
}

static int comes(int type) {
  for (int turn = 0; turn < 250 && last_type != type; turn++) usleep(20000);
  int came = last_type == type;
  last_type = 0;
  return came;
}

static int is_least(const char *name, const struct String_vector *names) {
  for (int i = 0; i < names->count; i++)
    if (strcmp(names->data[i], name) < 0) return 0;
  return 1;
}

/* The one whose node is the least leads, or holds the lock. */
static int is_first(zhandle_t *zh, const char *root, const char *node, watcher_fn told) {
  struct String_vector names;
  check("candidates", zoo_wget_children(zh, root, told, 0, &names) == ZOK);
  int least = is_least(strrchr(node, '/') + 1, &names);
  deallocate_String_vector(&names);
  return least;
}

static int leads(zhandle_t *zh, const char *node) { return is_first(zh, "/c-leader", node, watched); }

static int holds(zhandle_t *zh, const char *node) { return is_first(zh, "/c-lock", node, NULL); }

/* Each waits for the node before its own to go, and the lock passes on when its owner gives it back. */
static void lock(zhandle_t *a, zhandle_t *b) {
  char mine[256], theirs[256], again[256];
  struct Stat stat;
  int flags = ZOO_EPHEMERAL | ZOO_SEQUENCE;
  check("root", zoo_create(a, "/c-lock", "", 0, &ZOO_OPEN_ACL_UNSAFE, 0, mine, sizeof mine) == ZOK);
  check("mine", zoo_create(a, "/c-lock/l-", "", 0, &ZOO_OPEN_ACL_UNSAFE, flags, mine, sizeof mine) == ZOK);
  check("theirs", zoo_create(b, "/c-lock/l-", "", 0, &ZOO_OPEN_ACL_UNSAFE, flags, theirs, sizeof theirs) == ZOK);
  check("lock", holds(a, mine));
  check("one owner", !holds(b, theirs));
  last_type = 0;
  check("waits", zoo_wexists(b, mine, watched, 0, &stat) == ZOK);
  check("unlock", zoo_delete(a, mine, -1) == ZOK);
  check("passed on", comes(ZOO_DELETED_EVENT));
  check("owner", holds(b, theirs));
  check("again", zoo_create(a, "/c-lock/l-", "", 0, &ZOO_OPEN_ACL_UNSAFE, flags, again, sizeof again) == ZOK);
  check("one owner", !holds(a, again));
  check("unlock", zoo_delete(b, theirs, -1) == ZOK);
  check("owner", holds(a, again));
  check("unlock", zoo_delete(a, again, -1) == ZOK);
}

static volatile int told[5];

static void noted(zhandle_t *zh, int type, int state, const char *path, void *context) {
  if (type == ZOO_CREATED_EVENT && !strcmp(path, "/w/created")) told[0]++;
  if (type == ZOO_DELETED_EVENT && !strcmp(path, "/w/deleted")) told[1]++;
  if (type == ZOO_CHANGED_EVENT && !strcmp(path, "/w/changed")) told[2]++;
  if (type == ZOO_CHILD_EVENT && !strcmp(path, "/w")) told[3]++;
  if (type == ZOO_CHANGED_EVENT && !strcmp(path, "/w")) told[4]++;
}

/* Watches stay when the session goes on at another proxy, and changes made in between are told. */
static void failover(const char *hosts) {
  zhandle_t *zh = zookeeper_init(hosts, noted, 10000, 0, 0, 0);
  for (int turn = 0; turn < 500 && zoo_state(zh) != ZOO_CONNECTED_STATE; turn++) usleep(20000);
  const char *paths[] = {"/w", "/w/changed", "/w/deleted"};
  char path[256], room[256];
  int length = sizeof room;
  struct Stat stat;
  struct String_vector names;
  for (int i = 0; i < 3; i++)
    check("create", zoo_create(zh, paths[i], "x", 1, &ZOO_OPEN_ACL_UNSAFE, 0, path, sizeof path) == ZOK);
  check("get", zoo_get(zh, "/w/changed", 1, room, &length, &stat) == ZOK);
  check("get", zoo_get(zh, "/w/deleted", 1, room, &length, &stat) == ZOK);
  check("exists", zoo_exists(zh, "/w/created", 1, &stat) == ZNONODE);
  check("children", zoo_get_children(zh, "/w", 1, &names) == ZOK);
  check("get", zoo_get(zh, "/w", 1, room, &length, &stat) == ZOK);
  int64_t session = zoo_client_id(zh)->client_id;
  printf("ready\n");
  fflush(stdout);
  getchar();
  for (int turn = 0; turn < 750 && told[0] + told[1] + told[2] + told[3] < 4; turn++) usleep(20000);
  check("told once of each", told[0] == 1 && told[1] == 1 && told[2] == 1 && told[3] == 1 && told[4] == 0);
  check("the session", zoo_client_id(zh)->client_id == session);
  check("set", zoo_set(zh, "/w", "y", 1, -1) == ZOK);
  for (int turn = 0; turn < 250 && told[4] == 0; turn++) usleep(20000);
  check("a watch that did not fire", told[4] == 1);
  zookeeper_close(zh);
}

static volatile int heard[2];
static char second;

static void hears(zhandle_t *zh, int type, int state, const char *path, void *context) {
  if (type != ZOO_SESSION_EVENT) heard[context != NULL]++;
}

/* A create tells the Stat of the node that it made, and of two watches the one that was taken away is told of nothing. */
static void unwatch(zhandle_t *a, zhandle_t *b) {
  char path[256], room[256];
  struct Stat made, seen;
  int length = sizeof room;
  check("create2", zoo_create2(a, "/c-unwatch", "abc", 3, &ZOO_OPEN_ACL_UNSAFE, 0, path, sizeof path, &made) == ZOK);
  check("its path", !strcmp(path, "/c-unwatch"));
  check("exists", zoo_exists(a, "/c-unwatch", 0, &seen) == ZOK);
  check("its stat", made.czxid == seen.czxid && made.mzxid == seen.mzxid && made.ctime == seen.ctime && made.dataLength == 3);
  check("again", zoo_create2(b, "/c-unwatch", "", 0, &ZOO_OPEN_ACL_UNSAFE, 0, path, sizeof path, &made) == ZNODEEXISTS);
  check("no watch", zoo_remove_watches(a, "/c-unwatch", ZWATCHTYPE_DATA, hears, NULL, 0) == ZNOWATCHER);
  check("one", zoo_wget(a, "/c-unwatch", hears, NULL, room, &length, &seen) == ZOK);
  check("other", zoo_wexists(a, "/c-unwatch", hears, &second, &seen) == ZOK);
  check("one is gone", zoo_remove_watches(a, "/c-unwatch", ZWATCHTYPE_DATA, hears, NULL, 0) == ZOK);
  check("set", zoo_set(b, "/c-unwatch", "x", 1, -1) == ZOK);
  for (int turn = 0; turn < 250 && heard[1] == 0; turn++) usleep(20000);
  check("the other is told", heard[0] == 0 && heard[1] == 1);
  check("again", zoo_wget(a, "/c-unwatch", hears, &second, room, &length, &seen) == ZOK);
  check("all are gone", zoo_remove_all_watches(a, "/c-unwatch", ZWATCHTYPE_DATA, 0) == ZOK);
  check("none is left", zoo_remove_all_watches(a, "/c-unwatch", ZWATCHTYPE_ANY, 0) == ZNOWATCHER);
  check("delete", zoo_delete(b, "/c-unwatch", -1) == ZOK);
  check("no node", zoo_exists(a, "/c-unwatch", 0, &seen) == ZNONODE);
  check("nothing is told", heard[0] == 0 && heard[1] == 1);
}

static void ignored(zhandle_t *zh, int type, int state, const char *path, void *context) {}

/* Makes, reads, watches, changes and removes nodes for so many seconds, whatever becomes of its connections and its session. */
static void roam(const char *hosts, double seconds) {
  struct timespec now;
  clock_gettime(CLOCK_MONOTONIC, &now);
  double end = now.tv_sec + now.tv_nsec / 1e9 + seconds;
  zhandle_t *zh = NULL;
  int done = 0;
  srand(1);
  for (;; done++) {
    clock_gettime(CLOCK_MONOTONIC, &now);
    if (now.tv_sec + now.tv_nsec / 1e9 > end) break;
    if (zh != NULL && zoo_state(zh) == ZOO_EXPIRED_SESSION_STATE) {
      zookeeper_close(zh);
      zh = NULL;
    }
    if (zh == NULL) zh = zookeeper_init(hosts, ignored, 4000 + rand() % 8000, 0, 0, 0);
    char path[64], child[128], made[128], room[256];
    int length = sizeof room, watch = rand() % 2, status = ZOK;
    struct Stat stat;
    struct String_vector names = {0, NULL};
    snprintf(path, sizeof path, "/c%d", rand() % 3);
    snprintf(child, sizeof child, "%s/n-", path);
    switch (rand() % 7) {
      case 0: status = zoo_create(zh, path, "x", 1, &ZOO_OPEN_ACL_UNSAFE, 0, made, sizeof made); break;
      case 1: status = zoo_create(zh, child, "", 0, &ZOO_OPEN_ACL_UNSAFE, ZOO_EPHEMERAL | ZOO_SEQUENCE, made, sizeof made); break;
      case 2: status = zoo_set(zh, path, "y", 1, -1); break;
      case 3: status = zoo_wget(zh, path, watch ? ignored : NULL, NULL, room, &length, &stat); break;
      case 4: status = zoo_wexists(zh, path, watch ? ignored : NULL, NULL, &stat); break;
      case 5:
        status = zoo_wget_children(zh, path, watch ? ignored : NULL, NULL, &names);
        if (status == ZOK && names.count > 5) {
          snprintf(child, sizeof child, "%s/%s", path, names.data[rand() % names.count]);
          status = zoo_delete(zh, child, -1);
        }
        deallocate_String_vector(&names);
        break;
      default: usleep(rand() % 30000);
    }
    if (status == ZCONNECTIONLOSS || status == ZINVALIDSTATE) usleep(20000);
  }
  if (zh != NULL) zookeeper_close(zh);
  printf("%d requests\n", done);
}

int main(int count, char **words) {
  zoo_set_debug_level(ZOO_LOG_LEVEL_ERROR);
  if (!strcmp(words[1], "roam")) {
    roam(words[2], atof(words[3]));
    return 0;
  }
  if (!strcmp(words[1], "failover")) {
    failover(words[2]);
    printf("ok\n");
    return 0;
  }
  zhandle_t *a = connect_to(words[1]), *b = connect_to(words[2]);
  char path[256], other[256], room[256];
  int length = sizeof room;
  struct Stat stat;
  check("create", zoo_create(a, "/c", "x", 1, &ZOO_OPEN_ACL_UNSAFE, 0, path, sizeof path) == ZOK);
  check("exists", zoo_create(b, "/c", "x", 1, &ZOO_OPEN_ACL_UNSAFE, 0, path, sizeof path) == ZNODEEXISTS);
  check("read", zoo_wget(b, "/c", watched, 0, room, &length, &stat) == ZOK && length == 1 && room[0] == 'x');
  check("set", zoo_set(a, "/c", "y", 1, 0) == ZOK);
  check("changed", comes(ZOO_CHANGED_EVENT));
  check("bad version", zoo_set(a, "/c", "z", 1, 0) == ZBADVERSION);
  check("no node", zoo_wexists(b, "/c/n", watched, 0, &stat) == ZNONODE);
  check("child", zoo_create(a, "/c/n", "", 0, &ZOO_OPEN_ACL_UNSAFE, ZOO_EPHEMERAL, path, sizeof path) == ZOK);
  check("created", comes(ZOO_CREATED_EVENT));

  zoo_op_t parts[3];
  zoo_op_result_t results[3];
  zoo_check_op_init(&parts[0], "/c", 1);
  zoo_set_op_init(&parts[1], "/c", "w", 1, 1, NULL);
  zoo_create_op_init(&parts[2], "/c/m", "", 0, &ZOO_OPEN_ACL_UNSAFE, 0, path, sizeof path);
  check("multi", zoo_multi(b, 3, parts, results) == ZOK);

  unwatch(a, b);
  lock(a, b);
  check("root", zoo_create(a, "/c-leader", "", 0, &ZOO_OPEN_ACL_UNSAFE, 0, path, sizeof path) == ZOK);
  int flags = ZOO_EPHEMERAL | ZOO_SEQUENCE;
  check("first", zoo_create(a, "/c-leader/n-", "", 0, &ZOO_OPEN_ACL_UNSAFE, flags, path, sizeof path) == ZOK);
  check("second", zoo_create(b, "/c-leader/n-", "", 0, &ZOO_OPEN_ACL_UNSAFE, flags, other, sizeof other) == ZOK);
  last_type = 0;
  check("first leads", leads(a, path));
  check("second waits", !leads(b, other));
  check("close", zookeeper_close(a) == ZOK);
  check("told", comes(ZOO_CHILD_EVENT));
  check("second leads", leads(b, other));
  check("close", zookeeper_close(b) == ZOK);
  printf("ok\n");
  return 0;
}
