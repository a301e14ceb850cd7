/* A light load of queries over UDP, for trials on a machine of few processors: it asks one address from many sockets, each with so many queries
 * under way, and hands many queries to the system in one call. It sleeps between its rounds, so that no answer has to wake it.
 *
 *   load ask ADDRESS NAMES SOCKETS WINDOW SECONDS THREADS [PID ..]
 *     asks for the addresses of the names in the file NAMES, a line each, in turn, and says what came in these seconds, behind half a second that
 *     doesn't count:
 *       rate      answers a second
 *       lost      queries that had no answer, where none came to their socket for a second
 *       refused   answers with another code than 0
 *       stray     answers that weren't asked for
 *       load, user, system, served
 *                 microseconds of processor time an answer: of the load; and of the processes PID, in their own code, in the system, and in all
 *       started   threads and processes that were started on the machine, a second
 *       busy      how much of a processor each PID had
 *   load echo ADDRESS
 *     sends each packet back as an answer: what a service costs at least. Several may share the address.
 */
#define _GNU_SOURCE
#include <arpa/inet.h>
#include <errno.h>
#include <netinet/in.h>
#include <netinet/udp.h>
#include <pthread.h>
#include <stdatomic.h>
#include <stdint.h>
#include <stdio.h>
#include <stdlib.h>
#include <string.h>
#include <sys/prctl.h>
#include <sys/resource.h>
#include <sys/socket.h>
#include <time.h>
#include <unistd.h>

#ifndef UDP_SEGMENT
#define UDP_SEGMENT 103
#endif

enum { MOST_QUERY = 280, BATCH = 64, PAUSE_NS = 150000, MOST_SOCKETS = 1024, MOST_PIDS = 64 };

struct query { uint16_t length; uint8_t bytes[MOST_QUERY]; };

struct asker {
  int fd;
  uint16_t next;
  int under_way;
  double moved;
  uint8_t open[8192];
};

struct worker {
  pthread_t thread;
  struct asker *askers;
  int sockets;
  size_t at;
  atomic_ulong answered, lost, refused, stray;
};

static struct query *queries;
static size_t query_count;
static int window;
static atomic_int over, whole = 1;

static void fail(const char *what) { perror(what); exit(111); }

static double moment(void) {
  struct timespec now;
  clock_gettime(CLOCK_MONOTONIC, &now);
  return now.tv_sec + now.tv_nsec / 1e9;
}

/* The query for the addresses of a name, with recursion wanted. */
static struct query query_of(char *name) {
  struct query q = {12, {0, 0, 1, 0, 0, 1}};
  for (char *label = strtok(name, "."); label; label = strtok(NULL, ".")) {
    size_t length = strlen(label);
    if (length > 63 || q.length + length + 6 > MOST_QUERY) { fprintf(stderr, "load: a name is too long\n"); exit(111); }
    q.bytes[q.length++] = length;
    memcpy(q.bytes + q.length, label, length);
    q.length += length;
  }
  memcpy(q.bytes + q.length, "\0\0\1\0\1", 5);
  q.length += 5;
  return q;
}

static void read_names(const char *path) {
  FILE *file = fopen(path, "r");
  char *line = NULL;
  size_t room = 0, most = 0;
  if (!file) fail(path);
  while (getline(&line, &room, file) > 0) {
    line[strcspn(line, " \n")] = 0;
    if (query_count == most) queries = realloc(queries, (most = 2 * most + 1024) * sizeof *queries);
    if (!queries) fail("memory");
    queries[query_count++] = query_of(line);
  }
  fclose(file);
  if (!query_count) { fprintf(stderr, "load: no names\n"); exit(111); }
}

static struct sockaddr_in place(const char *address) {
  struct sockaddr_in at = {.sin_family = AF_INET, .sin_port = htons(53)};
  if (inet_pton(AF_INET, address, &at.sin_addr) != 1) { fprintf(stderr, "load: no address: %s\n", address); exit(111); }
  return at;
}

/* Sends so many queries of one length in one piece, which the system parts. */
static int send_whole(int fd, struct iovec *parts, int count) {
  char control[CMSG_SPACE(sizeof(uint16_t))] = {0};
  struct msghdr message = {.msg_iov = parts, .msg_iovlen = count, .msg_control = control, .msg_controllen = sizeof control};
  struct cmsghdr *head = CMSG_FIRSTHDR(&message);
  uint16_t length = parts[0].iov_len;
  head->cmsg_level = SOL_UDP;
  head->cmsg_type = UDP_SEGMENT;
  head->cmsg_len = CMSG_LEN(sizeof length);
  memcpy(CMSG_DATA(head), &length, sizeof length);
  return sendmsg(fd, &message, MSG_DONTWAIT) < 0 ? -1 : count;
}

/* Asks until as many queries are under way as may be. */
static void ask(struct worker *w, struct asker *a, double now) {
  static _Thread_local struct query made[BATCH];
  struct iovec parts[BATCH];
  struct mmsghdr messages[BATCH];
  int count = window - a->under_way, sent = -1, same = 1;
  if (count > BATCH) count = BATCH;
  if (count <= 0) return;
  memset(messages, 0, sizeof messages[0] * count);
  for (int i = 0; i < count; i++) {
    made[i] = queries[(w->at + i) % query_count];
    uint16_t id = a->next + i;
    made[i].bytes[0] = id >> 8;
    made[i].bytes[1] = id & 255;
    parts[i] = (struct iovec){made[i].bytes, made[i].length};
    messages[i].msg_hdr.msg_iov = &parts[i];
    messages[i].msg_hdr.msg_iovlen = 1;
    same &= made[i].length == made[0].length;
  }
  if (same && count > 1 && atomic_load(&whole)) {
    sent = send_whole(a->fd, parts, count);
    if (sent < 0 && (errno == EINVAL || errno == EIO || errno == EOPNOTSUPP)) atomic_store(&whole, 0);
  }
  if (sent < 0) sent = sendmmsg(a->fd, messages, count, MSG_DONTWAIT);
  if (sent <= 0) return;
  if (!a->under_way) a->moved = now;
  for (int i = 0; i < sent; i++, a->next++) a->open[a->next >> 3] |= 1 << (a->next & 7);
  a->under_way += sent;
  w->at = (w->at + sent) % query_count;
}

/* Takes the answers that have come. */
static void hear(struct worker *w, struct asker *a, double now) {
  static _Thread_local uint8_t bytes[BATCH][64];
  struct iovec parts[BATCH];
  struct mmsghdr messages[BATCH];
  memset(messages, 0, sizeof messages);
  for (int i = 0; i < BATCH; i++) {
    parts[i] = (struct iovec){bytes[i], sizeof bytes[i]};
    messages[i].msg_hdr.msg_iov = &parts[i];
    messages[i].msg_hdr.msg_iovlen = 1;
  }
  int count = recvmmsg(a->fd, messages, BATCH, MSG_DONTWAIT, NULL);
  for (int i = 0; i < count; i++) {
    uint16_t id = bytes[i][0] << 8 | bytes[i][1];
    if (messages[i].msg_len < 12 || !(a->open[id >> 3] & 1 << (id & 7))) { w->stray++; continue; }
    a->open[id >> 3] &= ~(1 << (id & 7));
    a->under_way--;
    a->moved = now;
    w->answered++;
    if (bytes[i][3] & 15) w->refused++;
  }
  if (a->under_way && now - a->moved > 1) {
    w->lost += a->under_way;
    a->under_way = 0;
    memset(a->open, 0, sizeof a->open);
  }
}

static void *work(void *given) {
  struct worker *w = given;
  struct timespec pause = {0, PAUSE_NS};
  prctl(PR_SET_TIMERSLACK, 1000);
  while (!atomic_load(&over)) {
    double now = moment();
    for (int i = 0; i < w->sockets; i++) {
      hear(w, &w->askers[i], now);
      ask(w, &w->askers[i], now);
    }
    nanosleep(&pause, NULL);
  }
  return NULL;
}

/* The processor time that a process has had in all its threads, those that have ended too: its own code's and the system's, in seconds. */
struct had { double user, system; };

static struct had had_by(const char *pid) {
  char path[64], text[1024];
  unsigned long user = 0, system = 0;
  snprintf(path, sizeof path, "/proc/%s/stat", pid);
  FILE *file = fopen(path, "r");
  if (!file) fail(path);
  text[fread(text, 1, sizeof text - 1, file)] = 0;
  fclose(file);
  char *rest = strrchr(text, ')');
  if (!rest || sscanf(rest, ") %*c %*d %*d %*d %*d %*d %*u %*u %*u %*u %*u %lu %lu", &user, &system) != 2) fail(path);
  double ticks = sysconf(_SC_CLK_TCK);
  return (struct had){user / ticks, system / ticks};
}

/* How many threads and processes the system has ever started. */
static double started(void) {
  char line[256];
  double count = 0;
  FILE *file = fopen("/proc/stat", "r");
  while (file && fgets(line, sizeof line, file))
    if (sscanf(line, "processes %lf", &count) == 1) break;
  if (file) fclose(file);
  return count;
}

struct counts { double moment, own, started; struct had had[MOST_PIDS]; unsigned long answered, lost, refused, stray; };

static struct counts counts_of(struct worker *workers, int threads, char **pids, int pid_count) {
  struct counts c = {.moment = moment(), .started = started()};
  struct rusage use;
  for (int i = 0; i < threads; i++) {
    c.answered += workers[i].answered;
    c.lost += workers[i].lost;
    c.refused += workers[i].refused;
    c.stray += workers[i].stray;
  }
  for (int i = 0; i < pid_count; i++) c.had[i] = had_by(pids[i]);
  getrusage(RUSAGE_SELF, &use);
  c.own = use.ru_utime.tv_sec + use.ru_stime.tv_sec + (use.ru_utime.tv_usec + use.ru_stime.tv_usec) / 1e6;
  return c;
}

static void say(struct counts a, struct counts b, int pid_count) {
  double seconds = b.moment - a.moment, answers = b.answered - a.answered, user = 0, system = 0;
  for (int i = 0; i < pid_count; i++) {
    user += b.had[i].user - a.had[i].user;
    system += b.had[i].system - a.had[i].system;
  }
  if (answers < 1) answers = 1;
  printf("rate=%.0f lost=%lu refused=%lu stray=%lu load=%.2f user=%.2f system=%.2f served=%.2f started=%.0f busy=", (b.answered - a.answered) / seconds,
         b.lost - a.lost, b.refused - a.refused, b.stray - a.stray, (b.own - a.own) * 1e6 / answers, user * 1e6 / answers, system * 1e6 / answers,
         (user + system) * 1e6 / answers, (b.started - a.started) / seconds);
  for (int i = 0; i < pid_count; i++)
    printf("%s%.2f", i ? "," : "", (b.had[i].user + b.had[i].system - a.had[i].user - a.had[i].system) / seconds);
  printf("\n");
}

static int ask_all(char **words, int count) {
  struct sockaddr_in at = place(words[0]);
  int sockets = atoi(words[2]), threads = atoi(words[5]), pid_count = count - 6;
  double seconds = atof(words[4]);
  window = atoi(words[3]);
  if (sockets < 1 || sockets > MOST_SOCKETS || window < 1 || threads < 1 || threads > sockets || pid_count > MOST_PIDS) return 100;
  read_names(words[1]);
  struct asker *askers = calloc(sockets, sizeof *askers);
  struct worker *workers = calloc(threads, sizeof *workers);
  if (!askers || !workers) fail("memory");
  for (int i = 0; i < sockets; i++) {
    if ((askers[i].fd = socket(AF_INET, SOCK_DGRAM, 0)) < 0) fail("socket");
    int room = 1 << 20;
    setsockopt(askers[i].fd, SOL_SOCKET, SO_RCVBUF, &room, sizeof room);
    if (connect(askers[i].fd, (struct sockaddr *)&at, sizeof at)) fail("connect");
  }
  for (int i = 0; i < threads; i++) {
    int from = sockets * i / threads, up = sockets * (i + 1) / threads;
    workers[i].askers = askers + from;
    workers[i].sockets = up - from;
    workers[i].at = query_count * i / threads;
    if (pthread_create(&workers[i].thread, NULL, work, &workers[i])) fail("thread");
  }
  usleep(500000);
  struct counts before = counts_of(workers, threads, words + 6, pid_count);
  usleep(seconds * 1e6);
  struct counts after = counts_of(workers, threads, words + 6, pid_count);
  atomic_store(&over, 1);
  for (int i = 0; i < threads; i++) pthread_join(workers[i].thread, NULL);
  say(before, after, pid_count);
  return 0;
}

_Noreturn static void echo(const char *address) {
  struct sockaddr_in at = place(address), from;
  int fd = socket(AF_INET, SOCK_DGRAM, 0), yes = 1, space = 1 << 20;
  uint8_t bytes[1500];
  if (fd < 0) fail("socket");
  if (setsockopt(fd, SOL_SOCKET, SO_REUSEPORT, &yes, sizeof yes) || bind(fd, (struct sockaddr *)&at, sizeof at)) fail("bind");
  setsockopt(fd, SOL_SOCKET, SO_RCVBUF, &space, sizeof space);
  for (;;) {
    socklen_t room = sizeof from;
    ssize_t count = recvfrom(fd, bytes, sizeof bytes, 0, (struct sockaddr *)&from, &room);
    if (count < 12) continue;
    bytes[2] |= 128;
    sendto(fd, bytes, count, 0, (struct sockaddr *)&from, room);
  }
}

int main(int count, char **words) {
  if (count >= 8 && !strcmp(words[1], "ask")) return ask_all(words + 2, count - 2);
  if (count == 3 && !strcmp(words[1], "echo")) echo(words[2]);
  fprintf(stderr, "usage: load ask ADDRESS NAMES SOCKETS WINDOW SECONDS THREADS [PID ..] | load echo ADDRESS\n");
  return 100;
}
