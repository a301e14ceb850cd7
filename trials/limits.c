// What a resolver could do at most on this machine, for the trial of speed: `limits echo ADDRESS` sends each datagram back as its own answer, and
// `limits forward ADDRESS SERVER` asks a server for each question, from a socket of its own as a resolver does, and hands the answer on.
#include <arpa/inet.h>
#include <netinet/in.h>
#include <stdio.h>
#include <stdlib.h>
#include <string.h>
#include <sys/epoll.h>
#include <sys/socket.h>
#include <unistd.h>

enum { PORT = 53, MOST = 4096, LINKS = 4096 };

static struct sockaddr_in at(const char *address, int port) {
  struct sockaddr_in name = {.sin_family = AF_INET, .sin_port = htons(port)};
  if (inet_pton(AF_INET, address, &name.sin_addr) != 1) {
    fprintf(stderr, "limits: no address: %s\n", address);
    exit(100);
  }
  return name;
}

static int socket_at(const char *address) {
  struct sockaddr_in name = at(address, PORT);
  int hears = socket(AF_INET, SOCK_DGRAM, 0), room = 1 << 20;
  setsockopt(hears, SOL_SOCKET, SO_RCVBUF, &room, sizeof room);
  if (hears < 0 || bind(hears, (struct sockaddr *)&name, sizeof name)) {
    perror("limits");
    exit(111);
  }
  return hears;
}

static void echo(const char *address) {
  int hears = socket_at(address);
  unsigned char packet[MOST];
  struct sockaddr_in client;
  for (;;) {
    socklen_t size = sizeof client;
    ssize_t count = recvfrom(hears, packet, sizeof packet, 0, (struct sockaddr *)&client, &size);
    if (count < 12) continue;
    packet[2] |= 0x80;
    sendto(hears, packet, count, 0, (struct sockaddr *)&client, size);
  }
}

static void forward(const char *address, const char *server) {
  static struct sockaddr_in clients[LINKS];
  int hears = socket_at(address), polls = epoll_create1(0);
  struct sockaddr_in far = at(server, PORT);
  struct epoll_event ready[64], clear = {.events = EPOLLIN, .data.fd = hears};
  unsigned char packet[MOST];
  epoll_ctl(polls, EPOLL_CTL_ADD, hears, &clear);
  for (;;) {
    int count = epoll_wait(polls, ready, 64, -1);
    for (int i = 0; i < count; i++) {
      int one = ready[i].data.fd;
      struct sockaddr_in client;
      socklen_t size = sizeof client;
      if (one == hears) {
        ssize_t length = recvfrom(hears, packet, sizeof packet, MSG_DONTWAIT, (struct sockaddr *)&client, &size);
        int link = length < 12 ? -1 : socket(AF_INET, SOCK_DGRAM, 0);
        if (link < 0) continue;
        if (link >= LINKS || connect(link, (struct sockaddr *)&far, sizeof far)) {
          close(link);
          continue;
        }
        struct epoll_event hear = {.events = EPOLLIN, .data.fd = link};
        clients[link] = client;
        epoll_ctl(polls, EPOLL_CTL_ADD, link, &hear);
        packet[2] &= ~1;
        send(link, packet, length, 0);
      } else {
        ssize_t length = recv(one, packet, sizeof packet, MSG_DONTWAIT);
        if (length >= 12) sendto(hears, packet, length, 0, (struct sockaddr *)&clients[one], sizeof client);
        close(one);
      }
    }
  }
}

int main(int count, char **words) {
  if (count == 3 && !strcmp(words[1], "echo")) echo(words[2]);
  if (count == 4 && !strcmp(words[1], "forward")) forward(words[2], words[3]);
  fprintf(stderr, "usage: limits echo ADDRESS | forward ADDRESS SERVER\n");
  return 100;
}
