/* A bare echo of bytes over TCP, and eight agents that keep many requests in flight. bench/serve_beside_echo.py builds and runs it.

       plain_lines echo PORT              sends back what each of eight links sends, a thread for each, and ends with the last
       plain_lines ask PORT LINES DEPTH GREETED

   Each of eight agents greets with its seat word, waits for GREETED lines, and sends LINES requests, at most DEPTH of them without a reply. It
   writes the requests per second of all together, and the median and the 99th percentile of the time from a line to its reply, in microseconds. */
#include <arpa/inet.h>
#include <netinet/tcp.h>
#include <pthread.h>
#include <stdio.h>
#include <stdlib.h>
#include <string.h>
#include <sys/socket.h>
#include <time.h>
#include <unistd.h>

enum { AGENTS = 8, ROOM = 65536 };

static int port, lines, depth, greeted;
static int links[AGENTS];
static double *waits[AGENTS];  /* of each line, in microseconds */
static pthread_barrier_t begun;

static double now(void) {
    struct timespec time;
    clock_gettime(CLOCK_MONOTONIC, &time);
    return time.tv_sec * 1e6 + time.tv_nsec / 1e3;
}

static void fail(const char *what) {
    perror(what);
    exit(1);
}

static void send_all(int link, const char *bytes, size_t count) {
    while (count > 0) {
        ssize_t sent = write(link, bytes, count);
        if (sent <= 0) fail("write");
        bytes += sent;
        count -= sent;
    }
}

static struct sockaddr_in address(void) {
    struct sockaddr_in place = {.sin_family = AF_INET, .sin_port = htons(port), .sin_addr.s_addr = htonl(INADDR_LOOPBACK)};
    return place;
}

/* ---- the echo */

static void *echo_link(void *given) {
    int link = *(int *)given;
    char bytes[ROOM];
    ssize_t count;
    while ((count = read(link, bytes, sizeof bytes)) > 0) send_all(link, bytes, count);
    close(link);
    return NULL;
}

static void echo(void) {
    int one = 1, listener = socket(AF_INET, SOCK_STREAM, 0);
    struct sockaddr_in place = address();
    pthread_t threads[AGENTS];
    setsockopt(listener, SOL_SOCKET, SO_REUSEADDR, &one, sizeof one);
    if (bind(listener, (struct sockaddr *)&place, sizeof place) || listen(listener, AGENTS)) fail("listen");
    for (int link = 0; link < AGENTS; link++) {
        if ((links[link] = accept(listener, NULL, NULL)) < 0) fail("accept");
        setsockopt(links[link], IPPROTO_TCP, TCP_NODELAY, &one, sizeof one);
        pthread_create(&threads[link], NULL, echo_link, &links[link]);
    }
    for (int link = 0; link < AGENTS; link++) pthread_join(threads[link], NULL);
}

/* ---- the agents */

/* A quote, a holding and a bid in turn, in the 28 auctions one after the other. */
static int request(char *text, int number) {
    int good = number / 3 % 28, kind = number % 3;
    return kind == 0   ? sprintf(text, "quote %d\n", good)
           : kind == 1 ? sprintf(text, "own %d\n", good)
                       : sprintf(text, "bid %d ((1 70) (1 65))\n", good);
}

/* Reads what is there, and returns how many lines ended in it. */
static int lines_read(int link) {
    char bytes[ROOM];
    ssize_t count = read(link, bytes, sizeof bytes);
    int ended = 0;
    if (count <= 0) fail("read");
    for (ssize_t place = 0; place < count; place++) ended += bytes[place] == '\n';
    return ended;
}

static void *ask(void *given) {
    int agent = *(int *)given, one = 1, link = socket(AF_INET, SOCK_STREAM, 0), sent = 0, answered = 0;
    struct sockaddr_in place = address();
    char text[ROOM];
    double *times = waits[agent];
    if (connect(link, (struct sockaddr *)&place, sizeof place)) fail("connect");
    setsockopt(link, IPPROTO_TCP, TCP_NODELAY, &one, sizeof one);
    send_all(link, text, sprintf(text, "hello seat%d\n", agent));
    for (int got = 0; got < greeted;) got += lines_read(link);
    pthread_barrier_wait(&begun);
    while (answered < lines) {
        /* once half of the lines are answered, as many more are sent at once */
        if (sent < lines && sent - answered <= depth / 2) {
            int size = 0;
            for (; sent < lines && sent - answered < depth; sent++) {
                size += request(text + size, sent);
                times[sent] = now();
            }
            send_all(link, text, size);
        }
        int got = lines_read(link);
        double time = now();
        for (; got > 0; got--, answered++) times[answered] = time - times[answered];
    }
    pthread_barrier_wait(&begun);
    send_all(link, "quit\n", 5);
    lines_read(link);
    close(link);
    return NULL;
}

static int by_size(const void *one, const void *other) {
    double first = *(const double *)one, second = *(const double *)other;
    return (first > second) - (first < second);
}

static void ask_all(void) {
    pthread_t threads[AGENTS];
    int numbers[AGENTS];
    double *all = malloc(sizeof(double) * AGENTS * lines), begin, end;
    pthread_barrier_init(&begun, NULL, AGENTS + 1);
    for (int agent = 0; agent < AGENTS; agent++) {
        numbers[agent] = agent;
        waits[agent] = all + (size_t)agent * lines;
        pthread_create(&threads[agent], NULL, ask, &numbers[agent]);
    }
    pthread_barrier_wait(&begun);
    begin = now();
    pthread_barrier_wait(&begun);
    end = now();
    for (int agent = 0; agent < AGENTS; agent++) pthread_join(threads[agent], NULL);
    size_t count = (size_t)AGENTS * lines;
    qsort(all, count, sizeof *all, by_size);
    printf("%.0f %.0f %.0f\n", count / (end - begin) * 1e6, all[count / 2], all[count / 100 * 99]);
}

int main(int count, char **words) {
    if (count == 3 && !strcmp(words[1], "echo")) {
        port = atoi(words[2]);
        echo();
    } else if (count == 6 && !strcmp(words[1], "ask")) {
        port = atoi(words[2]);
        lines = atoi(words[3]);
        depth = atoi(words[4]);
        greeted = atoi(words[5]);
        ask_all();
    } else {
        fputs("plain_lines echo PORT | plain_lines ask PORT LINES DEPTH GREETED\n", stderr);
        return 1;
    }
    return 0;
}
