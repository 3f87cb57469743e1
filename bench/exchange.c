/* exchange EXCHANGES [PORT]: measures EXCHANGES exchanges of a line and its reply, each over a connection of its own.

   One thread connects to PORT of the loopback interface, sends the line, reads the reply and closes the connection.
   An exchange is made again if the other end closes or resets the connection before its reply, or replies that its node
   has stopped, as a node does while it settles. Without PORT another thread accepts the connections, reads a line from
   each, writes a reply and waits for the other end to close. The time of all exchanges in microseconds and the number of
   those that were made again are printed. The exit status is 1 if another call fails, if another reply comes, or if more
   exchanges are made again than there are, and 2 if the words are wrong. */

#include <arpa/inet.h>
#include <errno.h>
#include <netinet/tcp.h>
#include <pthread.h>
#include <stdio.h>
#include <stdlib.h>
#include <string.h>
#include <sys/socket.h>
#include <time.h>
#include <unistd.h>

static const char LINE[] = "{\"call\":\"AcceptNotification\",\"codes\":[],\"from\":\"ITL\",\"status\":\"Completed\",\"to\":\"NZ\",\"transaction\":\"NZ9\"}\n";
static const char STOPPED[] = "{\"code\":48,\"result\":\"refused\"}\n";
static const char REPLY[] = "{\"code\":47,\"result\":\"refused\"}\n";

static struct sockaddr_in address;
static int listener;
static long count;

static void must(int holds, const char *what) {
    if (!holds) {
        perror(what);
        exit(1);
    }
}

static void set_nodelay(int socket) {
    int one = 1;
    setsockopt(socket, IPPROTO_TCP, TCP_NODELAY, &one, sizeof one);
}

/* Reads up to a newline, to the end or to a reset, and returns the number of bytes. */
static size_t read_line(int socket, char *bytes, size_t room) {
    size_t have = 0;
    while (have < room) {
        ssize_t more = read(socket, bytes + have, room - have);
        must(more >= 0 || errno == ECONNRESET, "read");
        if (more <= 0)
            break;
        have += (size_t)more;
        if (bytes[have - 1] == '\n')
            break;
    }
    return have;
}

static void write_all(int socket, const char *bytes, size_t length) {
    while (length > 0) {
        ssize_t more = write(socket, bytes, length);
        must(more > 0, "write");
        bytes += more;
        length -= (size_t)more;
    }
}

static void *serve(void *unused) {
    char bytes[4096];
    for (long served = 0; served < count; served++) {
        int socket = accept(listener, NULL, NULL);
        must(socket >= 0, "accept");
        set_nodelay(socket);
        while (read_line(socket, bytes, sizeof bytes) > 0)
            write_all(socket, REPLY, sizeof REPLY - 1);
        close(socket);
    }
    return unused;
}

/* Starts the thread that accepts connections, and has the address name its port. */
static pthread_t start_server(void) {
    listener = socket(AF_INET, SOCK_STREAM, 0);
    must(listener >= 0, "socket");
    must(bind(listener, (struct sockaddr *)&address, sizeof address) == 0, "bind");
    must(listen(listener, 128) == 0, "listen");
    socklen_t size = sizeof address;
    must(getsockname(listener, (struct sockaddr *)&address, &size) == 0, "getsockname");
    pthread_t server;
    errno = pthread_create(&server, NULL, serve, NULL);
    must(errno == 0, "pthread_create");
    return server;
}

int main(int words, char **word) {
    count = words == 2 || words == 3 ? atol(word[1]) : 0;
    long port = words == 3 ? atol(word[2]) : 0;
    if (count <= 0 || port < 0 || port > 65535 || (words == 3 && port == 0)) {
        fprintf(stderr, "exchange: a number from 1 on is expected, and perhaps a port\n");
        return 2;
    }
    address.sin_family = AF_INET;
    address.sin_addr.s_addr = htonl(INADDR_LOOPBACK);
    address.sin_port = htons((uint16_t)port);

    struct timespec begin, end;
    pthread_t server = 0;
    char bytes[4096];
    clock_gettime(CLOCK_MONOTONIC, &begin);
    if (port == 0)
        server = start_server();
    long again = 0;
    for (long sent = 0; sent < count;) {
        int socket_ = socket(AF_INET, SOCK_STREAM, 0);
        must(socket_ >= 0, "socket");
        must(connect(socket_, (struct sockaddr *)&address, sizeof address) == 0, "connect");
        set_nodelay(socket_);
        write_all(socket_, LINE, sizeof LINE - 1);
        size_t have = read_line(socket_, bytes, sizeof bytes);
        close(socket_);
        int is_repeated = have == 0 || (have == sizeof STOPPED - 1 && memcmp(bytes, STOPPED, have) == 0);
        if (is_repeated && again < count) {
            again++;
            continue;
        }
        if (have != sizeof REPLY - 1 || memcmp(bytes, REPLY, have) != 0) {
            fprintf(stderr, "exchange: the reply is %.*s\n", (int)have, bytes);
            return 1;
        }
        sent++;
    }
    if (port == 0) {
        errno = pthread_join(server, NULL);
        must(errno == 0, "pthread_join");
    }
    clock_gettime(CLOCK_MONOTONIC, &end);
    printf("%lld %ld\n", (end.tv_sec - begin.tv_sec) * 1000000LL + (end.tv_nsec - begin.tv_nsec) / 1000, again);
    must(fflush(stdout) == 0, "printf");
    return 0;
}
