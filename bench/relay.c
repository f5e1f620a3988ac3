/* A relay that parses nothing: what its one server sends goes to each client, in pieces as they come.
 *
 *     relay LISTEN-PORT SERVER-PORT
 *
 * bench/serve.py sets the gateway against it. Both ports are on 127.0.0.1. What clients send is read and dropped.
 * A client that doesn't read holds it up. It ends when the server closes the connection. A piece is 1,024 bytes, some 30
 * updates; with larger ones a flood shows little but how fast memory is copied. */
#include <arpa/inet.h>
#include <netinet/tcp.h>
#include <poll.h>
#include <signal.h>
#include <stdio.h>
#include <stdlib.h>
#include <string.h>
#include <sys/socket.h>
#include <unistd.h>

enum { MOST = 1100, PIECE = 1024 };

static struct sockaddr_in at(const char *port)
{
    struct sockaddr_in address = { .sin_family = AF_INET, .sin_port = htons(atoi(port)) };
    address.sin_addr.s_addr = htonl(INADDR_LOOPBACK);
    return address;
}

static void must(int good, const char *what)
{
    if (!good) {
        perror(what);
        exit(1);
    }
}

static int socket_for(const char *port, int listens)
{
    int one = 1, made = socket(AF_INET, SOCK_STREAM, 0);
    struct sockaddr_in address = at(port);
    setsockopt(made, SOL_SOCKET, SO_REUSEADDR, &one, sizeof one);
    setsockopt(made, IPPROTO_TCP, TCP_NODELAY, &one, sizeof one);
    if (listens) {
        must(bind(made, (void *)&address, sizeof address) == 0, "bind");
        must(listen(made, 128) == 0, "listen");
    } else {
        must(connect(made, (void *)&address, sizeof address) == 0, "connect");
    }
    return made;
}

static int write_whole(int to, const char *bytes, ssize_t many)
{
    while (many > 0) {
        ssize_t done = write(to, bytes, many);
        if (done <= 0)
            return 0;
        bytes += done;
        many -= done;
    }
    return 1;
}

int main(int words, char **word)
{
    static struct pollfd links[MOST];
    static char piece[PIECE];
    int count = 2, one = 1;
    if (words != 3)
        return 2;
    signal(SIGPIPE, SIG_IGN);
    links[0] = (struct pollfd){ socket_for(word[1], 1), POLLIN, 0 };
    links[1] = (struct pollfd){ socket_for(word[2], 0), POLLIN, 0 };
    printf("listening\n");
    fflush(stdout);
    for (;;) {
        must(poll(links, count, -1) > 0, "poll");
        if (links[1].revents) {
            ssize_t many = read(links[1].fd, piece, PIECE);
            if (many <= 0)
                return 0;
            for (int i = 2; i < count; i++)
                write_whole(links[i].fd, piece, many);
        }
        for (int i = count - 1; i >= 2; i--) {
            static char dropped[4096];
            if (links[i].revents && read(links[i].fd, dropped, sizeof dropped) <= 0) {
                close(links[i].fd);
                links[i] = links[--count];
            }
        }
        if (links[0].revents && count < MOST) {
            int made = accept(links[0].fd, NULL, NULL);
            setsockopt(made, IPPROTO_TCP, TCP_NODELAY, &one, sizeof one);
            links[count++] = (struct pollfd){ made, POLLIN, 0 };
        }
    }
}
