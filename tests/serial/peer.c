/* Stands on a serial line between the poller and the meter: relays each request, and mistreats the replies by a schedule.
 *
 *   peer LINE METER SCHEDULE REQUESTS
 *
 * LINE and METER are the devices towards the poller and the meter. A line of SCHEDULE is the number of a request, counted from 1, and
 * what becomes of its reply; every other reply is relayed as it came:
 *
 *   NUMBER damage BYTE MASK    this byte is changed where the mask has bits
 *   NUMBER forge BYTE MASK     likewise, and the CRC is made right again
 *   NUMBER delay MILLISECONDS  it comes late
 *   NUMBER drop                it never comes
 *   NUMBER repeat MILLISECONDS it comes again, so much later
 *   NUMBER twice               it comes twice without a pause
 *   NUMBER cut BYTES           only its first bytes come
 *   NUMBER append BYTES        so many bytes more come
 *
 * The requests are written to REQUESTS in hexadecimal, one a line. */
#include <fcntl.h>
#include <poll.h>
#include <stdio.h>
#include <stdlib.h>
#include <string.h>
#include <unistd.h>

enum { ROOM = 64, MOST_REQUESTS = 1024, REQUEST = 8, REPLY = 14, REFUSAL = 6, REFUSED = 0x80, PAUSE = 200 };

struct treatment {
    char what[16];
    int a, b;
};

static struct treatment schedule[MOST_REQUESTS + 1];

static void die(const char *what) {
    perror(what);
    exit(1);
}

static void read_schedule(const char *path) {
    char line[256];
    FILE *file = fopen(path, "r");
    if (!file) die(path);
    while (fgets(line, sizeof line, file)) {
        struct treatment t = {"", 0, 0};
        int number;
        if (line[0] == '#' || sscanf(line, "%d %15s %d %d", &number, t.what, &t.a, &t.b) < 2) continue;
        if (number >= 1 && number <= MOST_REQUESTS) schedule[number] = t;
    }
    fclose(file);
}

static int whole(const unsigned char *bytes, int n, int from_meter) {
    if (!from_meter) return n >= REQUEST;
    return n >= REPLY || (n >= REFUSAL && bytes[1] >= REFUSED);
}

/* What comes until it is whole, or pauses; at first it waits as long as it takes, or for a reply no longer than a pause. */
static int gather(int fd, unsigned char *bytes, int from_meter) {
    int n = 0;
    while (n < ROOM && !whole(bytes, n, from_meter)) {
        struct pollfd wait = {fd, POLLIN, 0};
        if (poll(&wait, 1, n > 0 || from_meter ? PAUSE : -1) == 0) break;
        int got = read(fd, bytes + n, ROOM - n);
        if (got <= 0) exit(0);
        n += got;
    }
    return n;
}

static void put(int fd, const unsigned char *bytes, int n) {
    if (n > 0 && write(fd, bytes, n) != n) exit(0);
}

static void sleep_for(int milliseconds) {
    usleep(milliseconds * 1000);
}

/* The CRC of a frame's bytes, behind them, the low byte first. */
static void seal(unsigned char *frame, int n) {
    unsigned crc = 0xFFFF;
    for (int i = 0; i < n; i++) {
        crc ^= frame[i];
        for (int bit = 0; bit < 8; bit++) crc = crc & 1 ? crc >> 1 ^ 0xA001 : crc >> 1;
    }
    frame[n] = crc & 0xFF;
    frame[n + 1] = crc >> 8;
}

static void treat(int fd, struct treatment t, unsigned char *reply, int n) {
    if (!strcmp(t.what, "drop")) return;
    if (!strcmp(t.what, "delay")) sleep_for(t.a);
    if (!strcmp(t.what, "damage") && t.a < n) reply[t.a] ^= t.b;
    if (!strcmp(t.what, "forge") && t.a + 2 < n) {
        reply[t.a] ^= t.b;
        seal(reply, n - 2);
    }
    if (!strcmp(t.what, "cut") && t.a < n) n = t.a;
    if (!strcmp(t.what, "append") && n + t.a <= ROOM) {
        memset(reply + n, 0x55, t.a);
        n += t.a;
    }
    if (!strcmp(t.what, "twice") && 2 * n <= ROOM) {
        memcpy(reply + n, reply, n);
        n *= 2;
    }
    put(fd, reply, n);
    if (!strcmp(t.what, "repeat")) {
        sleep_for(t.a);
        put(fd, reply, n);
    }
}

int main(int count, char **words) {
    unsigned char request[ROOM], reply[ROOM];
    if (count != 5) {
        fprintf(stderr, "peer LINE METER SCHEDULE REQUESTS\n");
        return 1;
    }
    int line = open(words[1], O_RDWR | O_NOCTTY);
    if (line < 0) die(words[1]);
    int meter = open(words[2], O_RDWR | O_NOCTTY);
    if (meter < 0) die(words[2]);
    read_schedule(words[3]);
    FILE *requests = fopen(words[4], "w");
    if (!requests) die(words[4]);
    for (int number = 1;; number++) {
        int n = gather(line, request, 0);
        for (int i = 0; i < n; i++) fprintf(requests, "%02x", request[i]);
        fprintf(requests, "\n");
        fflush(requests);
        put(meter, request, n);
        n = gather(meter, reply, 1);
        struct treatment t = {"", 0, 0};
        if (number <= MOST_REQUESTS) t = schedule[number];
        treat(line, t, reply, n);
    }
}
