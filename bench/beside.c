/* Asks two servers by turns, in short slices of time, and prints for each slice how many requests each one answered and
   how long its threads ran. `bench/beside` starts the servers and reads what this prints.

   Usage: beside KIND CONNECTIONS SLICES MILLISECONDS PORT PROCESS PORT PROCESS, with KIND one of state, refused, one and
   eight. A thread has a connection to each server, and asks one thing at a time. Slices come as first, second, second,
   first, so that what changes slowly meets both alike. A line is: server (0 or 1), requests, seconds, seconds of a
   processor that the server took. */
#include <arpa/inet.h>
#include <dirent.h>
#include <inttypes.h>
#include <netinet/tcp.h>
#include <pthread.h>
#include <stdatomic.h>
#include <stdint.h>
#include <stdio.h>
#include <stdlib.h>
#include <string.h>
#include <sys/socket.h>
#include <time.h>
#include <unistd.h>

enum { SERVERS = 2, MOST_CONNECTIONS = 64, ROOM = 1 << 16 };

struct thread {
    pthread_t id;
    int number;
    int streams[SERVERS];
    char answer[ROOM];
};

static const char *kind;
static int server;
static atomic_int is_over;
static atomic_uint_fast64_t answered;
static pthread_barrier_t begin, end;
static struct thread threads[MOST_CONNECTIONS];

static void fail(const char *why) {
    perror(why);
    exit(1);
}

static double seconds(void) {
    struct timespec now;
    clock_gettime(CLOCK_MONOTONIC, &now);
    return (double)now.tv_sec + (double)now.tv_nsec * 1e-9;
}

/* How long a process's threads have run, in seconds. */
static double ran(const char *process) {
    char path[300];
    snprintf(path, sizeof path, "/proc/%s/task", process);
    DIR *tasks = opendir(path);
    if (!tasks) fail(path);
    double sum = 0;
    for (struct dirent *task; (task = readdir(tasks));) {
        if (task->d_name[0] == '.') continue;
        snprintf(path, sizeof path, "/proc/%s/task/%.20s/schedstat", process, task->d_name);
        FILE *file = fopen(path, "r");
        uint64_t nanoseconds = 0;
        if (!file || fscanf(file, "%" SCNu64, &nanoseconds) != 1) fail(path);
        fclose(file);
        sum += (double)nanoseconds * 1e-9;
    }
    closedir(tasks);
    return sum;
}

static int connected(const char *port) {
    struct sockaddr_in address = {.sin_family = AF_INET, .sin_port = htons((uint16_t)atoi(port))};
    address.sin_addr.s_addr = htonl(INADDR_LOOPBACK);
    int stream = socket(AF_INET, SOCK_STREAM, 0), one = 1;
    if (stream < 0 || connect(stream, (struct sockaddr *)&address, sizeof address)) fail("connect");
    setsockopt(stream, IPPROTO_TCP, TCP_NODELAY, &one, sizeof one);
    return stream;
}

/* Sends a message and reads its answer, which is returned as text. */
static const char *ask(struct thread *own, const char *method, const char *service, const char *route, const char *body) {
    char message[512];
    int size = snprintf(message, sizeof message, "%s /v1/services/%s/%s HTTP/1.1\r\nHost: localhost\r\nContent-Length: %zu\r\n\r\n%s",
                        method, service, route, strlen(body), body);
    int stream = own->streams[server];
    if (write(stream, message, (size_t)size) != size) fail("write");
    size_t have = 0;
    for (;;) {
        ssize_t got = read(stream, own->answer + have, sizeof own->answer - 1 - have);
        if (got <= 0) fail("read");
        have += (size_t)got;
        own->answer[have] = 0;
        const char *rest = strstr(own->answer, "\r\n\r\n");
        if (!rest) continue;
        const char *length = strcasestr(own->answer, "content-length:");
        size_t whole = (size_t)(rest + 4 - own->answer) + (length && length < rest ? strtoul(length + 15, NULL, 10) : 0);
        if (whole >= sizeof own->answer) {
            /* What a cut hands out is long: it is read and dropped. */
            while (have < whole) {
                got = read(stream, own->answer, sizeof own->answer - 1 < whole - have ? sizeof own->answer - 1 : whole - have);
                if (got <= 0) fail("read");
                have += (size_t)got;
            }
            return "";
        }
        if (have >= whole) break;
    }
    atomic_fetch_add_explicit(&answered, 1, memory_order_relaxed);
    return own->answer;
}

/* Asks once for what the kind has, and does what is asked for when a journal is full. */
static void ask_once(struct thread *own) {
    if (!strcmp(kind, "state")) {
        ask(own, "GET", "pay1", "state", "");
        return;
    }
    int is_refused = !strcmp(kind, "refused");
    char service[16] = "shut", body[128];
    if (!is_refused) snprintf(service, sizeof service, "pay%d", !strcmp(kind, "eight") ? own->number % 8 + 1 : 1);
    const char *answer = ask(own, "POST", service, "acquire", "");
    const char *ticket = strstr(answer, "\"ticket\":");
    int is_full = strstr(answer, "\"error\":37") != NULL;
    if (ticket) {
        uint64_t number = strtoull(ticket + 9, NULL, 10);
        const char *what = is_refused ? "{\"ticket\":%" PRIu64 "}" : "{\"ticket\":%" PRIu64 ",\"outcome\":{\"status\":200,\"duration_ms\":12}}";
        snprintf(body, sizeof body, what, number);
        answer = ask(own, "POST", service, is_refused ? "release" : "report", body);
        if (is_refused) ask(own, "POST", service, "transition", "{\"state\":\"FORCED_OPEN\"}");
        is_full |= strstr(answer, "\"error\":37") != NULL;
    }
    if (is_full) ask(own, "POST", service, "cut", "");
}

static void *work(void *given) {
    struct thread *own = given;
    for (;;) {
        pthread_barrier_wait(&begin);
        if (server < 0) return NULL;
        while (!atomic_load_explicit(&is_over, memory_order_relaxed)) ask_once(own);
        pthread_barrier_wait(&end);
    }
}

int main(int count, char **words) {
    if (count != 9) return fprintf(stderr, "usage: beside KIND CONNECTIONS SLICES MILLISECONDS PORT PROCESS PORT PROCESS\n"), 2;
    kind = words[1];
    int connections = atoi(words[2]), slices = atoi(words[3]), milliseconds = atoi(words[4]);
    if (connections < 1 || connections > MOST_CONNECTIONS) return fprintf(stderr, "beside: 1 to %d connections\n", MOST_CONNECTIONS), 2;
    pthread_barrier_init(&begin, NULL, (unsigned)connections + 1);
    pthread_barrier_init(&end, NULL, (unsigned)connections + 1);
    for (int i = 0; i < connections; i++) {
        threads[i].number = i;
        for (int each = 0; each < SERVERS; each++) threads[i].streams[each] = connected(words[5 + 2 * each]);
        pthread_create(&threads[i].id, NULL, work, &threads[i]);
    }
    for (int slice = 0; slice < slices; slice++) {
        server = slice % 4 == 1 || slice % 4 == 2;
        const char *process = words[6 + 2 * server];
        atomic_store(&answered, 0);
        atomic_store(&is_over, 0);
        double ran_before = ran(process), began = seconds();
        pthread_barrier_wait(&begin);
        usleep((useconds_t)milliseconds * 1000);
        atomic_store(&is_over, 1);
        pthread_barrier_wait(&end);
        double took = seconds() - began;
        printf("%d %" PRIu64 " %.6f %.6f\n", server, (uint64_t)atomic_load(&answered), took, ran(process) - ran_before);
    }
    server = -1;
    pthread_barrier_wait(&begin);
    for (int i = 0; i < connections; i++) pthread_join(threads[i].id, NULL);
    return 0;
}
