/* The exchanges of transfers between registries, in C and by SQLite's C library.

   transfers FOLDER REGISTRIES COUNT one|together makes COUNT transfers among REGISTRIES registries and the log. The
   nodes are threads of this process, like those of kyoto-link run: for each node one thread commits, four serve
   connections, and one sends to each peer. Each message is a JSON line over a connection of its own, and is recorded in
   the receiver's store and committed before it is acknowledged. Each acknowledgement is recorded, without waiting for
   its commit. A node commits at most 64 records in one transaction. The checks of a node are left out: it only
   determines which message of a transfer it received. Transfers go from each registry in turn to the next one: one after
   another, each completed before the next one is proposed, or together, all proposed and then awaited.

   The program prints the microseconds of all transfers and the number of commits. The exit status is 1 if a call fails,
   and 2 if the words are wrong. */

#define _GNU_SOURCE

#include <arpa/inet.h>
#include <netinet/in.h>
#include <netinet/tcp.h>
#include <pthread.h>
#include <sqlite3.h>
#include <stdbool.h>
#include <stdio.h>
#include <stdlib.h>
#include <string.h>
#include <sys/socket.h>
#include <time.h>
#include <unistd.h>

enum { SESSIONS = 4, BATCH = 64, MOST_REGISTRIES = 32, LONGEST = 8192 };

/* The messages of a transfer, in their order. */
enum step { PROPOSED, CHECKED, ACCEPTED, ACCEPTED_ON, COMPLETED, COMPLETED_ON };

static const char *const STATUS[] = {"Proposed", "Checked", "Accepted", "Accepted", "Completed", "Completed"};
static const char RECEIVED[] = "{\"code\":0,\"result\":\"received\"}\n";

struct message {
    enum step step;
    long transfer;
    /* The number of the node's records up to the one that sends the message. */
    long records;
};

/* A peer, the messages to it, and the condition that wakes the thread that sends them. */
struct peer {
    struct node *from, *to;
    struct message *messages;
    long count;
    pthread_cond_t due;
};

struct node {
    char name[4];
    pthread_mutex_t lock;
    pthread_cond_t work, committed, ended;
    char **bodies;
    long taken, wanted, stored, commits;
    struct peer *peers;
    int peer_count, listener;
    struct sockaddr_in address;
    sqlite3 *db;
    /* Whether each transfer is completed at this node. */
    bool *done;
};

static struct node nodes[MOST_REGISTRIES + 1];
static int registries;
static long count;

static void stop(const char *call)
{
    perror(call);
    exit(1);
}

static void stop_store(struct node *node)
{
    fprintf(stderr, "transfers: %s: %s\n", node->name, sqlite3_errmsg(node->db));
    exit(1);
}

static void *room(size_t size)
{
    void *made = calloc(1, size);
    if (made == NULL)
        stop("calloc");
    return made;
}

static long long microseconds(void)
{
    struct timespec now;
    if (clock_gettime(CLOCK_MONOTONIC, &now) != 0)
        stop("clock_gettime");
    return (long long)now.tv_sec * 1000000 + now.tv_nsec / 1000;
}

static struct node *sender_of(long transfer)
{
    return &nodes[1 + transfer % registries];
}

static struct node *receiver_of(long transfer)
{
    return &nodes[1 + (transfer + 1) % registries];
}

/* ---- records */

/* Adds a record to the node, which is locked. */
static void take(struct node *node, const char *body)
{
    node->bodies[node->taken] = strdup(body);
    if (node->bodies[node->taken] == NULL)
        stop("strdup");
    node->taken++;
}

/* Waits until all records of the node, which is locked, are committed. */
static void await_commit(struct node *node)
{
    long records = node->taken;
    if (node->wanted < records)
        node->wanted = records;
    pthread_cond_signal(&node->work);
    while (node->stored < records)
        pthread_cond_wait(&node->committed, &node->lock);
}

/* Adds a message, which is sent after all present records are committed. The node is locked. */
static void add(struct node *node, struct node *to, enum step step, long transfer)
{
    struct peer *peer = node->peers;
    while (peer->to != to)
        peer++;
    peer->messages[peer->count++] = (struct message){step, transfer, node->taken};
}

/* Carries out the effects of a message that is recorded. The node is locked. */
static void go_on(struct node *node, enum step step, long transfer)
{
    switch (step) {
    case PROPOSED:
        add(node, receiver_of(transfer), CHECKED, transfer);
        break;
    case CHECKED:
        add(node, &nodes[0], ACCEPTED, transfer);
        break;
    case ACCEPTED:
        add(node, sender_of(transfer), ACCEPTED_ON, transfer);
        break;
    case ACCEPTED_ON:
        add(node, &nodes[0], COMPLETED, transfer);
        break;
    case COMPLETED:
        add(node, receiver_of(transfer), COMPLETED_ON, transfer);
        break;
    case COMPLETED_ON:
        node->done[transfer] = true;
        break;
    }
}

static void run(struct node *node, const char *sql)
{
    if (sqlite3_exec(node->db, sql, NULL, NULL, NULL) != SQLITE_OK)
        stop_store(node);
}

static sqlite3_stmt *prepared(struct node *node, const char *sql)
{
    sqlite3_stmt *statement;
    if (sqlite3_prepare_v2(node->db, sql, -1, &statement, NULL) != SQLITE_OK)
        stop_store(node);
    return statement;
}

static void step_once(struct node *node, sqlite3_stmt *statement)
{
    if (sqlite3_step(statement) != SQLITE_DONE || sqlite3_reset(statement) != SQLITE_OK)
        stop_store(node);
}

/* Commits the records from the place `first` up to `end`. */
static void store(struct node *node, sqlite3_stmt *const statements[3], long first, long end)
{
    step_once(node, statements[0]);
    for (long place = first; place < end; place++) {
        if (sqlite3_bind_int64(statements[1], 1, place) != SQLITE_OK
            || sqlite3_bind_text(statements[1], 2, node->bodies[place], -1, SQLITE_STATIC) != SQLITE_OK)
            stop_store(node);
        step_once(node, statements[1]);
    }
    step_once(node, statements[2]);
    node->commits++;
}

static void *commit_all(void *given)
{
    struct node *node = given;
    sqlite3_stmt *const statements[] = {prepared(node, "BEGIN"),
        prepared(node, "INSERT INTO entries (place, body) VALUES (?1, ?2)"), prepared(node, "COMMIT")};
    pthread_mutex_lock(&node->lock);
    for (;;) {
        while (node->wanted <= node->stored)
            pthread_cond_wait(&node->work, &node->lock);
        long first = node->stored;
        long end = node->taken - first > BATCH ? first + BATCH : node->taken;
        pthread_mutex_unlock(&node->lock);
        store(node, statements, first, end);
        pthread_mutex_lock(&node->lock);
        node->stored = end;
        pthread_cond_broadcast(&node->committed);
        pthread_cond_broadcast(&node->ended);
        for (int at = 0; at < node->peer_count; at++) {
            struct peer *peer = &node->peers[at];
            if (peer->count > 0 && peer->messages[peer->count - 1].records > first)
                pthread_cond_signal(&peer->due);
        }
    }
    return NULL;
}

/* ---- lines */

static int text_of(char *line, const struct node *from, const struct node *to, enum step step, long transfer)
{
    const char *first = sender_of(transfer)->name;
    int length = step <= CHECKED
        ? snprintf(line, LONGEST, "{\"account\":1,\"call\":\"AcceptProposal\",\"from\":\"%s\",\"status\":\"%s\",\"to\":\"%s\","
            "\"to_account\":7,\"to_registry\":\"%s\",\"transaction\":\"%s%ld\",\"units\":[\"%s:1:%ld-%ld:AAU\"]}", from->name,
            STATUS[step], to->name, receiver_of(transfer)->name, first, transfer, first, transfer + 1, transfer + 1)
        : snprintf(line, LONGEST, "{\"call\":\"AcceptNotification\",\"codes\":[],\"from\":\"%s\",\"status\":\"%s\",\"to\":\"%s\","
            "\"transaction\":\"%s%ld\"}", from->name, STATUS[step], to->name, first, transfer);
    if (length < 0 || length >= LONGEST)
        stop("snprintf");
    return length;
}

/* Returns the message of a transfer that a line is, which the node received. */
static enum step step_of(const struct node *node, const char *line)
{
    bool is_log = node == &nodes[0];
    const char *status = strstr(line, "\"status\":\"");
    if (status == NULL)
        stop("a line without a status");
    switch (status[10]) {
    case 'P':
        return PROPOSED;
    case 'A':
        return is_log ? ACCEPTED : ACCEPTED_ON;
    default:
        return status[11] == 'h' ? CHECKED : is_log ? COMPLETED : COMPLETED_ON;
    }
}

static long transfer_of(const char *line)
{
    const char *found = strstr(line, "\"transaction\":\"");
    if (found == NULL)
        stop("a line without a transaction");
    return strtol(found + 17, NULL, 10);
}

static void write_all(int connection, const char *text, size_t length)
{
    if (send(connection, text, length, MSG_NOSIGNAL) != (ssize_t)length)
        stop("send");
}

/* Reads a line, and replaces its newline by an end. Returns false if the connection has ended. */
static bool read_line(int connection, char *line)
{
    size_t length = 0;
    while (length == 0 || line[length - 1] != '\n') {
        ssize_t got = recv(connection, line + length, LONGEST - 1 - length, 0);
        if (got < 0 || length + (size_t)got >= LONGEST - 1)
            stop("recv");
        if (got == 0)
            return false;
        length += (size_t)got;
    }
    line[length - 1] = '\0';
    return true;
}

/* ---- connections */

static void without_delay(int connection)
{
    int on = 1;
    if (setsockopt(connection, IPPROTO_TCP, TCP_NODELAY, &on, sizeof on) != 0)
        stop("setsockopt");
}

static void receive(struct node *node, const char *line)
{
    char body[LONGEST + 100];
    snprintf(body, sizeof body, "{\"input\":\"received\",\"message\":%s,\"moment\":1335830400,\"v\":2}", line);
    pthread_mutex_lock(&node->lock);
    take(node, body);
    go_on(node, step_of(node, line), transfer_of(line));
    await_commit(node);
    pthread_mutex_unlock(&node->lock);
}

static void *serve_all(void *given)
{
    struct node *node = given;
    char line[LONGEST];
    for (;;) {
        int connection = accept(node->listener, NULL, NULL);
        if (connection < 0)
            stop("accept");
        without_delay(connection);
        while (read_line(connection, line)) {
            receive(node, line);
            write_all(connection, RECEIVED, sizeof RECEIVED - 1);
        }
        close(connection);
    }
    return NULL;
}

/* Sends a message over a connection of its own, and reads its reply. */
static void deliver(const struct peer *peer, const struct message *message)
{
    char line[LONGEST];
    int length = text_of(line, peer->from, peer->to, message->step, message->transfer);
    line[length++] = '\n';
    int connection = socket(AF_INET, SOCK_STREAM, 0);
    if (connection < 0 || connect(connection, (const struct sockaddr *)&peer->to->address, sizeof peer->to->address) != 0)
        stop("connect");
    without_delay(connection);
    write_all(connection, line, (size_t)length);
    if (!read_line(connection, line) || strncmp(line, RECEIVED, sizeof RECEIVED - 2) != 0)
        stop("a reply");
    close(connection);
}

static void *send_all(void *given)
{
    struct peer *peer = given;
    struct node *node = peer->from;
    char body[100];
    pthread_mutex_lock(&node->lock);
    for (long sent = 0;;) {
        while (sent == peer->count || peer->messages[sent].records > node->stored)
            pthread_cond_wait(&peer->due, &node->lock);
        struct message message = peer->messages[sent++];
        pthread_mutex_unlock(&node->lock);
        deliver(peer, &message);
        snprintf(body, sizeof body, "{\"input\":\"ack\",\"key\":%ld,\"v\":2}", sent);
        pthread_mutex_lock(&node->lock);
        take(node, body);
    }
    return NULL;
}

/* ---- nodes */

static void start(void *(*work)(void *), void *given)
{
    pthread_t thread;
    if (pthread_create(&thread, NULL, work, given) != 0)
        stop("pthread_create");
}

static void open_store(struct node *node, const char *folder)
{
    char path[4096];
    snprintf(path, sizeof path, "%s/%s.db", folder, node->name);
    if (sqlite3_open(path, &node->db) != SQLITE_OK)
        stop_store(node);
    run(node, "PRAGMA locking_mode = EXCLUSIVE");
    run(node, "PRAGMA journal_mode = WAL");
    run(node, "PRAGMA synchronous = FULL");
    run(node, "CREATE TABLE entries (place INTEGER PRIMARY KEY, body TEXT NOT NULL) STRICT");
}

static void open_listener(struct node *node)
{
    socklen_t size = sizeof node->address;
    node->address = (struct sockaddr_in){.sin_family = AF_INET, .sin_addr = {htonl(INADDR_LOOPBACK)}};
    node->listener = socket(AF_INET, SOCK_STREAM, 0);
    if (node->listener < 0 || bind(node->listener, (struct sockaddr *)&node->address, size) != 0
        || listen(node->listener, 128) != 0 || getsockname(node->listener, (struct sockaddr *)&node->address, &size) != 0)
        stop("listen");
}

static void add_peer(struct node *node, struct node *to)
{
    struct peer *peer = &node->peers[node->peer_count++];
    peer->from = node;
    peer->to = to;
    peer->messages = room((size_t)(3 * count + 1) * sizeof *peer->messages);
    pthread_cond_init(&peer->due, NULL);
}

/* Opens the log, which has the place 0, or a registry. */
static void open_node(int at, const char *folder)
{
    struct node *node = &nodes[at];
    snprintf(node->name, sizeof node->name, at == 0 ? "ITL" : "%c%c", 'A' + (at - 1) / 26, 'A' + (at - 1) % 26);
    pthread_mutex_init(&node->lock, NULL);
    pthread_cond_init(&node->work, NULL);
    pthread_cond_init(&node->committed, NULL);
    pthread_cond_init(&node->ended, NULL);
    node->bodies = room((size_t)(8 * count + 1) * sizeof *node->bodies);
    node->done = room((size_t)(count + 1) * sizeof *node->done);
    node->peers = room((size_t)registries * sizeof *node->peers);
    if (at == 0)
        for (int registry = 1; registry <= registries; registry++)
            add_peer(node, &nodes[registry]);
    else
        add_peer(node, &nodes[0]);
    open_store(node, folder);
    open_listener(node);
}

static void start_node(struct node *node)
{
    start(commit_all, node);
    for (int session = 0; session < SESSIONS; session++)
        start(serve_all, node);
    for (int at = 0; at < node->peer_count; at++)
        start(send_all, &node->peers[at]);
}

/* ---- transfers */

static void propose(long transfer)
{
    struct node *node = sender_of(transfer);
    char body[300];
    snprintf(body, sizeof body, "{\"account\":1,\"input\":\"propose\",\"to_account\":7,\"to_registry\":\"%s\",\"units\":"
        "[\"%s:1:%ld-%ld:AAU\"],\"v\":2}", receiver_of(transfer)->name, node->name, transfer + 1, transfer + 1);
    pthread_mutex_lock(&node->lock);
    take(node, body);
    add(node, &nodes[0], PROPOSED, transfer);
    await_commit(node);
    pthread_mutex_unlock(&node->lock);
}

static void await_end(long transfer)
{
    struct node *node = receiver_of(transfer);
    pthread_mutex_lock(&node->lock);
    while (!node->done[transfer])
        pthread_cond_wait(&node->ended, &node->lock);
    await_commit(node);
    pthread_mutex_unlock(&node->lock);
}

static void transfer_all(bool together)
{
    for (long transfer = 0; transfer < count; transfer++) {
        propose(transfer);
        if (!together)
            await_end(transfer);
    }
    for (long transfer = 0; together && transfer < count; transfer++)
        await_end(transfer);
}

/* Returns the number that a word writes, from the least to the most. */
static long number(const char *word, long least, long most)
{
    char *end;
    long value = strtol(word, &end, 10);
    if (end == word || *end != '\0' || value < least || value > most) {
        fprintf(stderr, "transfers: %s is not a number from %ld to %ld\n", word, least, most);
        exit(2);
    }
    return value;
}

int main(int words, char **word)
{
    if (words != 5 || (strcmp(word[4], "one") != 0 && strcmp(word[4], "together") != 0)) {
        fprintf(stderr, "transfers: four words are expected: FOLDER REGISTRIES COUNT one|together\n");
        return 2;
    }
    registries = (int)number(word[2], 2, MOST_REGISTRIES);
    count = number(word[3], 0, 100000);
    for (int at = 0; at <= registries; at++)
        open_node(at, word[1]);
    for (int at = 0; at <= registries; at++)
        start_node(&nodes[at]);
    long long begin = microseconds();
    transfer_all(strcmp(word[4], "together") == 0);
    long long end = microseconds();
    long commits = 0;
    for (int at = 0; at <= registries; at++)
        commits += nodes[at].commits;
    printf("%lld %ld\n", end - begin, commits);
    return fflush(stdout) == 0 ? 0 : 1;
}
