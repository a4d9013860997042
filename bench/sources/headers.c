/* Types of the system's headers, and some functions that use a few of them. */
#include <dirent.h>
#include <errno.h>
#include <fcntl.h>
#include <locale.h>
#include <math.h>
#include <netdb.h>
#include <netinet/in.h>
#include <pthread.h>
#include <pwd.h>
#include <signal.h>
#include <stdio.h>
#include <stdlib.h>
#include <string.h>
#include <sys/socket.h>
#include <sys/stat.h>
#include <termios.h>
#include <time.h>
#include <unistd.h>

struct found { struct stat status; struct tm when; char name[64]; struct found *next; };

static int newer(const void *a, const void *b)
{
    const struct found *const *one = a, *const *two = b;
    double apart = difftime((*one)->status.st_mtime, (*two)->status.st_mtime);
    return apart < 0 ? 1 : apart > 0 ? -1 : strcmp((*one)->name, (*two)->name);
}

struct found *listed(const char *folder, size_t *count)
{
    DIR *opened = opendir(folder);
    struct found *first = NULL;
    for (struct dirent *entry; opened && (entry = readdir(opened));) {
        struct found *next = calloc(1, sizeof *next);
        if (!next || fstatat(dirfd(opened), entry->d_name, &next->status, 0)) {
            free(next);
            continue;
        }
        gmtime_r(&next->status.st_mtime, &next->when);
        snprintf(next->name, sizeof next->name, "%s", entry->d_name);
        next->next = first;
        first = next;
        ++*count;
    }
    if (opened)
        closedir(opened);
    return first;
}

void shown(struct found **all, size_t count, FILE *out)
{
    qsort(all, count, sizeof *all, newer);
    for (size_t i = 0; i < count; i++) {
        struct passwd *owner = getpwuid(all[i]->status.st_uid);
        fprintf(out, "%04d %8ld %-8s %s\n", all[i]->when.tm_year + 1900, (long)all[i]->status.st_size, owner ? owner->pw_name : "?", all[i]->name);
    }
}

int reached(const char *host, const char *service)
{
    struct addrinfo wanted = { .ai_socktype = SOCK_STREAM }, *addresses = NULL;
    int opened = -1;
    if (getaddrinfo(host, service, &wanted, &addresses))
        return -errno;
    for (struct addrinfo *a = addresses; a && opened < 0; a = a->ai_next) {
        opened = socket(a->ai_family, a->ai_socktype, a->ai_protocol);
        if (opened >= 0 && connect(opened, a->ai_addr, a->ai_addrlen)) {
            close(opened);
            opened = -1;
        }
    }
    freeaddrinfo(addresses);
    return opened;
}

static pthread_mutex_t lock = PTHREAD_MUTEX_INITIALIZER;
static volatile sig_atomic_t stopped;
static void stop(int signal) { stopped = signal; }

double waited(double seconds)
{
    struct timespec left = { (time_t)seconds, (long)(fmod(seconds, 1) * 1e9) };
    struct sigaction action = { .sa_handler = stop };
    pthread_mutex_lock(&lock);
    sigaction(SIGINT, &action, NULL);
    while (nanosleep(&left, &left) && errno == EINTR && !stopped)
        ;
    pthread_mutex_unlock(&lock);
    return left.tv_sec + left.tv_nsec / 1e9;
}
