// A library to be loaded before a program's own (LD_PRELOAD): it notes what the program's fsync and fdatasync bring to disk. Of a file NAME how many bytes, in
// NAME.synced; of a folder which names it has, in its file folder.synced. What NOTES_SKIP names, `fsync` or `fdatasync`, does nothing, and is not noted.
#define _GNU_SOURCE
#include <dirent.h>
#include <dlfcn.h>
#include <fcntl.h>
#include <stdio.h>
#include <stdlib.h>
#include <string.h>
#include <sys/stat.h>
#include <unistd.h>

static void note_size(const char *path, long long size) {
    char name[4400], own[4500];
    snprintf(name, sizeof name, "%s.synced", path);
    snprintf(own, sizeof own, "%s.%d", name, getpid());
    FILE *file = fopen(own, "w");
    if (!file) return;
    fprintf(file, "%lld\n", size);
    fclose(file);
    rename(own, name);
}

// The names of a folder, a line each.
static void names_of(const char *path, char *names, size_t room) {
    DIR *folder = opendir(path);
    struct dirent *entry;
    size_t size = 0;
    while (folder && (entry = readdir(folder))) {
        size_t more = strlen(entry->d_name) + 1;
        if (size + more >= room) continue;
        memcpy(names + size, entry->d_name, more - 1);
        names[size + more - 1] = '\n';
        size += more;
    }
    names[size] = 0;
    if (folder) closedir(folder);
}

static void note_names(const char *path, const char *names) {
    char name[4400];
    snprintf(name, sizeof name, "%s/folder.synced", path);
    int file = open(name, O_WRONLY | O_CREAT | O_APPEND, 0666);
    if (file < 0) return;
    if (write(file, names, strlen(names)) < 0) {}
    close(file);
}

// What is there before the call is on disk behind it.
static int synced(int file, const char *call) {
    int (*next)(int) = dlsym(RTLD_NEXT, call);
    const char *skipped = getenv("NOTES_SKIP");
    struct stat is;
    char link[64], path[4096], names[65536] = "";
    if (skipped && strcmp(skipped, call) == 0) return 0;
    snprintf(link, sizeof link, "/proc/self/fd/%d", file);
    ssize_t size = readlink(link, path, sizeof path - 1);
    if (size < 0 || fstat(file, &is) != 0) return next(file);
    path[size] = 0;
    if (S_ISDIR(is.st_mode)) names_of(path, names, sizeof names);
    if (next(file) != 0) return -1;
    if (S_ISDIR(is.st_mode)) note_names(path, names);
    if (S_ISREG(is.st_mode)) note_size(path, is.st_size);
    return 0;
}

int fsync(int file) { return synced(file, "fsync"); }
int fdatasync(int file) { return synced(file, "fdatasync"); }
