/* What the journal does for each append, without the journal: COUNT times 209 bytes are written behind the
   gate and synced, and the gate is opened and synced. Prints the appends a second.
   usage: journal_peer FILE COUNT */
#include <fcntl.h>
#include <stdio.h>
#include <stdlib.h>
#include <string.h>
#include <time.h>
#include <unistd.h>

static double now(void) {
  struct timespec t;
  clock_gettime(CLOCK_MONOTONIC, &t);
  return t.tv_sec + t.tv_nsec / 1e9;
}

static void must(int holds) {
  if (!holds) {
    perror("journal_peer");
    exit(1);
  }
}

int main(int argc, char **argv) {
  if (argc != 3) return fprintf(stderr, "usage: journal_peer FILE COUNT\n"), 2;
  int count = atoi(argv[2]);
  unlink(argv[1]);
  int file = open(argv[1], O_RDWR | O_CREAT, 0644);
  must(file >= 0);
  char block[209]; /* a length, a payload of 200 bytes, and the next gate, which is shut */
  memset(block, 'x', sizeof block);
  block[sizeof block - 1] = 0;
  must(pwrite(file, block, 41, 0) == 41);
  must(!fdatasync(file));
  off_t gate = 40;
  double start = now();
  for (int i = 0; i < count; i++, gate += sizeof block) {
    must(pwrite(file, block, sizeof block, gate + 1) == sizeof block);
    must(!fdatasync(file));
    must(pwrite(file, "\1", 1, gate) == 1);
    must(!fdatasync(file));
  }
  printf("%.0f\n", count / (now() - start));
  close(file);
  unlink(argv[1]);
  return 0;
}
