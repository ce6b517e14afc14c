// Where the sectors of a volume lie on the images of a pool of equal drives: a mirror of two, or RAID-5 over more.
#include <fcntl.h>
#include <stdio.h>
#include <stdlib.h>
#include <unistd.h>

#define EXPECT(call) do { if (!(call)) { perror(#call); exit(1); } } while (0)

enum { SECTOR = 512, CHUNK = 128, MEMBER_DATA = 12288, FIRST_EXTENT = 2048 };

static int images[16], count;

struct place {
  int image;
  // the image of the row's parity, or the mirror's other image
  int second;
  // the byte in each of them
  off_t byte;
};

// The layout is md's left-symmetric one.
static struct place place_of(long sector) {
  struct place place;
  long at = FIRST_EXTENT + sector, data = count == 2 ? 1 : count - 1, chunk = at / CHUNK, row = chunk / data;
  place.second = count == 2 ? 1 : count - 1 - row % count;
  place.image = count == 2 ? 0 : (place.second + 1 + chunk % data) % count;
  place.byte = SECTOR * (MEMBER_DATA + row * CHUNK + at % CHUNK);
  return place;
}

static void open_images(int names, char **words) {
  count = names;
  for (int image = 0; image < count; image++) EXPECT((images[image] = open(words[image], O_RDWR)) >= 0);
}

static void sync_images(void) {
  for (int image = 0; image < count; image++) EXPECT(fdatasync(images[image]) == 0);
}
