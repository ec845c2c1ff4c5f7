#include <assert.h>
#include <stdio.h>

void grow(int *room) {
  int before = *room;
  *room = *room * 2 + 1;
  assert(*room > before);
#ifdef DEBUG
  printf("room for %d\n", *room)
#endif
}
