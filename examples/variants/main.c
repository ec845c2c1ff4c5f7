void grow(int *room);

int main(void) {
  int room = 0;
  grow(&room);
  return room != 1;
}
