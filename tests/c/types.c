// Stores in variables of each kind of type, for tests of tools/show.
typedef signed char int8;
struct point {
  int x;
  unsigned y;
  double z;
};
enum colour { GREEN, BLUE = -1 };
volatile int first, second;
volatile _Bool ok;
volatile int8 small;
volatile short middle;
volatile double wide;
volatile float narrow;
volatile char letter;
volatile struct point path[2];
volatile long long whole;
volatile unsigned char table[2][3];
volatile int *volatile place;
volatile enum colour colour;
void run(void) {
  static volatile int inside;
  second = 4;
  first = -1;
  ok = 1;
  small = -3;
  middle = -7;
  wide = 1.5;
  narrow = 2.5f;
  letter = 'x';
  path[1].x = -2;
  path[1].y = 4000000000u;
  path[1].z = 0.25;
  whole = -10;
  table[1][2] = 9;
  place = &first;
  colour = BLUE;
  inside = 5;
}
