/* The station that station.c draws and whose posts post.c and post.rs are: three posts with two check points
   each, and what each row is for. */
enum { N = 3, T = 1, POINTS = 2 };

/* Dealt numbers, two triples of three rows each, and what is opened: rides x rate + 80, and rides x rate - fee, which is
   0 exactly when the fee is right. The product stands in the third row of its triple. */
enum { RIDES = 0, RATE = 1, FEE = 2, TRIPLE = 3, PRODUCT = TRIPLE + 2, OTHER_TRIPLE = 6, CHARGE = 9, SUM = 10 };
enum { FIXED = 80, RAW_ROWS = 3, TRIPLES = 2 };

/* Post 1, at the office, calls for both; the firms' posts may not, by the A lines that stand before the deals. */
enum { CALLER = 1 };
