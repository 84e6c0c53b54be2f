class P { int n; P next; }
@ThreadSafe class Deep {
  P p;
  void m(boolean b) {
  P x0 = p; while (b) { x0.n = 1;
  P x1 = p; while (b) { x1.n = 1;
  P x2 = p; while (b) { x2.n = 1;
  P x3 = p; while (b) { x3.n = 1;
  P x4 = p; while (b) { x4.n = 1;
  P x5 = p; while (b) { x5.n = 1;
  P x6 = p; while (b) { x6.n = 1;
  P x7 = p; while (b) { x7.n = 1;
  P x8 = p; while (b) { x8.n = 1;
  P x9 = p; while (b) { x9.n = 1;
  P x10 = p; while (b) { x10.n = 1;
  P x11 = p; while (b) { x11.n = 1;
  P x12 = p; while (b) { x12.n = 1;
  P x13 = p; while (b) { x13.n = 1;
  P x14 = p; while (b) { x14.n = 1;
  P x15 = p; while (b) { x15.n = 1;
  P x16 = p; while (b) { x16.n = 1;
  P x17 = p; while (b) { x17.n = 1;
  P x18 = p; while (b) { x18.n = 1;
  P x19 = p; while (b) { x19.n = 1;
  P x20 = p; while (b) { x20.n = 1;
  P x21 = p; while (b) { x21.n = 1;
  P x22 = p; while (b) { x22.n = 1;
  P x23 = p; while (b) { x23.n = 1;
  P x24 = p; while (b) { x24.n = 1;
  P x25 = p; while (b) { x25.n = 1;
  P x26 = p; while (b) { x26.n = 1;
  P x27 = p; while (b) { x27.n = 1;
  P x28 = p; while (b) { x28.n = 1;
  P x29 = p; while (b) { x29.n = 1;
  P x30 = p; while (b) { x30.n = 1;
  P x31 = p; while (b) { x31.n = 1;
  P x32 = p; while (b) { x32.n = 1;
  P x33 = p; while (b) { x33.n = 1;
  P x34 = p; while (b) { x34.n = 1;
  P x35 = p; while (b) { x35.n = 1;
  P x36 = p; while (b) { x36.n = 1;
  P x37 = p; while (b) { x37.n = 1;
  P x38 = p; while (b) { x38.n = 1;
  P x39 = p; while (b) { x39.n = 1;
  P x40 = p; while (b) { x40.n = 1;
  P x41 = p; while (b) { x41.n = 1;
  P x42 = p; while (b) { x42.n = 1;
  P x43 = p; while (b) { x43.n = 1;
  P x44 = p; while (b) { x44.n = 1;
  P x45 = p; while (b) { x45.n = 1;
  P x46 = p; while (b) { x46.n = 1;
  P x47 = p; while (b) { x47.n = 1;
  P x48 = p; while (b) { x48.n = 1;
  P x49 = p; while (b) { x49.n = 1;
  P x50 = p; while (b) { x50.n = 1;
  P x51 = p; while (b) { x51.n = 1;
  P x52 = p; while (b) { x52.n = 1;
  P x53 = p; while (b) { x53.n = 1;
  P x54 = p; while (b) { x54.n = 1;
  P x55 = p; while (b) { x55.n = 1;
  P x56 = p; while (b) { x56.n = 1;
  P x57 = p; while (b) { x57.n = 1;
  P x58 = p; while (b) { x58.n = 1;
  P x59 = p; while (b) { x59.n = 1;
  P x60 = p; while (b) { x60.n = 1;
  P x61 = p; while (b) { x61.n = 1;
  P x62 = p; while (b) { x62.n = 1;
  P x63 = p; while (b) { x63.n = 1;
  P x64 = p; while (b) { x64.n = 1;
  P x65 = p; while (b) { x65.n = 1;
  P x66 = p; while (b) { x66.n = 1;
  P x67 = p; while (b) { x67.n = 1;
  P x68 = p; while (b) { x68.n = 1;
  P x69 = p; while (b) { x69.n = 1;
  P x70 = p; while (b) { x70.n = 1;
  P x71 = p; while (b) { x71.n = 1;
  P x72 = p; while (b) { x72.n = 1;
  P x73 = p; while (b) { x73.n = 1;
  P x74 = p; while (b) { x74.n = 1;
  P x75 = p; while (b) { x75.n = 1;
  P x76 = p; while (b) { x76.n = 1;
  P x77 = p; while (b) { x77.n = 1;
  P x78 = p; while (b) { x78.n = 1;
  P x79 = p; while (b) { x79.n = 1;
  P x80 = p; while (b) { x80.n = 1;
  P x81 = p; while (b) { x81.n = 1;
  P x82 = p; while (b) { x82.n = 1;
  P x83 = p; while (b) { x83.n = 1;
  P x84 = p; while (b) { x84.n = 1;
  P x85 = p; while (b) { x85.n = 1;
  P x86 = p; while (b) { x86.n = 1;
  P x87 = p; while (b) { x87.n = 1;
  P x88 = p; while (b) { x88.n = 1;
  P x89 = p; while (b) { x89.n = 1;
  x89 = x89.next; }
  x88 = x89; }
  x87 = x88; }
  x86 = x87; }
  x85 = x86; }
  x84 = x85; }
  x83 = x84; }
  x82 = x83; }
  x81 = x82; }
  x80 = x81; }
  x79 = x80; }
  x78 = x79; }
  x77 = x78; }
  x76 = x77; }
  x75 = x76; }
  x74 = x75; }
  x73 = x74; }
  x72 = x73; }
  x71 = x72; }
  x70 = x71; }
  x69 = x70; }
  x68 = x69; }
  x67 = x68; }
  x66 = x67; }
  x65 = x66; }
  x64 = x65; }
  x63 = x64; }
  x62 = x63; }
  x61 = x62; }
  x60 = x61; }
  x59 = x60; }
  x58 = x59; }
  x57 = x58; }
  x56 = x57; }
  x55 = x56; }
  x54 = x55; }
  x53 = x54; }
  x52 = x53; }
  x51 = x52; }
  x50 = x51; }
  x49 = x50; }
  x48 = x49; }
  x47 = x48; }
  x46 = x47; }
  x45 = x46; }
  x44 = x45; }
  x43 = x44; }
  x42 = x43; }
  x41 = x42; }
  x40 = x41; }
  x39 = x40; }
  x38 = x39; }
  x37 = x38; }
  x36 = x37; }
  x35 = x36; }
  x34 = x35; }
  x33 = x34; }
  x32 = x33; }
  x31 = x32; }
  x30 = x31; }
  x29 = x30; }
  x28 = x29; }
  x27 = x28; }
  x26 = x27; }
  x25 = x26; }
  x24 = x25; }
  x23 = x24; }
  x22 = x23; }
  x21 = x22; }
  x20 = x21; }
  x19 = x20; }
  x18 = x19; }
  x17 = x18; }
  x16 = x17; }
  x15 = x16; }
  x14 = x15; }
  x13 = x14; }
  x12 = x13; }
  x11 = x12; }
  x10 = x11; }
  x9 = x10; }
  x8 = x9; }
  x7 = x8; }
  x6 = x7; }
  x5 = x6; }
  x4 = x5; }
  x3 = x4; }
  x2 = x3; }
  x1 = x2; }
  x0 = x1; }
  }
}
@ThreadSafe class Lost {
  P p;
  void m(boolean b) {
  P y = p;
  P x0 = y; while (b) {
  P x1 = y; while (b) {
  P x2 = y; while (b) {
  P x3 = y; while (b) {
  P x4 = y; while (b) {
  P x5 = y; while (b) {
  P x6 = y; while (b) {
  P x7 = y; while (b) {
  P x8 = y; while (b) {
  P x9 = y; while (b) {
  P x10 = y; while (b) {
  P x11 = y; while (b) {
  P x12 = y; while (b) {
  P x13 = y; while (b) {
  P x14 = y; while (b) {
  P x15 = y; while (b) {
  P x16 = y; while (b) {
  P x17 = y; while (b) {
  P x18 = y; while (b) {
  P x19 = y; while (b) {
  P x20 = y; while (b) {
  P x21 = y; while (b) {
  P x22 = y; while (b) {
  P x23 = y; while (b) {
  P x24 = y; while (b) {
  P x25 = y; while (b) {
  P x26 = y; while (b) {
  P x27 = y; while (b) {
  P x28 = y; while (b) {
  P x29 = y; while (b) {
  P x30 = y; while (b) {
  P x31 = y; while (b) {
  P x32 = y; while (b) {
  P x33 = y; while (b) {
  P x34 = y; while (b) {
  P x35 = y; while (b) {
  P x36 = y; while (b) {
  P x37 = y; while (b) {
  P x38 = y; while (b) {
  P x39 = y; while (b) {
  P x40 = y; while (b) {
  P x41 = y; while (b) {
  P x42 = y; while (b) {
  P x43 = y; while (b) {
  P x44 = y; while (b) {
  P x45 = y; while (b) {
  P x46 = y; while (b) {
  P x47 = y; while (b) {
  P x48 = y; while (b) {
  P x49 = y; while (b) {
  P x50 = y; while (b) {
  P x51 = y; while (b) {
  P x52 = y; while (b) {
  P x53 = y; while (b) {
  P x54 = y; while (b) {
  P x55 = y; while (b) {
  P x56 = y; while (b) {
  P x57 = y; while (b) {
  P x58 = y; while (b) {
  P x59 = y; while (b) {
  P x60 = y; while (b) {
  P x61 = y; while (b) {
  P x62 = y; while (b) {
  P x63 = y; while (b) {
  P x64 = y; while (b) {
  P x65 = y; while (b) {
  P x66 = y; while (b) {
  P x67 = y; while (b) {
  P x68 = y; while (b) {
  P x69 = y; while (b) {
  P x70 = y; while (b) {
  P x71 = y; while (b) {
  P x72 = y; while (b) {
  P x73 = y; while (b) {
  P x74 = y; while (b) {
  P x75 = y; while (b) {
  P x76 = y; while (b) {
  P x77 = y; while (b) {
  P x78 = y; while (b) {
  P x79 = y; while (b) {
  P x80 = y; while (b) {
  P x81 = y; while (b) {
  P x82 = y; while (b) {
  P x83 = y; while (b) {
  P x84 = y; while (b) {
  P x85 = y; while (b) {
  P x86 = y; while (b) {
  P x87 = y; while (b) {
  P x88 = y; while (b) {
  P x89 = y; while (b) {
  y.n = 1;
  x89 = x88; }
  x88 = x87; }
  x87 = x86; }
  x86 = x85; }
  x85 = x84; }
  x84 = x83; }
  x83 = x82; }
  x82 = x81; }
  x81 = x80; }
  x80 = x79; }
  x79 = x78; }
  x78 = x77; }
  x77 = x76; }
  x76 = x75; }
  x75 = x74; }
  x74 = x73; }
  x73 = x72; }
  x72 = x71; }
  x71 = x70; }
  x70 = x69; }
  x69 = x68; }
  x68 = x67; }
  x67 = x66; }
  x66 = x65; }
  x65 = x64; }
  x64 = x63; }
  x63 = x62; }
  x62 = x61; }
  x61 = x60; }
  x60 = x59; }
  x59 = x58; }
  x58 = x57; }
  x57 = x56; }
  x56 = x55; }
  x55 = x54; }
  x54 = x53; }
  x53 = x52; }
  x52 = x51; }
  x51 = x50; }
  x50 = x49; }
  x49 = x48; }
  x48 = x47; }
  x47 = x46; }
  x46 = x45; }
  x45 = x44; }
  x44 = x43; }
  x43 = x42; }
  x42 = x41; }
  x41 = x40; }
  x40 = x39; }
  x39 = x38; }
  x38 = x37; }
  x37 = x36; }
  x36 = x35; }
  x35 = x34; }
  x34 = x33; }
  x33 = x32; }
  x32 = x31; }
  x31 = x30; }
  x30 = x29; }
  x29 = x28; }
  x28 = x27; }
  x27 = x26; }
  x26 = x25; }
  x25 = x24; }
  x24 = x23; }
  x23 = x22; }
  x22 = x21; }
  x21 = x20; }
  x20 = x19; }
  x19 = x18; }
  x18 = x17; }
  x17 = x16; }
  x16 = x15; }
  x15 = x14; }
  x14 = x13; }
  x13 = x12; }
  x12 = x11; }
  x11 = x10; }
  x10 = x9; }
  x9 = x8; }
  x8 = x7; }
  x7 = x6; }
  x6 = x5; }
  x5 = x4; }
  x4 = x3; }
  x3 = x2; }
  x2 = x1; }
  x1 = x0; }
  y = x0; x0 = null; }
  }
}
