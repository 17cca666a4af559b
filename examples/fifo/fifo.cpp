// The functions of the FIFO that fifo.h declares.
#include "fifo.h"

void Fifo::flags() {
  full.write(count.read() == DEPTH);
  empty.write(count.read() == 0);
}

void Fifo::run() {
  write_index = 0;
  read_index = 0;
  count.write(0);
  dout.write(0);
  wait();
  while (true) {
    // what `count` reads is the number before this edge, whatever is written to it below
    sc_uint<5> next = count.read();
    if (put.read() && count.read() != DEPTH) {
      memory[write_index] = din.read();
      write_index++;
      next++;
    }
    if (get.read() && count.read() != 0) {
      dout.write(memory[read_index]);
      read_index++;
      next--;
    }
    count.write(next);
    wait();
  }
}
