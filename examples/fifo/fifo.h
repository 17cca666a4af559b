// A synchronous FIFO of 16 bytes.
//
// `put` with `din` stores a byte where the FIFO isn't full; `get` takes the oldest byte, which stands at `dout` after
// the next edge, where it isn't empty. Both may come in one cycle. `rst_n` is a synchronous reset, active low.
//
// It shows: two source files and an include guard, a clocked thread with a reset, an array that becomes registers,
// and flags from a combinational method.
#ifndef FIFO_H
#define FIFO_H
#include <systemc.h>

const int DEPTH = 16;

SC_MODULE(Fifo) {
  sc_in<bool> clk, rst_n;
  sc_in<bool> put, get;
  sc_in<sc_uint<8> > din;
  sc_out<sc_uint<8> > dout;
  sc_out<bool> full, empty;

  void flags();
  void run();

  SC_CTOR(Fifo) {
    SC_METHOD(flags);
    sensitive << count;
    SC_CTHREAD(run, clk.pos());
    reset_signal_is(rst_n, false);
  }

 private:
  sc_signal<sc_uint<5> > count;
  sc_uint<8> memory[DEPTH];
  sc_uint<4> write_index, read_index;
};

#endif
