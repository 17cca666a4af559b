// Arithmetic of 128 bits in one clocked process, for bench/run.py.
#include <systemc.h>

SC_MODULE(Wide) {
  sc_in<bool> clk, rst;
  sc_in<sc_biguint<128> > a, b;
  sc_out<sc_biguint<128> > mixed, product, rest;

  sc_biguint<128> state;

  void run() {
    state = 1;
    mixed.write(0);
    product.write(0);
    rest.write(0);
    wait();
    while (true) {
      sc_biguint<128> x = a.read();
      sc_biguint<128> y = b.read();
      state = (state << 7) ^ (state >> 9) ^ (x + y);
      mixed.write(state ^ (x & y));
      product.write(x * state + y);
      rest.write(x % 1000003 + state / 77);
      wait();
    }
  }

  SC_CTOR(Wide) {
    SC_CTHREAD(run, clk.pos());
    reset_signal_is(rst, true);
  }
};
