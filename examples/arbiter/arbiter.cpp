// A round-robin arbiter for four requesters.
//
// Bit i of `grant` is 1 where requester i has the bus in this cycle; at most one bit is 1. The search begins behind
// the requester that was granted last, so each of those that keep requesting gets its turn. `rst` is a synchronous
// reset, active high.
//
// It shows: a combinational method with a loop that is unrolled and is left by `break`, bits under an index, and a
// clocked method.
#include <systemc.h>

SC_MODULE(Arbiter) {
  static const int COUNT = 4;

  sc_in<bool> clk, rst;
  sc_in<sc_uint<4> > request;
  sc_out<sc_uint<4> > grant;
  sc_out<bool> busy;

  sc_signal<sc_uint<2> > last, winner;
  sc_signal<bool> found;

  // looks at the requesters behind the last one in turn, and takes the first that requests
  void choose() {
    sc_uint<4> granted = 0;
    sc_uint<2> candidate = last.read();
    bool any = false;
    for (int i = 0; i < COUNT; i++) {
      candidate++;
      if (request.read()[candidate]) {
        granted[candidate] = 1;
        any = true;
        break;
      }
    }
    grant.write(granted);
    winner.write(candidate);
    found.write(any);
    busy.write(any);
  }

  void remember() {
    if (rst.read())
      last.write(COUNT - 1);
    else if (found.read())
      last.write(winner.read());
  }

  SC_CTOR(Arbiter) {
    SC_METHOD(choose);
    sensitive << request << last;
    SC_METHOD(remember);
    sensitive << clk.pos();
    dont_initialize();
  }
};
