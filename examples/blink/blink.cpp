// A lamp that changes every five cycles while `enable` is 1. `rst` is a synchronous reset, active high.
//
// It shows: a thread in its usual form. What stands before the first `wait()` is the reset; `wait(5)` becomes a counter.
#include <systemc.h>
SC_MODULE(Blink) {
  sc_in<bool> clk, rst, enable;
  sc_out<bool> led;
  void run() {
    led.write(false);
    wait();
    while (true) {
      if (enable.read()) led.write(!led.read());
      wait(5);
    }
  }
  SC_CTOR(Blink) {
    SC_CTHREAD(run, clk.pos());
    reset_signal_is(rst, true);
  }
};
