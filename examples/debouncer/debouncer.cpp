// A debouncer for a button, with an asynchronous reset.
//
// `button` is 0 while it is pressed, as with a pull-up resistor. It comes from outside the clock's domain, so it goes
// through two registers first. `level` follows it when it has not changed for LIMIT cycles; `pressed` and `released`
// are 1 for one cycle then. `rst_n` is an asynchronous reset, active low: it takes effect without an edge of the clock.
//
// It shows: `async_reset_signal_is`, whose reset region may only assign constants, reset values other than 0, and a
// stimulus with steps that have no clock edge.
#include <systemc.h>

const int LIMIT = 5;

SC_MODULE(Debouncer) {
  sc_in<bool> clk, rst_n;
  sc_in<bool> button;
  sc_out<bool> level, pressed, released;

  sc_signal<bool> first, second;
  sc_uint<3> stable;

  void synchronise() {
    first.write(true);
    second.write(true);
    wait();
    while (true) {
      first.write(button.read());
      second.write(first.read());
      wait();
    }
  }

  void debounce() {
    stable = 0;
    level.write(true);
    pressed.write(false);
    released.write(false);
    wait();
    while (true) {
      bool changes = false;
      if (second.read() == level.read()) {
        stable = 0;
      } else {
        stable++;
        changes = stable == LIMIT;
      }
      if (changes) {
        level.write(second.read());
        stable = 0;
      }
      pressed.write(changes && !second.read());
      released.write(changes && second.read());
      wait();
    }
  }

  SC_CTOR(Debouncer) {
    SC_CTHREAD(synchronise, clk.pos());
    async_reset_signal_is(rst_n, false);
    SC_CTHREAD(debounce, clk.pos());
    async_reset_signal_is(rst_n, false);
  }
};
