// A UART transmitter: 8 data bits, no parity, 1 stop bit, least significant bit first.
//
// While `ready` is 1, a cycle with `valid` 1 takes the byte at `data`. The line `tx` is 1 at rest; a frame is a start
// bit 0, the 8 bits and a stop bit 1, each of DIVIDER cycles. `rst` is a synchronous reset, active high.
//
// It shows: a thread whose waits become the states of a machine, `wait(n)`, which becomes a counter, and loops that
// wait.
#include <systemc.h>

// cycles for one bit: 4 keeps the trace short; 868 is 115,200 baud at 100 MHz
const int DIVIDER = 4;

SC_MODULE(UartTx) {
  sc_in<bool> clk, rst;
  sc_in<bool> valid;
  sc_in<sc_uint<8> > data;
  sc_out<bool> ready, tx;

  void transmit() {
    ready.write(false);
    tx.write(true);
    wait();
    while (true) {
      ready.write(true);
      do {
        wait();
      } while (!valid.read());
      sc_uint<8> shift = data.read();
      ready.write(false);
      tx.write(false);
      wait(DIVIDER);
      for (sc_uint<4> bit = 0; bit < 8; bit++) {
        tx.write(shift[0]);
        shift = shift >> 1;
        wait(DIVIDER);
      }
      tx.write(true);
      wait(DIVIDER);
    }
  }

  SC_CTOR(UartTx) {
    SC_CTHREAD(transmit, clk.pos());
    reset_signal_is(rst, true);
  }
};
