// A byte that goes from one clock to another. `asked` changes when a byte is given, `answered` follows when it was taken;
// each side sees the other's signal behind two registers of its own.
//
// It shows: several clocks, with --clocks. Processes at different clocks meet by signals alone.
#include <systemc.h>
SC_MODULE(Crossing) {
  sc_in<bool> fast, slow, rst;
  sc_in<bool> put;
  sc_in<sc_uint<8> > data;
  sc_out<bool> busy;
  sc_out<sc_uint<8> > taken;
  sc_signal<bool> asked, answered;
  sc_signal<sc_uint<8> > held;

  void give() {
    bool first = false, second = false;
    busy.write(false);
    asked.write(false);
    held.write(0);
    wait();
    while (true) {
      if (busy.read()) {
        if (second == asked.read()) busy.write(false);
      } else if (put.read()) {
        held.write(data.read());
        asked.write(!asked.read());
        busy.write(true);
      }
      second = first;
      first = answered.read();
      wait();
    }
  }

  void take() {
    bool first = false, second = false;
    answered.write(false);
    taken.write(0);
    wait();
    while (true) {
      if (second != answered.read()) {
        taken.write(held.read());
        answered.write(second);
      }
      second = first;
      first = asked.read();
      wait();
    }
  }

  SC_CTOR(Crossing) {
    SC_CTHREAD(give, fast.pos());
    reset_signal_is(rst, true);
    SC_CTHREAD(take, slow.pos());
    reset_signal_is(rst, true);
  }
};
