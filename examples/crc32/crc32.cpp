// The CRC-32 of Ethernet, gzip and PNG, one byte a cycle.
//
// A cycle with `start` 1 begins a message; each cycle with `valid` 1 takes a byte of it. `crc` is the checksum of the
// bytes so far, one cycle later. That of the text "123456789" is cbf43926. `rst` is a synchronous reset, active high.
//
// It shows: a function with a result whose calls are copied, nested loops of constants in the constructor, and a
// table of 16 entries, which becomes constants.
#include <systemc.h>

SC_MODULE(Crc32) {
  sc_in<bool> clk, rst;
  sc_in<bool> start, valid;
  sc_in<sc_uint<8> > data;
  sc_out<sc_uint<32> > crc;

  // entry i is what four steps of the division make of the nibble i
  unsigned table[16];
  sc_signal<sc_uint<32> > state;

  sc_uint<32> step(sc_uint<32> value, sc_uint<4> nibble) {
    sc_uint<4> index = value.range(3, 0) ^ nibble;
    return (value >> 4) ^ table[index];
  }

  void divide() {
    state.write(0xffffffff);
    wait();
    while (true) {
      sc_uint<32> next = state.read();
      if (start.read())
        next = 0xffffffff;
      if (valid.read()) {
        next = step(next, data.read().range(3, 0));
        next = step(next, data.read().range(7, 4));
      }
      state.write(next);
      wait();
    }
  }

  void show() { crc.write(state.read() ^ 0xffffffff); }

  SC_CTOR(Crc32) {
    for (int i = 0; i < 16; i++) {
      unsigned entry = i;
      for (int bit = 0; bit < 4; bit++) {
        if ((entry & 1) != 0)
          entry = (entry >> 1) ^ 0xedb88320;
        else
          entry = entry >> 1;
      }
      table[i] = entry;
    }
    SC_CTHREAD(divide, clk.pos());
    reset_signal_is(rst, true);
    SC_METHOD(show);
    sensitive << state;
  }
};
