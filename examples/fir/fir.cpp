// A FIR filter of 8 taps over signed samples of 16 bits.
//
// In each cycle with `valid_in` 1 a sample is taken; `valid_out` is 1 in the next cycle, with the sum of the last 8
// samples times their coefficients, without rounding. `rst` is a synchronous reset, active high.
//
// It shows: signed numbers, coefficients that the constructor leaves and that become constants, a function with a
// reference parameter, and counted loops, which are unrolled.
#include <systemc.h>

SC_MODULE(Fir) {
  static const int TAPS = 8;

  sc_in<bool> clk, rst;
  sc_in<bool> valid_in;
  sc_in<sc_int<16> > sample;
  sc_out<bool> valid_out;
  sc_out<sc_int<32> > result;

  sc_int<8> coefficient[TAPS];
  sc_int<16> delay[TAPS];

  void shift_in(sc_int<16> newest) {
    for (int i = TAPS - 1; i > 0; i--)
      delay[i] = delay[i - 1];
    delay[0] = newest;
  }

  void add_product(sc_int<32>& sum, sc_int<16> value, sc_int<8> factor) {
    sum = sum + value * factor;
  }

  void run() {
    for (int i = 0; i < TAPS; i++)
      delay[i] = 0;
    valid_out.write(false);
    result.write(0);
    wait();
    while (true) {
      if (valid_in.read()) {
        shift_in(sample.read());
        sc_int<32> sum = 0;
        for (int i = 0; i < TAPS; i++)
          add_product(sum, delay[i], coefficient[i]);
        result.write(sum);
      }
      valid_out.write(valid_in.read());
      wait();
    }
  }

  SC_CTOR(Fir) {
    // a low pass; its coefficients are the same from both ends
    for (int i = 0; i < TAPS / 2; i++) {
      int value = 3 + 9 * i;
      if (i == 0)
        value = -5;
      coefficient[i] = value;
      coefficient[TAPS - 1 - i] = value;
    }
    SC_CTHREAD(run, clk.pos());
    reset_signal_is(rst, true);
  }
};
