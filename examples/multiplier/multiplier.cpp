// A pipelined multiplier: a product each cycle, W cycles after its factors.
//
// Stage k adds a * 2^k to the sum where bit k of b is 1. `valid` goes through the pipeline beside the numbers. `rst`
// is a synchronous reset, active high.
//
// It shows: a class template, modules that are made by `new` in a loop, constructor arguments that differ from stage
// to stage, an array of pointers, and vectors of signals.
#include <systemc.h>

template<int W>
SC_MODULE(Stage) {
  sc_in<bool> clk, rst;
  sc_in<bool> valid_in;
  sc_in<sc_uint<W> > a_in, b_in;
  sc_in<sc_uint<2 * W> > sum_in;
  sc_out<bool> valid_out;
  sc_out<sc_uint<W> > a_out, b_out;
  sc_out<sc_uint<2 * W> > sum_out;

  int place;

  void run() {
    valid_out.write(false);
    a_out.write(0);
    b_out.write(0);
    sum_out.write(0);
    wait();
    while (true) {
      sc_uint<2 * W> sum = sum_in.read();
      if (b_in.read()[place])
        sum = sum + (a_in.read() << place);
      valid_out.write(valid_in.read());
      a_out.write(a_in.read());
      b_out.write(b_in.read());
      sum_out.write(sum);
      wait();
    }
  }

  SC_HAS_PROCESS(Stage);
  Stage(sc_module_name name, int k) : sc_module(name), place(k) {
    SC_CTHREAD(run, clk.pos());
    reset_signal_is(rst, true);
  }
};

SC_MODULE(Multiplier) {
  static const int W = 8;

  sc_in<bool> clk, rst;
  sc_in<bool> valid_in;
  sc_in<sc_uint<W> > a, b;
  sc_out<bool> valid_out;
  sc_out<sc_uint<2 * W> > product;

  // element k is what stage k takes, element W what the last one gives
  sc_vector<sc_signal<bool> > valid;
  sc_vector<sc_signal<sc_uint<W> > > a_at, b_at;
  sc_vector<sc_signal<sc_uint<2 * W> > > sum_at;
  Stage<W>* stage[W];

  void front() {
    valid[0].write(valid_in.read());
    a_at[0].write(a.read());
    b_at[0].write(b.read());
    sum_at[0].write(0);
  }

  void back() {
    valid_out.write(valid[W].read());
    product.write(sum_at[W].read());
  }

  SC_CTOR(Multiplier)
      : valid("valid", W + 1), a_at("a_at", W + 1), b_at("b_at", W + 1), sum_at("sum_at", W + 1) {
    for (int k = 0; k < W; k++) {
      stage[k] = new Stage<W>("stage", k);
      stage[k]->clk(clk);
      stage[k]->rst(rst);
      stage[k]->valid_in(valid[k]);
      stage[k]->a_in(a_at[k]);
      stage[k]->b_in(b_at[k]);
      stage[k]->sum_in(sum_at[k]);
      stage[k]->valid_out(valid[k + 1]);
      stage[k]->a_out(a_at[k + 1]);
      stage[k]->b_out(b_at[k + 1]);
      stage[k]->sum_out(sum_at[k + 1]);
    }
    SC_METHOD(front);
    sensitive << valid_in << a << b;
    SC_METHOD(back);
    sensitive << valid[W] << sum_at[W];
  }
};
